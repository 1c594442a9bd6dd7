"""What the generators of tables and hints share: their command line, and the comparison of stored files with what they print."""
import sys
from pathlib import Path

ROOT = Path(__file__).resolve().parent.parent


def run(arguments, usage, files):
    """Prints the file that a word names, or compares all of them with what is stored; `files` has for each word a path and what makes its lines."""
    texts = {word: lambda lines=lines: "\n".join(lines()) + "\n" for word, (_, lines) in files.items()}
    if arguments == ["--check"]:
        wrong = [path for word, (path, _) in files.items() if path.read_text(encoding="utf-8") != texts[word]()]
        for path in wrong:
            print(f"{path.relative_to(ROOT)} differs from what this program prints", file=sys.stderr)
        return 1 if wrong else 0
    if len(arguments) != 1 or arguments[0] not in files:
        print(usage, file=sys.stderr)
        return 2
    sys.stdout.reconfigure(encoding="utf-8")
    sys.stdout.write(texts[arguments[0]]())
    return 0
