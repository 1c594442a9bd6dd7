#!/usr/bin/env python3
"""Try must-fail edits one by one: python3 tools/must_fail.py CRATE [EDIT ...]

Applies each edit of crates/CRATE/must-fail to a copy of the crates, checks the crate there and prints the facts that the prover refuses, so that
docs/MUST-FAIL.md can name them. Without EDIT every edit of the crate is tried; --applies only says whether each one still finds its text.
"""
import re
import shutil
import subprocess
import sys
import tempfile
from pathlib import Path

ROOT = Path(__file__).resolve().parent.parent


def blocks(text):
    """the (file, old, new) triples of an edit"""
    found, name = [], None
    for line in text.splitlines():
        word, _, rest = line.partition(":")
        if word == "file":
            name = rest.strip()
        elif name and word == "old":
            found.append([name, rest[1:], ""])
        elif found and word == "new":
            found[-1][2] = rest[1:]
    return found


def apply(folder, edit):
    """the edit's replacements inside a crate's folder; a sentence where one does not find its text just once"""
    for name, old, new in blocks(edit.read_text()):
        path = folder / name
        text = path.read_text() if path.exists() else ""
        if text.count(old) != 1:
            return f"{name}: {text.count(old)} places for {old.strip()!r}"
        path.write_text(text.replace(old, new))
    return ""


def refused(crate, edit):
    """the lines of a check of the edited crate that name what failed"""
    with tempfile.TemporaryDirectory() as place:
        tree = Path(place) / "tree"
        shutil.copytree(ROOT / "crates", tree / "crates", ignore=shutil.ignore_patterns("out"))
        shutil.copy(ROOT / "crates.txt", tree)
        fault = apply(tree / "crates" / crate, edit)
        if fault:
            return False, [fault]
        run = subprocess.run(["rt", "check"], cwd=tree / "crates" / crate, capture_output=True, text=True)
        lines = (run.stdout + run.stderr).replace(str(tree), "").splitlines()
    told = [line for line in lines if re.search(r"error:|not proved|has no `", line)]
    first = [line for line in told if not re.search(r"was not admitted|which is not proved", line)]  # without what only follows
    return run.returncode != 0, [line[:300] for line in first[:12]]


def main():
    words = [word for word in sys.argv[1:] if not word.startswith("--")]
    if not words:
        sys.exit(__doc__)
    crate, names = words[0], words[1:]
    edits = [e for e in sorted((ROOT / "crates" / crate / "must-fail").glob("*.edit")) if not names or e.stem in names]
    faults = 0
    for edit in edits:
        if "--applies" in sys.argv:
            with tempfile.TemporaryDirectory() as place:
                shutil.copytree(ROOT / "crates" / crate, Path(place) / crate)
                told = apply(Path(place) / crate, edit)
            faults += bool(told)
            print(f"{crate}/{edit.stem}: {told or 'applies'}")
            continue
        failed, told = refused(crate, edit)
        faults += not failed
        print(f"{crate}/{edit.stem}: {'refused' if failed else 'NOT REFUSED'}")
        print("\n".join("    " + line for line in told))
    sys.exit(bool(faults))


if __name__ == "__main__":
    main()
