#!/usr/bin/env python3
"""Brings the repository's own definitions and lemmas to snake case, as the toolchain spells its own.

    tools/respell.py           at the top of the repository: rewrites crates/ in place
    tools/respell.py --check   writes nothing; lists names that would fall together, and what else is to be looked at

`codeSignal` becomes `code_signal`, `entry-rule` becomes `entry_rule`, and a prime becomes an apostrophe. Types and modules keep their camel case, the
documents' symbols (J, H, KS, M1) their capitals, and functions of src/, strings, inputs and outputs are not touched. A lemma that would take the
name of a definition ends in `_lem`. A name that a file imports from the toolchain's libraries stays, as does what the toolchain makes of a function's
code (behind `tie.`, or beginning with a capital). In a source file the clauses and the `ghost use` items turn; in a must-fail edit the lines `old:`
and `new:`; in a comment only names that the repository declares."""
import collections
import os
import re
import sys

# an operator's law whose word names no function: a plain word hangs on by an underscore, as the toolchain has it in `≼_refl`
LAW = re.compile(r"([≼≺≈⊞⊟⊠⊘])-(refl|sym|trans|comm|cong|left|cancel)\b")
NAME = re.compile(r"[A-Za-z_αβγδλμκτ](?:[\w'′]|-(?=[\w'′]))*[→←]?")
USE = re.compile(r"(?:ghost\s+)?use\s+([\w.+'′·-]+?)\.\{([^}]*)\}|(?:ghost\s+)?use\s+([\w.+'′·-]+)(?:\s+as\s+([\w'′-]+))?", re.S)
CLAUSE = re.compile(r"(?:requires|ensures|invariant)\s*\*?\s*(?:[\w]+\s*)?\{|ghost\s+\w+\s*:\s*\{|ghost\s+use\b")


def own_module(module, crates):
    parts = module.split(".")
    return parts[0] == "Rattle" and len(parts) > 1 and parts[1] in crates


def snake(name):
    """The name in snake case: an acronym is a word, and a symbol (a lone capital, or a word of capitals at the head of a part) stays where it began a part."""
    tail = ""
    if name[-1] in "→←":
        name, tail = name[:-1], name[-1]
    name = name.replace("′", "'")
    out = []
    for part in name.split("-"):
        if part and part[0].islower():
            part = re.sub(r"(?<=[a-z0-9'])([A-Z]+)", lambda m: "_" + m.group(1).lower(), part)
        out.append(part)
    return "_".join(out) + tail


# lemmas that have the snake case of a definition's name already, since a library spells them so
TURNED = {"at_test", "code_read", "cut_short", "entry_in", "in_cell", "last_code", "of_values"}


def turns(name):
    if "-" not in name and not (name[0].islower() and re.search("[A-Z]", name)) and "′" not in name:
        return False
    head = name.split("-")[0]
    return not (re.fullmatch(r"[A-Z][a-z]\w*", head) and "-" in name)


class File:
    def __init__(self, path, crates):
        self.path = path
        self.text = open(path, encoding="utf-8").read()
        self.kept = set()
        for m in USE.finditer(self.code() if path.endswith(".antt") else self.text):
            module = m.group(1) or m.group(3)
            if own_module(module, crates):
                continue
            for item in (m.group(2) or "").split(","):
                for word in item.split(" as "):
                    self.kept.add(word.strip())
            if m.group(4):
                self.kept.add(m.group(4))
            self.kept.update(module.split("."))

    def code(self):
        return "\n".join(l.split("--", 1)[0] if re.search(r"(^|\s)--", l) else l for l in self.text.split("\n"))


def declared(files, fields=None):
    """The names that the repository's own antt files declare: at the head of a signature, of a field or of a constructor. Fields go into `fields` too."""
    names = set()
    marks = r"(?:(?:pattern|unfoldable|abbrev|pub|private|instance|axiom|data|record|module)\s+)*"
    word = r"[^\s:(){}.;,@\"]+"
    head = re.compile(rf"^\s*{marks}((?:{word}\s+)*?{word})\s*(?:\{{[^}}]*\}}\s*)?:(?:\s|$)")
    for f in files:
        if f.path.endswith(".antt"):
            record = False
            for line in f.code().split("\n"):
                m = head.match(line)
                if m:
                    names.update(m.group(1).split())
                if re.match(r"\s*(pub )?record\b.*\bwhere\b", line):
                    record = True
                elif line and not line.startswith(" "):
                    record = False
                elif m and record and fields is not None:
                    fields.update(m.group(1).split())
    return names


def turn_words(text, kept, said, only=None):
    def one(m):
        name = m.group(0)
        before = text[max(0, m.start() - 4) : m.start()]
        path = before.endswith(".") or text[m.end() :].startswith(".")
        if name in TURNED and only is None and not path:
            said[name] = name + "_lem"
            return said[name]
        if before.endswith("tie.") or name in kept or not turns(name) or (only is not None and name not in only):
            return name
        new = snake(name)
        if name in TWINS and not before.endswith("."):
            new += "_lem"
        if new != name:
            said[name] = new
        return new

    return LAW.sub(r"\1_\2", NAME.sub(one, text))


def turn_antt(f, own, said):
    lines = []
    for line in f.text.split("\n"):
        m = re.search(r"(?:^|(?<=\s))--", line)
        code, note = (line[: m.start()], line[m.start() :]) if m else (line, "")
        imported = re.match(r"\s*use\s+([\w.+'′-]+)", code)
        if imported and not own_module(imported.group(1), CRATES):
            lines.append(line)
            continue
        lines.append(turn_words(code, f.kept, said) + turn_note(note, f.kept, own, said))
    return "\n".join(lines)


def turn_note(note, kept, own, said):
    """In a comment, names in camel case wherever they stand, and names with dashes in a code span."""
    note = re.sub(r"`[^`]*`", lambda m: turn_words(m.group(0), kept, said, own), note)
    return turn_words(note, kept, said, {n for n in own if "-" not in n})


def turn_source(f, own, said):
    out, i = [], 0
    text = f.text
    for m in CLAUSE.finditer(text):
        if m.start() < i:
            continue
        out.append(text[i : m.start()])
        if m.group(0).startswith("ghost use"):
            end = text.index(";", m.start()) + 1
            item = text[m.start() : end]
            module = re.match(r"ghost\s+use\s+([\w.+'′-]+)", item).group(1)
            out.append(turn_words(item, f.kept, said, own) if own_module(module, CRATES) else item)
        else:
            end, depth = m.end(), 1
            while depth:
                depth += {"{": 1, "}": -1}.get(text[end], 0)
                end += 1
            out.append(turn_words(text[m.start() : end], f.kept, said, own))
        i = end
    out.append(text[i:])
    text = "".join(out)
    return "\n".join(l if "//" not in l else l.split("//", 1)[0] + "//" + turn_note(l.split("//", 1)[1], f.kept, own, said) for l in text.split("\n"))


def turn_edit(path, target, own, said):
    kept = target.kept if target else set()
    lines = []
    for line in open(path, encoding="utf-8").read().split("\n"):
        if line.startswith(("old:", "new:")):
            line = turn_words(line, kept, said, None if target and target.path.endswith(".antt") else own)
        elif not line.startswith("file:"):
            line = turn_note(line, kept, own, said)
        lines.append(line)
    return "\n".join(lines)


def falls_together(f, said):
    """Turned names whose new spelling the file already had for something else."""
    words = set(NAME.findall(f.code() if f.path.endswith(".antt") else f.text))
    by_new = collections.defaultdict(set)
    for old in said:
        by_new[said[old]].add(old)
    for new, olds in sorted(by_new.items()):
        if len(olds) > 1:
            yield f"{f.path}: {', '.join(sorted(olds))} all become {new}"
        elif new in words:
            yield f"{f.path}: {', '.join(olds)} becomes {new}, which stands there already"


def hidden(f, said):
    """Parameters that would hide a turned name in the clauses of their function."""
    for m in re.finditer(r"\bfn\s+(\w+)\s*(?:<[^>]*>)?\(([^{}]*?)\)(.*?)\n\{", f.text, re.S):
        parameters = set(re.findall(r"(\w+)\s*:", m.group(2)))
        for name in NAME.findall(m.group(3)):
            if name in said and said[name] in parameters:
                yield f"{f.path}: in {m.group(1)} the parameter {said[name]} hides what was {name}"


def main():
    check = sys.argv[1:] == ["--check"]
    paths = []
    for folder, folders, names in os.walk("crates"):
        folders[:] = sorted(d for d in folders if d != "out")
        paths += [os.path.join(folder, n) for n in sorted(names)]
    files = {p: File(p, CRATES) for p in paths if p.endswith((".antt", ".rt"))}
    fields = set()
    names = declared(files.values(), fields)
    own = {n for n in names if turns(n)}
    camel = {snake(n) for n in own if "-" not in n}
    TWINS.update(n for n in own if "-" in n and n not in fields and snake(n) in camel)
    look, turned = [], {}
    for p, f in files.items():
        said = {}
        turned[p] = (turn_antt if p.endswith(".antt") else turn_source)(f, own, said)
        look += falls_together(f, said)
        if p.endswith(".rt"):
            look += hidden(f, said)
    for p in paths:
        if p.endswith(".edit"):
            crate = p.split("/must-fail/")[0]
            m = re.search(r"^file:\s*(\S+)", open(p, encoding="utf-8").read(), re.M)
            turned[p] = turn_edit(p, files.get(os.path.join(crate, m.group(1))) if m else None, own, {})
    print("\n".join(look))
    if not check:
        for p, text in turned.items():
            if text != open(p, encoding="utf-8").read():
                with open(p, "w", encoding="utf-8") as out:
                    out.write(text)
    return 0


TWINS = set()
CRATES = {d for d in os.listdir("crates") if os.path.isdir(os.path.join("crates", d, "src"))}

if __name__ == "__main__":
    raise SystemExit(main())
