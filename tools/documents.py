#!/usr/bin/env python3
"""Documents against the tree: python3 tools/documents.py

Says in one sentence each what the documents name and the tree does not have, or the other way round, and fails; prints what held where nothing is
wrong. The files of a request's note are left out: a note tells of its day.

    must-fail edits    docs/MUST-FAIL.md names each under its crate, in the column `edit` (names come first, a ':' or '(' ends them), and the laws and
                       functions beside it exist in that crate; docs/CHECK.md counts them, crate by crate and in all
    crates             crates.txt, the folders, docs/CHECK.md and docs/MUST-FAIL.md have the same
    definitions        docs/READING.md names each file of specs/
    paths              each file, module, law and function that a document cites is there
    refusals           README.md (the programs), the headers of include/ (the row calls), docs/READING.md (all, and the order of the
                       measuring run's) and the second implementation have the same numbers
    interface          PQ_HLG_ABI, CHANGELOG.md and tests/host/pq_hlg.rs name one version; so for HLG_PQ_ABI and SRGB_HLG_ABI
    sample             README.md shows the bytes of samples/glint.title, their samples, the lines of samples/glint.codes and that of samples/glint.peak
"""
import re
import sys
from pathlib import Path

ROOT = Path(__file__).resolve().parent.parent
CRATES = ROOT / "crates"
DOCUMENTS = sorted([*ROOT.glob("*.md"), *ROOT.glob("docs/*.md"), *ROOT.glob("tests/*/README.md"), ROOT / "bench/README.md"])
FOLDERS = ("crates", "docs", "tools", "tests", "include", "samples", "bench", ".ci")

# the lists of the scope (What stops a call) and of requests 01, 04, 11, 12 and 13, in the order of the tests
CARD = [1, 2, 3, 4]
CONVERT = [*CARD, 17, 10, 11, 9]
# by the section of README.md: `convert`, `measure`, `rewrite`
PROGRAMS = {"A title": CONVERT, "The peak of a title": [*CONVERT, 12], "Stored cards that name no peak": CARD}
# of a header's calls, one after the other
ROW_CALLS = {"include/pq_hlg.h": [5, 6, 7, 8, 9, 5, 15, 7, 8, 16], "include/hlg_pq.h": [6, 7, 8, 9], "include/srgb_hlg.h": [18, 7, 8]}
MEASURING_RUN = {"measure_row": [13, 6, 9], "measured_peak": [12]}
PIXEL_CALL_OF_CODES = [14]
ALL = {number for refusals in (*PROGRAMS.values(), *ROW_CALLS.values(), *MEASURING_RUN.values(), PIXEL_CALL_OF_CODES) for number in refusals}

# by the library: how CHANGELOG.md names the newest version of its interface
INTERFACES = {"pq_hlg": r"^## Interface (\d+)", "hlg_pq": r"`HLG_PQ_ABI` (\d+)", "srgb_hlg": r"`SRGB_HLG_ABI` (\d+)"}

faults, held = [], 0


def expect(fact, fault):
    global held
    if fact:
        held += 1
    else:
        faults.append(fault)


def read(path):
    return (ROOT / path).read_text(encoding="utf-8")


def tables(text):
    """the rows of each table as dictionaries by the column's heading"""
    heads = None
    for line in text.splitlines():
        if not line.startswith("|"):
            heads = None
            continue
        cells = [cell.strip() for cell in re.split(r"(?<!\\)\|", line)[1:-1]]
        if heads is None:
            heads = cells
        elif not set(line) <= set("|-: "):
            yield dict(zip(heads, cells))


def sections(text):
    """the text below each heading of the second level, by heading"""
    parts = re.split(r"^## (.*)$", text, flags=re.M)
    return dict(zip(parts[1::2], parts[2::2]))


def listed_crates():
    lines = (line.split("#")[0].strip() for line in read("crates.txt").splitlines())
    return [line.split(":")[0].split()[0] for line in lines if line]


def edits_of(crate):
    return {path.stem for path in (CRATES / crate / "must-fail").glob("*.edit")}


def text_of(crate):
    """all that a crate states, proves and computes, with the names of its files"""
    files = [path for part in ("src", "specs", "proofs") for path in sorted((CRATES / crate / part).rglob("*")) if path.suffix in (".rt", ".antt")]
    return "\n".join([*(path.read_text(encoding="utf-8") for path in files), *(path.stem for path in files)])


def has_name(text, name):
    return re.search(rf"(?<![\w-]){re.escape(name)}(?![\w-])", text) is not None


def quoted(text):
    return re.findall(r"`([^`]+)`", text)


def check_edits(crates):
    named = sections(read("docs/MUST-FAIL.md"))
    for heading in named:
        expect(heading in crates, f"docs/MUST-FAIL.md has a heading `{heading}`, which is no crate of crates.txt")
    for crate in crates:
        rows = [row for row in tables(named.get(crate, "")) if "edit" in row]
        told = [name.strip() for row in rows for name in re.split(r"[:(]", row["edit"])[0].split(",")]
        there = edits_of(crate)
        for name in sorted(there):
            times = told.count(name)
            expect(times == 1, f"docs/MUST-FAIL.md names the edit crates/{crate}/must-fail/{name}.edit {times} times under `{crate}`, not once")
        for name in sorted(set(told)):
            expect(name in there, f"docs/MUST-FAIL.md names the edit `{name}` under `{crate}`, and crates/{crate}/must-fail has no such edit")
        text = text_of(crate) if rows else ""
        for row in rows:
            for fact in quoted(row.get("fact", row.get("law", ""))):
                for name in re.split(r"[. ]", fact):
                    expect(has_name(text, name), f"docs/MUST-FAIL.md names the fact `{fact}` under `{crate}`, and the crate has no `{name}`")


def check_costs(crates):
    rows = {row["crate"]: row for row in tables(read("docs/CHECK.md")) if "must-fail edits" in row}
    total = rows.pop("all", None)
    expect(total is not None, "docs/CHECK.md has no row `all`")
    for crate in crates:
        expect(crate in rows, f"docs/CHECK.md has no row for the crate `{crate}`")
    for crate, row in rows.items():
        expect(crate in crates, f"docs/CHECK.md has a row `{crate}`, which is no crate of crates.txt")
        told, there = int(row["must-fail edits"] or 0), len(edits_of(crate))
        expect(told == there, f"docs/CHECK.md counts {told} must-fail edits for `{crate}`, there are {there}")
    there = sum(len(edits_of(crate)) for crate in crates)
    expect(total is None or int(total["must-fail edits"]) == there, f"docs/CHECK.md does not count {there} must-fail edits in all")


def check_crates(crates):
    folders = {path.name for path in CRATES.iterdir() if path.is_dir()}
    for crate in sorted(folders | set(crates)):
        expect(crate in folders and crate in crates, f"`{crate}` stands in only one of crates.txt and crates/")


def cited_parts(text):
    """crate, specs or proofs, file, law or nothing: what `quantity/specs/Units` cites, bare names of files after it on its line, names after a ':'"""
    for *place, names in re.findall(r"`(\w+)/(specs|proofs)/([A-Z]\w*)`: ((?:`[\w-]+`(?: \([^)]*\))?(?:, )?)+)", text):
        for name in quoted(names):
            yield (*place, name)
    for line in text.splitlines():
        place = None
        for name in quoted(line):
            whole = re.fullmatch(r"(?:crates/)?(\w+)/(specs|proofs)/([A-Z]\w*)(?:\.antt)?(?:\.([a-zA-Z][\w-]*))?", name)
            bare = re.fullmatch(r"([A-Z]\w*)(?:\.([a-zA-Z][\w-]*))?", name)
            if whole:
                place = whole.group(1, 2)
                yield (*place, *whole.group(3, 4))
            elif bare and place and (CRATES / place[0] / place[1] / f"{bare.group(1)}.antt").is_file():
                yield (*place, *bare.group(1, 2))


def check_definitions(crates):
    named = {(crate, name) for crate, part, name, _ in cited_parts(read("docs/READING.md")) if part == "specs"}
    for crate in crates:
        for path in sorted((CRATES / crate / "specs").glob("*.antt")):
            told = path.stem == "Lib" or (crate, path.stem) in named
            expect(told, f"docs/READING.md does not name `{crate}/specs/{path.stem}`, neither to read nor to skip")


def check_paths(crates):
    names = {path.name for folder in FOLDERS for path in (ROOT / folder).rglob("*") if "out" not in path.parts} | {"crates.txt"}
    sources = "\n".join(path.read_text(encoding="utf-8") for path in sorted(CRATES.glob("*/src/**/*.rt")))
    functions = set(re.findall(r"\bfn (\w+)", sources))
    stated = "\n".join(path.read_text(encoding="utf-8") for part in ("specs", "proofs") for path in sorted(CRATES.glob(f"*/{part}/**/*.antt")))
    laws = set(re.findall(r"^ *(?:(?:unfoldable|abbrev|pub) )*([a-z]\w*) :", stated, flags=re.M))
    for document in DOCUMENTS:
        text, where = document.read_text(encoding="utf-8"), document.relative_to(ROOT)
        for crate, part, name, law in cited_parts(text):
            path = CRATES / crate / part / f"{name}.antt"
            expect(path.is_file(), f"{where} cites `{crate}/{part}/{name}`, which is not there")
            if law and path.is_file():
                expect(has_name(path.read_text(encoding="utf-8"), law), f"{where} cites `{law}` in `{crate}/{part}/{name}`, which has it not")
        for path in re.findall(rf"(?<![\w/.])(?:{'|'.join(map(re.escape, FOLDERS))})/[\w./*-]*", text):
            path = path.rstrip(".,:;")
            if not re.search(r"\b(?:NAME|CRATE|EDIT|NN)\b", path):
                there = any(ROOT.glob(path)) if "*" in path else (ROOT / path).exists()
                expect(there, f"{where} cites {path}, which is not there")
        for module in re.findall(r"python3 -m ([\w.]+)", text):
            expect((ROOT / (module.rstrip(".").replace(".", "/") + ".py")).is_file(), f"{where} runs the module {module}, which is not there")
        for link in re.findall(r"\]\(([^)#:]+)\)", text):
            expect((document.parent / link).exists(), f"{where} links to {link}, which is not there")
        for name in quoted(text):
            if re.fullmatch(r"[a-z]\w*\.(py|c|rs|rt|h|antt|txt|svg)", name):
                expect(name in names, f"{where} names the file `{name}`, which is not there")
    for name in quoted(read("docs/READING.md")):
        if re.fullmatch(r"[a-z]+(_[a-z]+)+", name):
            expect(name in functions | laws or name in crates, f"docs/READING.md names `{name}`, a function, definition or law that no crate has")


def numbers(text):
    """5, 9 and 1 to 4 as numbers"""
    return [n for low, high in re.findall(r"(\d+)(?: to (\d+))?", text) for n in range(int(low), int(high or low) + 1)]


def check_refusals():
    named = sections(read("README.md"))
    for heading, refusals in PROGRAMS.items():
        told = [n for row in tables(named.get(heading, "")) if "refused" in row for n in numbers(row["refused"])]
        expect(told == refusals, f"README.md's table of refusals under `{heading}` has {told}, the program tests {refusals}")
    for header, refusals in ROW_CALLS.items():
        told = [int(number) for number in re.findall(r"^ +(\d+)  \S", read(header), flags=re.M)]
        expect(told == refusals, f"{header} has the refusals {told}, its row call tests {refusals}")
    rows = [row for row in tables(read("docs/READING.md")) if "refusal" in row]
    told = {n for row in rows for n in numbers(row["refusal"])}
    expect(told == ALL, f"docs/READING.md's table of refusals has {sorted(told)}, the scope and the requests {sorted(ALL)}")
    for call, refusals in MEASURING_RUN.items():
        told = [n for row in rows if call in quoted(row["promised by"]) for n in numbers(row["refusal"])]
        expect(told == refusals, f"docs/READING.md's table of refusals has {told} promised by `{call}`, which tests {refusals}")
    raised = {int(n) for path in (ROOT / "tests/reference").glob("*.py") for n in re.findall(r"\bRefused\((\d+)", path.read_text(encoding="utf-8"))}
    expect(raised == ALL, f"tests/reference raises the refusals {sorted(raised)}, the scope and the requests have {sorted(ALL)}")


def check_interface():
    for library, newest in INTERFACES.items():
        name = f"{library.upper()}_ABI"
        version = re.search(rf"^#define {name} (\d+)$", read(f"include/{library}.h"), flags=re.M)
        expect(version is not None, f"include/{library}.h defines no {name}")
        told = re.search(newest, read("CHANGELOG.md"), flags=re.M)
        expect(version and told and told.group(1) == version.group(1), f"CHANGELOG.md's newest interface is not the header's {name}")
        wrapped = re.search(r"version (\d+) of its interface", read(f"tests/host/{library}.rs"))
        expect(version and wrapped and wrapped.group(1) == version.group(1), f"tests/host/{library}.rs does not name the header's {name}")


def check_sample():
    rows = [row for row in tables(read("README.md")) if "bytes" in row]
    data = [bytes.fromhex(row["bytes"].strip("`")) for row in rows]
    expect(b"".join(data) == (ROOT / "samples/glint.title").read_bytes(), "README.md does not show the bytes of samples/glint.title")
    for row, pixel in zip(rows, data):
        told = " ".join(str(int.from_bytes(pixel[i:i + 2], "big")) for i in (0, 2, 4)) if row["PQ in"] else ""
        expect(row["PQ in"] == told, f"README.md reads the bytes {row['bytes']} as {row['PQ in']}, they are {told}")
    codes = [row["HLG out"] for row in rows if row["HLG out"]]
    expect(codes == read("samples/glint.codes").splitlines(), "README.md does not show the codes of samples/glint.codes")
    expect(read("samples/glint.peak").strip() in quoted(read("README.md")), "README.md does not show the line of samples/glint.peak")


def main():
    crates = listed_crates()
    check_crates(crates)
    check_edits(crates)
    check_costs(crates)
    check_definitions(crates)
    check_paths(crates)
    check_refusals()
    check_interface()
    check_sample()
    if faults:
        sys.exit("\n".join([*faults, f"documents: {len(faults)} of {len(faults) + held} facts do not hold"]))
    print(f"documents: {held} facts hold")


if __name__ == "__main__":
    main()
