#!/bin/sh
# Prints crates/README.md: the floors of crates.txt, and for each crate the first sentence of its root file. After a
# change of either: docs/print_crates.sh >crates/README.md
#
# --check     prints nothing but what is wrong, and ends with status 1 if something is: where that page differs, where the
#             map of docs/ARCHITECTURE.md hasn't the floors and crates of crates.txt in their order, and where a crate
#             stands on one below it in the list that the head of the list doesn't name for it
cd "$(dirname "$0")/.." || exit 1
exec python3 - "$@" <<'PYTHON'
import difflib, os, re, sys

PAGE, MAP = "crates/README.md", "docs/ARCHITECTURE.md"
HEAD = """# The crates

`docs/print_crates.sh` prints this page: the floors of [crates.txt](../crates.txt), lowest first, and of each crate the first
sentence of its root file. [ARCHITECTURE.md](../docs/ARCHITECTURE.md) has a map with more of each, and
[CHANGING.md](../docs/CHANGING.md) which files a change touches.
"""


def read(path):
    with open(path, encoding="utf-8") as file:
        return file.read().split("\n")


def floors():
    """The head of crates.txt, and its floors: a name, what is on it, and its crates with what each stands on."""
    head, found = [], []
    for line in read("crates.txt"):
        heading = re.match(r"# ([a-z ]+): (.+)", line)
        if heading:
            found.append((heading[1], heading[2], []))
        elif line.startswith("#"):
            head.append(line.removeprefix("#").strip())
        elif line.strip():
            name, _, below = line.partition(":")
            if not found:
                sys.exit(f"crates.txt: {name} stands before the first floor's heading")
            found[-1][2].append((name.split()[0], below.split()))
    return " ".join(head), found


def first_sentence(crate):
    """Where a crate's root file is, and the first sentence of the comment at its head."""
    root = next(it for it in ("lib.rt", "main.rt") if os.path.isfile(f"crates/{crate}/src/{it}"))
    words = []
    for line in read(f"crates/{crate}/src/{root}"):
        text = line.removeprefix("//!").strip()
        if not line.startswith("//!") or not text:
            break
        words.append(text)
    return f"{crate}/src/{root}", re.split(r"(?<=[.!?])\s", " ".join(words))[0]


def page():
    out = [HEAD]
    for name, what, crates in floors()[1]:
        out += [f"## {name}", "", f"{what[0].upper()}{what[1:]}.", "", "| Crate | What it is |", "|---|---|"]
        for crate, _ in crates:
            root, said = first_sentence(crate)
            out.append(f"| [{crate}]({root}) | {said.replace('|', chr(92) + '|')} |")
        out.append("")
    return "\n".join(out).rstrip("\n").split("\n")


def mapped():
    """The lines of the map's floors and crates: two spaces before a floor, four before a crate."""
    inside = "\n".join(read(MAP)).partition("\n## The map\n")[2].partition("```\n")[2].partition("\n```")[0]
    found = []
    for line in inside.split("\n"):
        it = re.match(r"  (?:  (\w+)|([a-z][a-z ]*?))(?:\s{2}|$)", line)
        if it and it[1]:
            found.append(f"    {it[1]}")
        elif it:
            found.append(f"  {it[2]}")
    return found


def differences(old, new, what_old, what_new):
    return list(difflib.unified_diff(old, new, what_old, what_new, "", "", 0, ""))


def check():
    head, listed = floors()
    wanted, faults, above = [], [], set()
    for name, _, crates in listed:
        wanted.append(f"  {name}")
        wanted += [f"    {crate}" for crate, _ in crates]
    every = {crate for _, _, crates in listed for crate, _ in crates}
    for _, _, crates in listed:
        for crate, below in crates:
            above.add(crate)
            for it in below:
                if it in every and it not in above and not re.search(rf"\b{crate}\b.*\b{it}\b", head):
                    faults.append(f"crates.txt: {crate} stands on {it}, which comes behind it")
    faults += differences(mapped(), wanted, f"{MAP}, its map", "crates.txt")
    faults += differences(read(PAGE), page() + [""], PAGE, "as docs/print_crates.sh prints it")
    return faults


if "--check" in sys.argv[1:]:
    faults = check()
    for it in faults:
        print(it)
    sys.exit(1 if faults else 0)
print("\n".join(page()))
PYTHON
