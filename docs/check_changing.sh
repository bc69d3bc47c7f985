#!/bin/sh
# Holds docs/CHANGING.md against the crates, prints what differs, and ends with status 1 where something does:
#
# - `crate/src/FILE.rt: name, name ..`   the file is there, and states a function, type, trait or constant of each name
# - `crate/src/FILE.rt`, `crate/proofs/NAME`    the file is there; NAME may be a folder or a module
# - a section about an enum cites each file of its program's sources that names one of the enum's cases
# - 'Silent: ..' of such a section names each match on the enum's cases that has a catch-all, and no other
#
# Which section is about which enum stands below. docs/check_names.sh looks for the definitions that the page cites.
# --above NAME..   prints the crates that stand on these, with them: what a change there proves again
cd "$(dirname "$0")/.." || exit 1
exec python3 - "$@" <<'PYTHON'
import glob, os, re, sys

PAGE = "docs/CHANGING.md"
# Of each section: the enum that it is about, the crate that states it, and whether rows and benches count too.
SECTIONS = {
    "A step": ("core_world", "Step"),
    "A report line": ("tm_report", "Line"),
    "An operation of scripts": ("tm_script", "What"),
    "A check of kernel traces": ("linux_seen", "Rule"),
    "A line of kernel traces": ("linux_lines", "Happening"),
    "A command of tmig": ("program_texts", "Command"),
    "A command of tmigview": ("view_main", "Command"),
}


def read(path):
    with open(path, encoding="utf-8") as file:
        return file.read()


below, tests, floor = {}, set(), ""
for line in read("crates.txt").split("\n"):
    heading = re.match(r"# ([a-z ]+): ", line)
    if heading:
        floor = heading[1]
    elif line.strip() and not line.startswith("#"):
        name, _, names = line.partition(":")
        below[name.split()[0]] = names.split()
        if floor == "tests":
            tests.add(name.split()[0])


def above(names):
    """The crates that stand on one of these, and these, lowest first."""
    found = list(names)
    while True:
        more = [it for it in below if it not in found and any(one in found for one in below[it])]
        if not more:
            return [it for it in below if it in found]
        found += more


def silent_in(text, enum):
    """The functions with a match that has cases of the enum, and a catch-all behind them."""
    lines, function, found = text.split("\n"), None, []
    for at, line in enumerate(lines):
        head = re.match(r"\s*(?:pub(?:\(crate\))? )?fn (\w+)", line)
        function = head[1] if head else function
        it = re.match(r"(\s*)(?:_|\w+\(_\)|\(_, _\)) =>", line)
        for above_it in reversed(lines[:at] if it else []):
            depth = len(above_it) - len(above_it.lstrip())
            if above_it.strip() and depth < len(it[1]):
                break
            if depth == len(it[1]) and re.search(rf"\b{enum}::", above_it.split("=>")[0]):
                found.append(function)
                break
    return list(dict.fromkeys(found))


def is_of(source, enum, crates):
    """Whether a file that names an enum means that of these crates: it imports none of that name from elsewhere."""
    it = re.search(rf"^use (\w+)::[^;]*\b{enum}\b", source, re.M)
    return not it or it[1] in ("crate", "super", *crates)


def cited(text):
    """The files that a text cites, each with the names behind it."""
    for it in re.finditer(r"`(\w+/(?:src|proofs)(?:/[\w./]+)?)(?::\s+([^`]+))?`", text):
        yield it[1], re.findall(r"\w+", it[2] or "")


def check_section(title, text):
    crate, enum = SECTIONS[title]
    files = {file for file, _ in cited(text)}
    wanted = {}
    for one in above([crate]):
        for path in sorted(glob.glob(f"crates/{one}/src/**/*.rt", recursive=True)):
            source = read(path)
            if not re.search(rf"\b{enum}::", source) or os.path.basename(path) == "tests.rt":
                continue
            if not is_of(source, enum, above([crate])):
                continue
            file = path.removeprefix("crates/")
            functions = silent_in(source, enum)
            if functions and (one not in tests or file in files):
                wanted[file] = functions
            if file not in files and one not in tests:
                yield f"{title}: lacks {file}, which names cases of {enum}"
    said = re.search(r"^Silent: (.*?)(?=\n\n|\Z)", text, re.M | re.S)
    named = dict(cited(said[1] if said else ""))
    for file in sorted(wanted.keys() | named.keys()):
        if sorted(wanted.get(file, [])) != sorted(named.get(file, [])):
            yield f"{title}: silent in {file}: {', '.join(wanted.get(file, [])) or 'nothing'}"


if sys.argv[1:2] == ["--above"]:
    found = above([it for it in sys.argv[2:] if it in below])
    print(" ".join(found))
    print(f"{len(found)} of {len(below)} crates")
    sys.exit()
page = read(PAGE)
faults = []
for file, names in cited(page):
    at = f"crates/{file}"
    if not os.path.exists(at) and not os.path.exists(f"{at}.antt"):
        faults.append(f"there is no {at}")
        continue
    for name in names:
        if not re.search(rf"\b(?:fn|struct|enum|trait|const|type) {name}\b", read(at)):
            faults.append(f"{at} has no {name}")
sections = dict(re.findall(r"^## ([^\n]+)\n(.*?)(?=^## |\Z)", page, re.M | re.S))
for title in SECTIONS:
    faults += check_section(title, sections[title]) if title in sections else [f"there is no section {title}"]
for it in dict.fromkeys(faults):
    print(f"{PAGE}: {it}")
sys.exit(1 if faults else 0)
PYTHON
