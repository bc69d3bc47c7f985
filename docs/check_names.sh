#!/bin/sh
# Holds the names that README.md and docs/ cite against the crates, and the examples that they show against examples/. It
# changes nothing, and ends with status 1 where something isn't so, which it tells with its place. It looks at these
# forms:
#
# - `crate/specs/File: name`, `name` ..   in any page: each name is stated in crates/crate/specs/File.antt, where File may
#                                         begin with folders. Further names stand in the same quotes, or in quotes behind
#                                         a comma; the word 'there' behind a name stands for the file cited last
# - `crate::function`: `clause`, ..       in README.md and docs/CLAIMS.md, in the last field of a table whose head ends
#                                         with | Clause |: the function stands in that crate's src/, and its contract has
#                                         each of these clauses. `function` alone is of the crate named last in that
#                                         field, or else by the heading; [`name`] is a definition, and is looked for in
#                                         the specs of any crate
# - `crate::Name` ..                      in any page: the crate's src/ has an item of that name, or passes it on from a
#                                         crate below whose src/ has it
# - `examples/NAME`, `docs/NAME` ..       in any page: the file is there
# - ## crate                              in docs/CLAIMS.md: the table of subjects on top leads to each heading
# - [words](path#heading)                 in any page: the file is there, and where it is a page of ours has that heading
# - `.ci/NAME`, `./NAME`, `crates/..`     in any page: the file is there, but for what is built in out/
# - a picture of an example               in README.md the block before 'This is [`examples/NAME.tmig`]', in
#                                         docs/FORMATS.md the block behind '`examples/NAME.tmig`': it has each line of the
#                                         script and of the report, in order
# - ```rust                               in docs/USE.md below a heading '## crate': the block's lines stand, one after the
#                                         other, in a file of crates/crate/src
# - `NAME` first in a row                 in examples/README.md: it is one of examples/, and each of examples/ is named there
#
# docs/DEFINITIONS.md is printed from the definitions, by docs/print_definitions.sh, which has a check of its own.
cd "$(dirname "$0")/.." || exit 1
exec python3 - <<'PYTHON'
import glob, os, re, sys

lines = [line.split(":") for line in open("crates.txt") if line.strip() and not line.startswith("#")]
crates = [of.split()[0] for of, _ in lines]
below = {of.split()[0]: names.split() for of, names in lines}
faults = []


def read(path):
    with open(path, encoding="utf-8") as file:
        return file.read()


def fault(path, number, what):
    faults.append(f"{path}:{number}: {what}")


# the beginning of a definition, which may stand in a module
HEADS = r"^\s*(?:(?:abbrev|unfoldable|opaque) )?(?:(?:abbrev|unfoldable) pub|pub|abbrev|unfoldable) (?!mod\b|use\b)(?:record |data )?"
stated = {}


def names_of(path):
    """The names that a file of definitions states: definitions, records with their fields, data with their cases."""
    if path not in stated:
        text = read(path) if os.path.isfile(path) else ""
        found = set(re.findall(HEADS + r"([^\s:({]+)", text, re.M))
        found |= set(re.findall(r"^\s+(?:pub )?(\w+)\s*:", text, re.M))
        stated[path] = found
    return stated[path]


sources = {}


def source_of(crate):
    if crate not in sources:
        sources[crate] = "\n".join(read(it) for it in sorted(glob.glob(f"crates/{crate}/src/**/*.rt", recursive=True)))
    return sources[crate]


def home_of(crate, name):
    """The crate whose item it is: this one, or the one from which it passes the item on."""
    for it in re.finditer(r"^pub use (\w+)::(?:\{([^}]*)\}|(\w+));", source_of(crate), re.M):
        if it[1] in below[crate] and it[1] in crates and name in re.findall(r"\w+", it[2] or it[3]):
            return home_of(it[1], name)
    return crate


def contracts_of(crate, function):
    """The heads of the functions of that name, from fn to the body, a line that is one brace or an empty body."""
    found = []
    for it in re.finditer(rf"\bfn {re.escape(function)}\b", source_of(crate)):
        rest = source_of(crate)[it.start():]
        ends = [x.start() for x in (re.search(r"^ *\{\}?\s*$", rest, re.M), re.search(r";\s*$", rest, re.M)) if x]
        found.append(rest[: min(ends, default=len(rest))])
    return found


def check_definition(path, number, crate, file, name):
    at = f"crates/{crate}/specs/{file}.antt"
    if crate not in crates:
        fault(path, number, f"there is no crate {crate}")
    elif not os.path.isfile(at):
        fault(path, number, f"there is no {at}")
    elif name not in names_of(at):
        fault(path, number, f"{at} doesn't state {name}")


def line_of(text, at):
    return text.count("\n", 0, at) + 1


CITE = re.compile(r"`(\w+)/specs/([\w/]+):\s+([^`]+)`((?:(?:,|;| and| with|, with| or)?\s+`[^`/:]+`(?:\s+there)?)*)")


def check_cites(path, text):
    for it in CITE.finditer(text):
        number = line_of(text, it.start())
        names = [it[3], *re.findall(r"`([^`]+)`", it[4])]
        for name in names:
            if re.fullmatch(r"[^\s.]+", name) and "::" not in name:
                if it[1] != "crate":
                    check_definition(path, number, it[1], it[2], name)
    for it in re.finditer(r"`(\w+)/specs/([\w/]+)`", text):
        if not os.path.isfile(f"crates/{it[1]}/specs/{it[2]}.antt"):
            fault(path, line_of(text, it.start()), f"there is no crates/{it[1]}/specs/{it[2]}.antt")
    for it in re.finditer(r"`((?:examples|docs|man|bench)/[\w./-]+)`", text):
        if "NAME" not in it[1] and not os.path.exists(it[1]):
            fault(path, line_of(text, it.start()), f"there is no {it[1]}")


anchors = {}


def headings_of(path):
    """The anchors of a page's headings, as pages on the web have them."""
    if path not in anchors:
        heads = re.findall(r"^#+ (.+)$", re.sub(r"^```.*?^```", "", read(path), flags=re.M | re.S), re.M)
        anchors[path] = {re.sub(r"[^\w -]", "", it.lower()).replace(" ", "-") for it in heads}
    return anchors[path]


def check_links(path, text):
    """Each link that isn't one to the web leads to a file that is there, and to a heading that it has."""
    for it in re.finditer(r"\]\((?!\w+:)([^)#\s]*)(?:#([^)\s]+))?\)", text):
        to = os.path.normpath(os.path.join(os.path.dirname(path), it[1])) if it[1] else path
        if not os.path.exists(to):
            fault(path, line_of(text, it.start()), f"there is no {to}")
        elif it[2] and it[2] not in headings_of(to):
            fault(path, line_of(text, it.start()), f"{to} has no heading {it[2]}")
    for it in re.finditer(r"`(?:\./(\w[\w./-]*)|((?:\.ci|crates)/[\w./-]+))", text):
        to = (it[1] or it[2]).rstrip("./")
        if "/out/" not in to and not re.search(r"[A-Z]{4}", to) and not os.path.exists(to):
            fault(path, line_of(text, it.start()), f"there is no {to}")


def check_items(path, text):
    """Each `crate::Name`, `crate::Type::call` is an item of that crate."""
    for it in re.finditer(r"`(?:impl \w+ of )?(\w+)::(\w+)(?:::(\w+))?", text):
        if it[1] not in crates:
            if it[1][0].islower() and it[1] not in ("std", "crate"):
                fault(path, line_of(text, it.start()), f"there is no crate {it[1]}")
            continue
        for name in (it[2], it[3]):
            if name and not re.search(rf"\b(?:fn|struct|enum|trait|const|type|mod|union) {name}\b|^\s+{name}\b", source_of(home_of(it[1], it[2])), re.M):
                fault(path, line_of(text, it.start()), f"crate {it[1]} has no {name}")


every = set()


def everywhere(name):
    """Whether the definitions of some crate state the name."""
    if not every:
        every.update(*(names_of(it) for it in glob.glob("crates/*/specs/**/*.antt", recursive=True)))
    return name in every


def check_claims(path, text):
    """The last field of each row of a table whose head is | Claim | Clause |."""
    within, heading = False, None
    for number, line in enumerate(text.split("\n"), 1):
        if line.startswith("## "):
            heading = line[3:].strip()
        crate = heading if heading in crates else None
        if not line.startswith("|"):
            within = False
            continue
        cells = [it.strip() for it in line.strip().strip("|").split("|")]
        if cells[-1] == "Clause":
            within = True
        if not within or cells[-1] == "Clause" or set(cells[-1]) <= set("-"):
            continue
        for name in re.findall(r"\[((?:`[^`]+`(?:, )?)+)\]", cells[-1]):
            for one in re.findall(r"`([^`]+)`", name):
                if not everywhere(one.split(".")[0]) or not everywhere(one.split(".")[-1]):
                    fault(path, number, f"no specs/ state {one}")
        for part in re.sub(r"\[[^\]]*\]", "", cells[-1]).split(";"):
            at = part.find("`:")
            functions, clauses = (part[: at + 1], part[at + 2 :]) if at >= 0 else (part, "")
            functions = re.findall(r"`([^`]+)`", functions)
            named = []
            for word in functions:
                words = word.split("::")
                if not words[0].split():
                    continue
                if words[0].split()[-1] in crates:
                    crate, words = words[0].split()[-1], words[1:]
                if crate and words:
                    named.append((home_of(crate, words[0]), words[-1]))
                elif not crate:
                    fault(path, number, f"no crate is named before {word}")
            for of, function in named:
                if not re.search(rf"\b(?:fn|struct|enum|trait|const) {re.escape(function)}\b", source_of(of)):
                    fault(path, number, f"crate {of} has no {function}")
            for clause in re.findall(r"`([^`]+)`", clauses):
                heads = [head for of, function in named for head in contracts_of(of, function)]
                if not any(re.search(rf"\b(?:ensures|requires)\*? {re.escape(clause)}\b", head) for head in heads):
                    fault(path, number, f"no contract of {', '.join(it for _, it in named)} has a clause {clause}")


def check_subjects():
    """The table on top of the claims leads to each crate that has any."""
    path = "docs/CLAIMS.md"
    text = read(path)
    led = set(re.findall(r"\]\(#(\w+)\)", text))
    for it in re.finditer(r"^## (.+)$", text, re.M):
        if it[1] not in crates:
            fault(path, line_of(text, it.start()), f"the heading {it[1]} is no crate")
        elif it[1] not in led:
            fault(path, line_of(text, it.start()), f"no subject on top leads to {it[1]}")


def is_within(lines, fields):
    """Whether these lines stand among the fields, in order."""
    rest = iter(fields)
    return all(line in rest for line in lines)


def check_picture(path, text, name, block):
    fields = [it for line in block.split("\n") for it in re.split(r"\s{2,}", line.strip())]
    for ending in ("tmig", "report"):
        if not is_within(read(f"examples/{name}.{ending}").split("\n")[:-1], fields):
            fault(path, line_of(text, text.index(block)), f"the picture isn't examples/{name}.{ending}")


def check_pictures():
    text = read("README.md")
    shown = re.findall(r"```\n((?:(?!```).)*)\n```\n\n(?:!\[[^\n]*\n+)?This is \[`examples/([\w-]+)\.tmig`\]", text, re.S)
    for block, name in shown:
        check_picture("README.md", text, name, block)
    if not shown:
        fault("README.md", 1, "there is no picture of an example")
    text = read("docs/FORMATS.md")
    for it in re.finditer(r"^`examples/([\w-]+)\.tmig`[^`]*```\n((?:(?!```).)*)\n```", text, re.M | re.S):
        check_picture("docs/FORMATS.md", text, it[1], it[2])


def check_uses():
    """Each block of code of docs/USE.md stands in a file of the crate of its heading."""
    path = "docs/USE.md"
    text = read(path)
    for part in re.finditer(r"^## (\w+)\n(.*?)(?=^## |\Z)", text, re.M | re.S):
        files = [[it.strip() for it in read(path).split("\n")] for path in glob.glob(f"crates/{part[1]}/src/**/*.rt", recursive=True)]
        for it in re.finditer(r"^```rust\n(.*?)\n```$", part[2], re.M | re.S):
            block = [line.strip() for line in it[1].split("\n")]
            if not any(lines[at : at + len(block)] == block for lines in files for at in range(len(lines))):
                fault(path, line_of(text, part.start(2) + it.start()), f"no file of crates/{part[1]}/src has these lines")


def check_examples():
    path = "examples/README.md"
    part = "".join(re.findall(r"^\| `.*?\|", read(path), re.M))
    named = set(re.findall(r"`([a-z][a-z0-9-]*)`", part))
    shown = [it for kind in ("report", "verdict", "found") for it in glob.glob(f"examples/*.{kind}")]
    there = {os.path.splitext(os.path.basename(it))[0] for it in shown}
    for name in sorted(named ^ there):
        fault(path, 1, f"examples/ and this page don't both have {name}")


check_pictures()
check_uses()
check_examples()
check_subjects()
pages = ["README.md", "crates/README.md", "examples/README.md", *sorted(it for it in glob.glob("docs/*.md") if it != "docs/DEFINITIONS.md")]
for page in pages:
    text = read(page)
    check_cites(page, text)
    check_links(page, text)
    check_items(page, text)
for page in ("README.md", "docs/CLAIMS.md"):
    check_claims(page, read(page))

faults = list(dict.fromkeys(faults))
for it in faults:
    print(it)
print(f"the pages: {len(faults)} faults")
sys.exit(1 if faults else 0)
PYTHON
