#!/bin/sh
# Prints docs/DEFINITIONS.md: each file of crates/NAME/specs with its first comment and the names that it states, crate by
# crate in the order of crates.txt. After a change there: docs/print_definitions.sh >docs/DEFINITIONS.md
#
# --check     prints nothing but where the page differs from that, and ends with status 1 if it does
# --long      prints no page, but each definition with the comment that stands above it
# --without   prints the definitions that have no comment, file by file
cd "$(dirname "$0")/.." || exit 1
exec python3 - "$@" <<'PYTHON'
import difflib, glob, re, sys

PAGE = "docs/DEFINITIONS.md"
# The beginning of a definition, also of one in a module: `abbrev` and `unfoldable`, records and data, and plain ones.
HEADS = (
    re.compile(r"^\s*(?:abbrev|unfoldable)(?! pub use\b)(?: pub)? ([^\s:({]+)"),
    re.compile(r"^\s*(?:pub )?(?:record|data) ([A-Z][^\s:({]*)"),
    re.compile(r"^pub (?!(?:mod|use|record|data)\b)([^\s:({]+)"),
)
# What the head of a file says, or a comment, where no public clause cites what is stated there.
PRIVATE = re.compile(r"no (?:public )?clause (?:of another crate )?(?:cites|speaks)")
HEAD = """# Definitions

What the contracts cite, file by file, in the order of [crates.txt](../crates.txt). `docs/print_definitions.sh` prints this
page: a file's first comment, and the names of the definitions in it. `docs/print_definitions.sh --long` prints a row for
each definition with its comment, for whoever wants to search. Fields and cases are explained in the file. The types that
definitions speak of (`Item`, `Script`, `Line` and so on) are those of the Rust sources in `crates/NAME/src`.

No public clause cites a file that is marked with * or one that says so: its definitions say how the code keeps or finds
something, or what functions inside a crate promise one another. Nobody has to believe them. A crate that isn't on this
page has no definitions of its own.
"""
LONG = """# Definitions, one by one

What the contracts cite, crate by crate: the comment above each definition of `crates/NAME/specs`. A * marks a file that no
public clause cites.
"""


def read(path):
    with open(path, encoding="utf-8") as file:
        return file.read().split("\n")


def comment_above(lines, at):
    """The words of the comment that ends above a line; the head of a file is none of a definition's."""
    first = at
    while first > 0 and lines[first - 1].lstrip().startswith("--"):
        first -= 1
    return " ".join(it.strip().removeprefix("--").strip() for it in lines[first:at]) if first else ""


def head_of(lines):
    words = []
    for it in lines:
        if not it.startswith("--"):
            break
        words.append(it.removeprefix("--").strip())
    return " ".join(words)


def definitions_of(lines):
    for at, line in enumerate(lines):
        found = [it[1] for it in (head.match(line) for head in HEADS) if it]
        if found:
            yield found[0], comment_above(lines, at)


def crates():
    lines = [it for it in read("crates.txt") if it.strip() and not it.startswith("#")]
    return [it.split(":")[0].split()[0] for it in lines]


def files_of(crate):
    return [(it[len(f"crates/{crate}/specs/") : -len(".antt")], read(it)) for it in
            sorted(glob.glob(f"crates/{crate}/specs/**/*.antt", recursive=True))]


def in_cell(words):
    return re.sub(r"(?<!\\)\|", r"\\|", words)


def page():
    out = [HEAD, "| File | What it says | Names |", "|---|---|---|"]
    for crate in crates():
        out += [it for it in (row(crate, file, lines) for file, lines in files_of(crate)) if it]
    return out


def row(crate, file, lines):
    names = " ".join(f"`{in_cell(name)}`" for name, _ in definitions_of(lines))
    head = head_of(lines)
    mark = " *" if PRIVATE.search(head) else ""
    return f"| [{crate}: {file}](../crates/{crate}/specs/{file}.antt){mark} | {in_cell(head)} | {names} |" if names else ""


def long_page():
    out, bare = [LONG], []
    for crate in crates():
        rows = []
        for file, lines in files_of(crate):
            name = file + (" *" if PRIVATE.search(head_of(lines)) else "")
            for definition, words in definitions_of(lines):
                rows.append(f"| {name} | `{in_cell(definition)}` | {in_cell(words)} |")
                name = ""
        if rows:
            out += [f"## {crate}", "", "| File | Definition | In words |", "|---|---|---|", *rows, ""]
        else:
            bare.append(f"`{crate}`")
    if bare:
        out.append(f"No definitions of their own have {', '.join(bare)}.")
    return out


def without():
    for crate in crates():
        for file, lines in files_of(crate):
            names = [name for name, words in definitions_of(lines) if not words]
            if names:
                print(f"crates/{crate}/specs/{file}.antt: {' '.join(names)}")


if "--without" in sys.argv[1:]:
    without()
elif "--check" in sys.argv[1:]:
    wanted = "\n".join(page()).rstrip("\n").split("\n") + [""]
    changes = list(difflib.unified_diff(read(PAGE), wanted, PAGE, "as docs/print_definitions.sh prints it", "", "", 0, ""))
    for it in changes:
        print(it)
    sys.exit(1 if changes else 0)
else:
    print("\n".join(long_page() if "--long" in sys.argv[1:] else page()).rstrip("\n"))
PYTHON
