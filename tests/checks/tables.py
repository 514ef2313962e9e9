"""The pages that are made from the sources: docs/REQUIRES.md, docs/SIZES.md and the picture of the layers."""
import re

from checks.files import fault_at, read, write
from checks.layers import picture
from checks.sources import crates

# The page that says in words what the functions of each file ask, and the one that has the seconds of each crate.
WORDS = "docs/CONTRACTS.md"
SECONDS = "docs/CHANGES.md"

REQUIRES = """# Functions that ask something

Every function with a `requires`, by file. Those with a star are public, for our other crates and files; the others are called only
from their own file. Each caller proves what is asked, and {words} says what that is. `tests/docs --write` makes this page.

| File | Functions |
|---|---|
{rows}
"""

SIZES = """# Sizes of the crates

All lines of the files in `src`, `specs` and `proofs`, blank lines and comments included, and the number of must-fail edits. A change
in a crate, be it of a proof alone, rechecks it and every crate above it in `crates.txt`: the last column has their number, itself
included, and the sum of their seconds in {seconds}, which are of the older kit. `tests/docs --write` makes this page.

| crate | code | definitions | laws and proofs | edits | a change rechecks |
|---|---|---|---|---|---|
{rows}
"""


def row(*cells):
    return "| " + " | ".join(cells) + " |"


def files_of(sources, crate, folder, ending):
    return [f for f in sources.files if f.startswith(f"crates/{crate}/{folder}/") and f.endswith(ending)]


# docs/REQUIRES.md


def asking(code):
    """The functions with a `requires`, each with a star if it is public."""
    found, current = [], None
    for line in code.splitlines():
        if head := re.match(r'\s*(pub(?:\(\w+\))? )?(?:extern "C" )?fn (\w+)', line):
            current = f"`{head[2]}`" + ("*" if head[1] else "")
        elif re.match(r"\s+requires\b", line) and current not in found:
            found.append(current)
    return found


def public_first(functions):
    return sorted(functions, key=lambda name: not name.endswith("*"))


def asking_files(sources):
    """The functions that ask something by their file, without `crates/` and ending."""
    every = [f for crate in crates() for f in files_of(sources, crate, "src", ".rt")]
    return {f[len("crates/") : -len(".rt")]: functions for f in every if (functions := asking(read(f)))}


def requires_page(sources):
    rows = [row(f"`{file}`", " ".join(public_first(names))) for file, names in asking_files(sources).items()]
    return REQUIRES.format(words=WORDS, rows="\n".join(rows))


def worded_files(cell, asking):
    """The files of a row of the table in words: `fabric/src/phase`, `slot`; or a whole folder, `shows/src`."""
    first, *more = re.findall(r"`([^`]+)`", cell)
    folder = first.rpartition("/")[0]
    named = [first] + [f"{folder}/{stem}" for stem in more]
    return [f for f in asking if f in named or f.rpartition("/")[0] in named]


def wording_faults(sources):
    """The table in words has each file that asks something, and no other."""
    text, asking = read(WORDS), asking_files(sources)
    table = re.search(r"^\| File \| What they ask \|\n\|---\|---\|\n((?:\|.*\n)+)", text, re.M)
    worded = set()
    for found in re.finditer(r"^\| (.*?) \|.*", table[1], re.M):
        files = worded_files(found[1], asking)
        worded.update(files)
        if not files:
            yield fault_at(WORDS, text, table.start(1) + found.start(), f"no function of {found[1]} has a `requires`")
    for file in asking:
        if file not in worded:
            yield fault_at(WORDS, text, table.start(), f"what the functions of {file} ask is not said")


# docs/SIZES.md


def lines_of(sources, crate, folder, ending):
    return sum(read(f).count("\n") for f in files_of(sources, crate, folder, ending))


def sizes_of(sources, crate):
    """Lines of code, of definitions and of proofs, and the number of edits."""
    return [
        lines_of(sources, crate, "src", ".rt"),
        lines_of(sources, crate, "specs", ".antt"),
        lines_of(sources, crate, "proofs", ".antt"),
        len(files_of(sources, crate, "must-fail", ".edit")),
    ]


def seconds_of_checks():
    """The seconds that each crate's check took, as the page that has them says; none where it has a dash."""
    rows = re.findall(r"^\| `(\w+)` \| ([\d,]+|–) \| (?:[\d,]+|–) \|$", read(SECONDS), re.M)
    return {crate: int(seconds.replace(",", "").replace("–", "0")) for crate, seconds in rows}


def rechecked(crate, seconds):
    named, again = crates(), [crate]
    for c in named:  # bottom up, so that what c names has been asked before
        if any(d in again for d in named[c]):
            again.append(c)
    many = "itself" if len(again) == 1 else f"{len(again)} crates"
    return f"{many}, {sum(seconds.get(c, 0) for c in again)} s"


def seconds_faults():
    """The table of seconds has a row for each crate, in the order of crates.txt."""
    if list(seconds_of_checks()) != list(crates()):
        yield f"{SECONDS}:1: the table of seconds has not just the crates of crates.txt, in their order"


def sizes_page(sources):
    seconds, all_sizes, rows = seconds_of_checks(), [0] * 4, []
    for crate in crates():
        sizes = sizes_of(sources, crate)
        all_sizes = [a + b for a, b in zip(all_sizes, sizes)]
        rows.append(row(f"`{crate}`", *(f"{n:,}" for n in sizes), rechecked(crate, seconds)))
    rows.append(row("all", *(f"{n:,}" for n in all_sizes), ""))
    return SIZES.format(seconds=SECONDS, rows="\n".join(rows))


# All of them


def pages(sources):
    return {
        "docs/REQUIRES.md": requires_page(sources),
        "docs/SIZES.md": sizes_page(sources),
        "docs/layers.svg": picture(),
    }


def stale_line(old, new):
    """The first line, counted from 1, in which two texts part."""
    pairs = zip(old.splitlines() + [None], new.splitlines() + [None])
    return next((n for n, (a, b) in enumerate(pairs, 1) if a != b), 1)


def table_faults(sources):
    yield from wording_faults(sources)
    yield from seconds_faults()
    for path, page in pages(sources).items():
        if path not in sources.files:
            yield f"{path}:1: the page is missing; tests/docs --write makes it"
        elif read(path) != page:
            yield f"{path}:{stale_line(read(path), page)}: the page is stale; tests/docs --write makes it anew"


def write_pages(sources):
    for path, page in pages(sources).items():
        write(path, page)
