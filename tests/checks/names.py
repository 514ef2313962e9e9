"""Each name in backticks is a name of the project, and stands in the file that the text names for it."""
import re

from checks.files import fault_at, read

# A text that tells the past speaks of the present in these sections alone.
PRESENT = {"docs/CHANGES.md": ["Crates", "Where each thing is said"], "docs/PORT.md": [],
           "docs/DESIGN-PASS.md": []}


def texts(sources):
    """The texts whose names are checked."""
    return [f for f in sources.files if re.fullmatch(r"[A-Z]+\.md|docs/[A-Z]+\.md", f)]


def headings(text):
    return re.findall(r"^#+ (.*)", text, re.M)


def present(path):
    """The text of a file; where only some sections speak of the present, the others are empty lines."""
    text = read(path)
    if path not in PRESENT:
        return text
    kept = []
    for section in re.split(r"^(?=## )", text, flags=re.M):
        here = section[3:].split("\n")[0] in PRESENT[path]
        kept.append(section if here else "\n" * section.count("\n"))
    return "".join(kept)


def unknown_names(sources, path):
    text = present(path)
    for found in re.finditer(r"`([^`]+)`", text):
        name = " ".join(found[1].split())
        if not sources.knows(name):
            yield fault_at(path, text, found.start(), f"`{name}` is no name of the project")


def lost_targets(sources, path):
    """A command `make ..` in a block of commands."""
    text = present(path)
    for found in re.finditer(r"^    make (\w+)", text, re.M):
        if found[1] not in sources.targets:
            yield fault_at(path, text, found.start(), f"the Makefile has no {found[1]}")


def misplaced_names(sources, path):
    """A name right before a file in brackets, as in `over` (`cell/specs/Order`), is declared in that file."""
    text = present(path)
    for found in re.finditer(r"`([^`\s]+)`\s+\(`(\w+/(?:src|specs|proofs)/\w+)`", text):
        name, files = found[1], [f for f in sources.paths(found[2]) if f in sources.declared]
        if files and name not in sources.crates and not sources.declares(files, name):
            yield fault_at(path, text, found.start(), f"`{name}` is not declared in {found[2]}")


def misplaced_theorems(sources, path):
    """A row of a table of theorems ends with the files in which they stand."""
    text = present(path)
    for found in re.finditer(r"^\| (`[^|]*) \|[^|]*\| (`\w+/proofs/[^|]*) \|$", text, re.M):
        stems = re.findall(r"(\w+)`", found[2])
        folder = re.match(r"`(\w+/proofs)", found[2])[1]
        files = [f"crates/{folder}/{stem}.antt" for stem in stems]
        for name in re.findall(r"`([^`]+)`", found[1].split(" of ")[0]):
            if not sources.declares(files, name):
                yield fault_at(path, text, found.start(), f"`{name}` is not declared in {found[2]}")


def lost_paths(sources, path):
    """A file that is named without backticks, and a section of it, must be there."""
    text = present(path) if path.endswith(".md") else read(path)
    for found in re.finditer(r"(?<![\w/])((?:docs|tests|viewer|bench|include|program)/[\w.-]*\w)(?:, \"([^\"]+)\")?", text):
        if not sources.paths(found[1]):
            yield fault_at(path, text, found.start(), f"there is no {found[1]}")
        elif found[2] and " ".join(found[2].split()) not in headings(read(found[1])):
            yield fault_at(path, text, found.start(), f'{found[1]} has no section "{found[2]}"')


def untold_crates(sources):
    """README.md says of each crate what it holds."""
    for crate in sources.crates:
        if f"`{crate}`" not in read("README.md"):
            yield f"README.md:1: the crate {crate} is not told"


def name_faults(sources):
    for path in texts(sources):
        for check in (unknown_names, lost_targets, misplaced_names, misplaced_theorems):
            yield from check(sources, path)
    for path in sources.files:
        yield from lost_paths(sources, path)
    yield from untold_crates(sources)
