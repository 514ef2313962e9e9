"""Each refusal has one number, one word and one name in code wherever it is told; docs/SCOPE.md has the words."""
import re

from checks.files import fault_at, line_at, read

EVERY = set(range(1, 16))
# The players check no table, lend no buffer, have no cues and set no output fair.
OF_THE_PLAYERS = EVERY - {2, 10, 11, 12, 13, 14, 15}
# The host of the output-queued switch reads no text and has no cues.
OF_THE_OQ = EVERY - {9, 11, 12, 13}
# What the names of C begin with.
PREFIXES = ("CROSSBAR", "OQ")


class Told:
    """A refusal as some file tells it: its number, its word and, where the file has them, the name that it has in code
    and when it comes. `line` is where it stands."""

    def __init__(self, line, number, word, name=None, when=None):
        self.line, self.number, self.word, self.name, self.when = line, int(number), word, name, when


def told(path, pattern):
    """The refusals that a file tells, by the groups of a pattern: number, word, name, when."""
    text = read(path)
    for found in re.finditer(pattern, text, re.M):
        yield Told(line_at(text, found.start()), **found.groupdict())


def by_place(path, pattern):
    """The refusals of a file that gives them their numbers by their order, from 1."""
    text = read(path)
    for number, found in enumerate(re.finditer(pattern, text, re.M), 1):
        yield Told(line_at(text, found.start()), number, **found.groupdict())


def snakes(name):
    """`BadSize` as C writes it: `CROSSBAR_BAD_SIZE` and `OQ_BAD_SIZE`."""
    return [prefix + re.sub(r"([A-Z])", r"_\1", name).upper() for prefix in PREFIXES]


def spelled(when):
    """When a refusal comes, with one word for the number of ports."""
    return when and when.replace("the number of ports", "N")


def scope_refusals():
    """The refusals as scope 6 has them, by number."""
    return {t.number: t for t in told("docs/SCOPE.md", r"^\| (?P<number>\d+) \| (?P<word>[a-z ]+) \| (?P<when>.*) \|$")}


def code_names():
    """The names in code, by number."""
    cases = re.findall(r"^    (\w+) = (\d+),$", read("crates/cell/src/lib.rt"), re.M)
    return {int(number): name for name, number in cases}


def compare(path, tellings, scope, names, numbers):
    """The faults of a file that is to tell just these refusals."""
    met = set()
    for t in tellings:
        met.add(t.number)
        if t.number not in numbers:
            yield f"{path}:{t.line}: no refusal {t.number} belongs here"
            continue
        want = scope[t.number]
        # where there are no cues, no cue store is lent
        when = want.when if 13 in numbers else want.when.replace(" or cue store", "")
        if t.word not in (None, want.word):
            yield f'{path}:{t.line}: refusal {t.number} is "{t.word}", in docs/SCOPE.md "{want.word}"'
        if t.name not in (None, names[t.number], *snakes(names[t.number])):
            yield f"{path}:{t.line}: refusal {t.number} is {t.name}, in crates/cell/src/lib.rt {names[t.number]}"
        if t.when and spelled(t.when) != when:
            yield f'{path}:{t.line}: refusal {t.number} comes when "{t.when}", in docs/SCOPE.md "{when}"'
    for number in sorted(numbers - met):
        yield f"{path}:1: refusal {number}, {scope[number].word}, is missing"


def mentions(path, scope, names):
    """A text tells some refusals, as `7, falling rank` or `[CROSSBAR_FULL] = "full"`: each word with its number or name."""
    text, numbers = read(path), {t.word: n for n, t in scope.items()}
    words = {name: t.word for n, t in scope.items() for name in snakes(names[n])}
    for found in re.finditer(r"(\d+), ((?:" + "|".join(numbers) + r")\b)", text):
        if numbers[found[2]] != int(found[1]):
            yield fault_at(path, text, found.start(), f'"{found[2]}" is refusal {numbers[found[2]]}')
    for found in re.finditer(r'\[(\w+)\] = "([^"]+)"', text):
        if found[2] != words.get(found[1]):
            yield fault_at(path, text, found.start(), f'{found[1]} is "{words.get(found[1])}"')


def host_order(names):
    """The host's crate takes a number apart by a list of the names."""
    path, text = "host/src/lib.rs", read("host/src/lib.rs")
    found = re.search(r"use Refusal::\*;\s*\[(.*?)\]", text, re.S)
    if re.findall(r"\w+", found[1]) != [names[n] for n in sorted(names)]:
        yield fault_at(path, text, found.start(), "the names do not stand in the order of their numbers")


def tellings():
    """Each file that tells refusals, what it tells, and the numbers that it has to tell."""
    case = r"^    // (?P<word>[a-z ]+): (?P<when>.*)\n    (?P<name>[A-Z]\w+) = (?P<number>\d+),$"
    named = r"^    /// (?P<word>[a-z ]+): (?P<when>.*)\n    (?P<name>[A-Z]\w+),$"
    macro = r"^#define (?P<name>\w+) +(?P<number>\d+)u +/\* (?P<word>[a-z ]+): (?P<when>.*) \*/$"
    row = r'^    (?P<number>\d+): \("(?P<word>.*)", "(?P<when>.*)"\),$'
    item = r"^\.TP\n(?P<number>\d+)\n(?P<word>[a-z ]+):"
    # The manual page says in its own words, of a trace's lines, when a refusal comes.
    yield "crates/cell/src/lib.rt", told("crates/cell/src/lib.rt", case), EVERY
    yield "host/src/lib.rs", by_place("host/src/lib.rs", named), EVERY
    yield "include/crossbar.h", told("include/crossbar.h", macro), EVERY
    yield "include/oq.h", told("include/oq.h", macro), OF_THE_OQ
    yield "viewer/show.py", told("viewer/show.py", row), OF_THE_PLAYERS
    yield "docs/crossbar-player.1", told("docs/crossbar-player.1", item), OF_THE_PLAYERS


def refusal_faults():
    scope, names = scope_refusals(), code_names()
    for path, numbers in (("docs/SCOPE.md", scope), ("crates/cell/src/lib.rt", names)):
        if set(numbers) != EVERY:
            yield f"{path}:1: the refusals are not numbered from 1 to 15"
            return
    for path, here, numbers in tellings():
        yield from compare(path, here, scope, names, numbers)
    yield from host_order(names)
    for path in ("examples/README.md", "examples/host.c", "examples/outputs.c", "examples/rehearsal.c"):
        yield from mentions(path, scope, names)
