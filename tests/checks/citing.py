"""Which definition cites which: the definitions, laws and contracts of crates/, read by their names alone."""
import re
from collections import defaultdict
from functools import cache
from pathlib import Path

CRATES = Path(__file__).resolve().parent.parent.parent / 'crates'
TOKEN = re.compile(r'[^\s(){}\[\];,]+|\[\]|[(){}\[\];,]')
USE = re.compile(r'(?:pub |ghost )?use ([^\s;{]+?)(?:\.\{([^}]*)\})?(?: as (\S+?))?;?$')
NAMES = r'((?:(?!= )[^\s(){}:]+ )+):(?= |$)'
FUNCTION = re.compile(r' *(pub )?(?:pub\(\w+\) )?(?:extern "C" )?fn (\w+)')
BODY = re.compile(r' *\{$|(?! *(?:ensures|requires) ).*\{$')


# ---- texts

def code(text):
    """The text without quoted words and comments, which cite nothing."""
    return re.sub(r'(?s)"(?:\\.|[^"\\])*"|(?<!\S)(?:--|//)[^\n]*', '', text)


def tokens(text):
    """Names and signs. A block of `do` is made of binds, which stand nowhere in it."""
    return TOKEN.findall(re.sub(r'(?<!\S)do(?!\S)', 'do >>=', code(text)))


def spoken(name):
    """What stands in a text where a name is used: of an operator, the parts between its arguments."""
    return [part for part in name.split('◌') if part]


def bound(text):
    """The parameters in a text: `a` and `b` of `(a b : ℕ)`."""
    return {name for names in re.findall(r'[({]([^(){}:;=,]+) :', code(text)) for name in names.split()}


def read(path):
    """A file with each list of imported names on one line."""
    return re.sub(r'(?m)^(pub |ghost )?use [^{\n]*\{[^}]*\}', lambda m: ' '.join(m[0].split()), path.read_text())


@cache
def edits(path):
    """What the must-fail edits of a file put into it: they use its imports too."""
    crate = CRATES / path.relative_to(CRATES).parts[0]
    texts = [edit.read_text() for edit in sorted(crate.glob('must-fail/*.edit'))]
    here = f'file: {path.relative_to(crate)}\n'
    return '\n'.join(line[5:] for t in texts if here in t for line in t.split('\n') if line.startswith('new: '))


# ---- definitions, laws and functions

class Definition:
    """A definition or a law; or a function, whose text is its contract, which hides its parameters, and which is public
    if anyone may call it: it asks nothing."""

    def __init__(self, file, name, kind, public, around=(), hidden=()):
        self.file, self.name, self.kind, self.public = file, name, kind, public
        self.around, self.hidden, self.parts, self.lines = list(around), set(hidden), [], 0

    def add(self, text, comment=()):
        self.parts.append(text)
        self.lines += sum(1 for line in [*comment, *text.split('\n')] if line.strip())


def items(text):
    """What stands on the level of the modules: the headers of the modules around it, its text, the comment over it."""
    modules, item, comment = [], None, []
    for line in text.split('\n') + ['end']:
        depth = len(line) - len(line.lstrip())
        if not line.strip():
            comment = []
            continue
        if item and depth > item[0]:
            item[1].append(line)
        else:
            if item:
                yield ['\n'.join(lines) for _, lines in item[2]], '\n'.join(item[1]), item[3]
            modules, item = [m for m in modules if m[0] < depth], None
            if line.lstrip().startswith('--'):
                comment.append(line)
            else:
                item, comment = (depth, [line], modules, comment), []
        if item and item[1][0].lstrip().startswith('module ') and line.endswith('where'):
            modules, item = modules + [item[:2]], None


def functions(text):
    """Of each function: whether it is public, its name, what it is given and answers, and its contract."""
    lines, owner = text.split('\n'), ''
    for i, line in enumerate(lines):
        if line and not line.startswith((' ', '}')):
            owner = ''.join(re.findall(r'^impl(?:<[^>]*>)? (?:\S+ for )?(\w+)', line))
        if head := FUNCTION.match(line):
            end = next(j for j in range(i, len(lines)) if BODY.match(lines[j]))
            parameters, _, contract = re.sub(r'\n *(?=ensures|requires)', '\0', '\n'.join(lines[i:end])).partition('\0')
            name = f'{owner}::{head[2]}' if owner else head[2]
            given = {'self', 'result', *re.findall(r'(\w+):(?!:)', parameters)}
            yield bool(head[1]), name, given, contract.replace('\0', '\n')


class File:
    """A file: what it defines, its `use` lines, and the rest of its text."""

    def __init__(self, path):
        self.path, self.name = path, str(path.relative_to(CRATES))
        self.crate, self.part = self.name.split('/')[:2]
        lines = read(path).split('\n')
        self.uses = [use for use in map(USE.match, lines) if use]
        self.rest = '\n'.join(line for line in lines if not USE.match(line))
        self.all, self.own = [], defaultdict(list)
        self.names, self.modules = defaultdict(list), {}
        if path.suffix == '.rt':
            self.take_functions()
        else:
            for item in items(self.rest):
                self.take(*item)

    def take_functions(self):
        module = '' if self.path.stem in ('lib', 'main') else self.path.stem + '::'
        for public, name, parameters, contract in functions(self.rest):
            free = public and not re.search(r'(?m)^requires ', contract)
            self.all.append(Definition(self, f'{self.crate}::{module}{name}', 'function', free, hidden=parameters))
            self.all[-1].add(contract)

    def take(self, around, text, comment):
        """Takes an item in: a new definition, or more of one, as an equation is."""
        words = re.match(r'((?:pub |unfoldable |abbrev )*)(record |data )?(\S+)(.*)', ' '.join(text.split()))
        if words[2] or re.match(NAMES, words[3] + words[4]):
            self.define(Definition(self, words[3], (words[2] or '').strip(), 'pub ' in words[1], around), text)
        same = [d for d in self.all if d.name == words[3]] or self.all
        if same:
            same[-1].add(text, comment)

    def define(self, d, text):
        """Takes a definition in, with the constructors of a type, and with what its parameters hide."""
        self.all.append(d)
        made = re.findall(r'(?m)^ +' + NAMES, code(text).partition('where\n')[2]) if d.kind == 'data' else []
        for name in {d.name, *' '.join(made).split()}:
            self.own[name].append(d)
        d.hidden = bound('\n'.join(d.around) + (text.partition(' : Type')[0] if d.kind else ''))

    def meant(self, crates, word):
        """The definitions that a word may stand for: `first` of `first.field`, and none for a field `.name`."""
        first, _, name = word.partition('.')
        if first in self.modules and name:
            return crates.found(self.modules[first], name.split('.')[0])
        return self.names.get(first, []) if first else []

    def cited(self, crates, text, hidden=frozenset()):
        """The definitions that a text cites. In `record { name = .. }` and `pub name : ..` a name is that of a field."""
        words, result = tokens(text), set()
        for before, word, after in zip([''] + words, words, words[1:] + ['']):
            field = before == 'pub' or before in ('{', ';') and after == '='
            if not field and word not in hidden and word.split('.')[0] not in hidden:
                result |= set(self.meant(crates, word))
        return result


def imported(uses):
    """Of each imported name: where it comes from, its name there and here. A module has the name None there."""
    for use in uses:
        if use[2] is None:
            yield use[1], None, use[3] or re.split(r'\.|::', use[1])[-1]
        for name in filter(None, map(str.strip, (use[2] or '').split(','))):
            old, _, new = name.partition(' as ')
            yield use[1], old, new or old


class Crates:
    """All files, with what their names mean."""

    def __init__(self):
        self.order = re.findall(r'(?m)^(\w+)[^:#\n]*:', (CRATES.parent / 'crates.txt').read_text())
        folders = [CRATES / crate / part for crate in self.order for part in ('src', 'specs', 'proofs')]
        paths = sorted(p for folder in folders for p in folder.rglob('*') if p.suffix in ('.antt', '.rt'))
        self.files = {file.name: file for file in map(File, paths)}
        self.definitions = [d for file in self.files.values() for d in file.all]
        self.specs = [d for d in self.definitions if d.file.part == 'specs']
        for file in self.files.values():
            self.bring(file)

    def file(self, path):
        at = re.match(r'Rattle\.(\w+)\.(.+)', path)
        return at and self.files.get(f'{at[1]}/{at[2].replace(".", "/")}.antt')

    def found(self, file, name):
        """The definitions of a name in a file, or in the one that it hands the name on from."""
        handed = imported(use for use in file.uses if use[0].startswith('pub'))
        return file.own.get(name) or [d for path, old, new in handed if new == name and self.file(path)
                                      for d in self.found(self.file(path), old)]

    def bring(self, file):
        """Fills in what the names of a file mean: its own, and those that it imports."""
        known = list(file.own.items())
        for path, old, new in imported(file.uses):
            if old and self.file(path):
                known.append((new, self.found(self.file(path), old)))
            elif self.file(path):
                file.modules[new] = self.file(path)
        for name, there in known:
            for word in {name, *(spoken(name) if '◌' in name else ())}:
                file.names[word] += there

    def cited(self, d, parts):
        """What parts of a definition cite, and the modules around it. What its parameters hide is left out, but names
        bound further inside count: rather one definition too many than one too few."""
        result = d.file.cited(self, '\n'.join(d.around), d.hidden)
        for part in parts:
            pattern, equation, _ = re.sub(r' =\s', '\0', part, count=1).partition('\0')
            # in a pattern a name is bound, unless it is a constructor
            variables = {w for w in tokens(pattern) if all(e.name == w for e in d.file.meant(self, w))}
            result |= d.file.cited(self, part, d.hidden | (variables if equation and part is not d.parts[0] else set()))
        return result - {d}

    def closed(self, definitions):
        """The definitions, and those that their texts cite."""
        reached, new = set(), set(definitions)
        while new:
            reached |= new
            new = {e for d in new for e in self.cited(d, d.parts)} - reached
        return reached
