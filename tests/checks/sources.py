"""What the sources declare: what a name in a text may be a name of."""
import fnmatch
import re

from checks.files import all_files, parents, read

# Words of the language, and what the toolchain takes, prints or refuses: no source here declares them.
TOOLCHAIN = {
    "--allow-holes",
    "F-requires",
    "Invariants.antt",
    "L-init",
    "L-preserved",
    "N passed, 0 failed",
    "c.F.ensures",
    "c.if-x-y.true",
    'extern "C" { fn exit(status: i32); }',
    "fn CRATE::F: proved",
    "fn main() -> i32 { 2 }",
    "fn main() { exit(2); }",
    "help:",
    "invalid-entry-signature",
    "logic=proved",
    "proofs/F/",
    "rattle-kit-13f logic dac8208d650f15bf",
    "rattle-kit-5b-plain",
    "requires",
    "return",
    "returns",
    "returns-2",
    "sum=",
    "unfoldable",
}


def without_comments(path, text):
    if path.endswith(".antt"):
        return re.sub(r"^\s*--.*", "", text, flags=re.M)
    if path.endswith((".rt", ".rs")):
        return re.sub(r"//.*", "", text)
    if path.endswith((".c", ".h")):
        return re.sub(r"/\*.*?\*/", "", text, flags=re.S)
    return re.sub(r"^#.*", "", text, flags=re.M)


def declared_in_proofs(code):
    """What a file of definitions or proofs shows to others: `unfoldable pub over : ..`, `pub record Arriving ..`, and the
    cases of a `pub data`."""
    shown = re.findall(r"\bpub (?:record |data |mod )?([^\s(){}=]+)(?= |$)", code, re.M)
    for cases in re.findall(r"^pub data .*\n((?:  .*\n)+)", code, re.M):
        shown += " ".join(re.findall(r"^  (.+?) :", cases, re.M)).split()
    return set(shown)


def declared_in_code(code):
    """What a file of code declares, parameters and fields included."""
    return set(re.findall(r"\b(?:fn|struct|enum|const|mod|type) (\w+)", code)) | set(re.findall(r"\b(\w+): ", code))


def crates():
    """The crates by name, each with the crates and libraries that it names in crates.txt, in that order. A static library has
    `staticlib` behind its name."""
    lines = [line.split(":") for line in read("crates.txt").splitlines() if line and not line.startswith("#")]
    return {crate.split()[0]: named.split() for crate, named in lines}


class Sources:
    """What a name in a text may be a name of."""

    def __init__(self):
        self.files = sorted(all_files())
        self.folders = {folder for file in self.files for folder in parents(file)}
        self.crates = crates()
        self.libraries = set(self.crates).union(*self.crates.values())
        self.edits = set(re.findall(r"^crates/(\w+)/must-fail/(\w+)\.edit$", "\n".join(self.files), re.M))
        self.targets = set(re.search(r"^\.PHONY: (.*)", read("Makefile"), re.M)[1].split())
        keys = re.search(r"enum Key \{(.*?)\}", read("crates/trace/src/lib.rt"), re.S)[1]
        self.keys = set(re.findall(r"\w+", keys.lower()))
        # By file what it declares; the code of all files; the words of the code that is not proved.
        self.declared, self.code, self.words = {}, [], set()
        for path in self.files:
            self.take(path)
        self.names = set().union(*self.declared.values())

    def take(self, path):
        if path.startswith(("docs/", "tests/checks", "tools/")) or path.endswith((".md", ".edit")):
            return
        code = without_comments(path, read(path))
        self.code.append(code)
        if path.endswith(".antt"):
            self.declared[path] = declared_in_proofs(code)
        elif path.endswith(".rt"):
            self.declared[path] = declared_in_code(code)
        else:
            self.words |= set(re.findall(r"[\w.-]+", code))

    def paths(self, text):
        """The files and folders that a path names, with or without ending: from the root, from crates/, or by the last
        parts of a path there (a star of fnmatch goes over slashes)."""
        tries = [p + text.rstrip("/") + e for p in ("", "crates/", "crates/*/") for e in ("", ".rt", ".antt", ".in")]
        return [f for t in tries for f in fnmatch.filter(self.files, t) + fnmatch.filter(self.folders, t)]

    def declares(self, files, name):
        """Whether all parts of a name are declared in one of the files; `..` stands for any letters."""
        patterns = [part.replace("..", "*") for part in name.split("::")]
        return any(all(fnmatch.filter(self.declared.get(f, ()), p) for p in patterns) for f in files)

    def is_edit(self, text):
        crate, _, edit = text.rpartition("/")
        return any(e == edit and crate in ("", c) for c, e in self.edits)

    def is_qualified(self, text):
        """`crate::name`, `crate::module::name`, `Type::name`: the parts stand in one file."""
        first, *rest = text.split("::")
        if not rest:
            return False
        if first not in self.crates:
            return any({first, *rest} <= names for names in self.declared.values())
        module = self.declared.get(f"crates/{first}/src/{rest[0]}.rt")
        if module is not None:
            return set(rest[1:]) <= module
        roots = (f"crates/{first}/src/{root}.rt" for root in ("lib", "main"))
        return any(set(rest) <= self.declared.get(root, set()) for root in roots)

    def is_command(self, text):
        command, *rest = text.split()
        if command == "make":
            return rest[0] in self.targets
        if command == "man":
            return bool(self.paths(rest[-1]))
        return command == "rt" or "/" in command and bool(self.paths(command))

    def is_trace(self, text):
        """A key of the grammar, or lines of it."""
        return all(re.fullmatch(r"\w+(=\d*)?", word) and word.split("=")[0] in self.keys for word in text.split())

    def is_some(self, text):
        """`fault-..`: how names begin."""
        return text.endswith("..") and any(n.startswith(text[:-2]) for n in self.names)

    def is_expression(self, text):
        """A piece of code with more in it than a name, `..` for what is left out."""
        if re.fullmatch(r"[\w:/-]+", text):
            return False
        piece = re.compile(r"(?<!\w)" + ".*".join(re.escape(p) for p in text.split("..")) + r"(?!\w)")
        return any(piece.search(code) for code in self.code)

    def knows(self, text):
        sets = (self.names, self.libraries, self.words, TOOLCHAIN)
        tests = (
            self.paths,
            self.is_edit,
            self.is_qualified,
            self.is_command,
            self.is_trace,
            self.is_some,
            self.is_expression,
        )
        return any(text in s for s in sets) or any(test(text) for test in tests)
