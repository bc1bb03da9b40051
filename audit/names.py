"""What the tree has: its files, its crates, and every name that its sources declare. Built once, and asked by all checks."""
import fnmatch
import functools
import os
import pathlib
import re

# Made by tools and never committed: a page may not lean on what stands there.
MADE = {"target", "out", ".git", "__pycache__"}
# A declaration of antt that other files can see. In a file of specs/ or proofs/ one that is indented may be a field of a record.
DECLARED = re.compile(r"^( *)(?:unfoldable |abbrev )*pub (?:record |data )?([^\s:(){}]+)", re.M)
ITEM = re.compile(r"^(?:pub(?:\(crate\))? )?(?:extern \"C\" )?(?:fn|struct|enum|const|mod) (\w+)", re.M)
# A function that other crates can call: at the margin, or a method in an `impl` at it. Who may not call it is told by `pub(crate)`.
PUBLIC = re.compile(r"^(?: {4})?pub (extern \"C\" )?fn (\w+)", re.M)
METHOD = re.compile(r"^ {4}pub(?:\(crate\))? fn (\w+)", re.M)


@functools.cache
def declared(text, fields=False):
    """The names that a file of antt declares, but for the modules that it lists; or else the fields of its records."""
    found, record = set(), False
    for line in text.splitlines():
        match = DECLARED.match(line)
        if line and not line[0].isspace():
            record = " record " in f" {line}" and "where" in line
        if match and not line.startswith("pub mod ") and fields == bool(match[1] and record):
            found.add(match[2])
    return found


class Tree:
    """A copy of the project. Every index is made from its files when it is first asked for."""

    def __init__(self, root):
        self.root = pathlib.Path(root)
        # The files that were read so far.
        self.read = set()

    @functools.cached_property
    def files(self):
        """Each file's path from the root, as text."""
        found = []
        for folder, inner, files in os.walk(self.root):
            inner[:] = [name for name in inner if name not in MADE]
            found += [os.path.relpath(os.path.join(folder, name), self.root) for name in files if name not in MADE]
        return sorted(found)

    @property
    def meant(self):
        """The files whose words are meant: all but the test of the audit, where wrong ones stand on purpose."""
        return [name for name in self.files if name != "audit/test_audit.py"]

    @functools.cached_property
    def paths(self):
        """The files and the folders that they stand in."""
        found = set(self.files)
        for folder in {os.path.dirname(name) for name in self.files}:
            while folder:
                found.add(folder)
                folder = os.path.dirname(folder)
        return found

    @functools.cached_property
    def tops(self):
        return {name.split("/")[0] for name in self.paths}

    @functools.cached_property
    def short(self):
        """What a page may call a file: its path in its crate's folder, or its bare name."""
        in_crates = {"/".join(name.split("/")[2:]) for name in self.paths if name.startswith("crates/")}
        return in_crates - {""} | {os.path.basename(name) for name in self.files}

    @functools.cache
    def text(self, name):
        self.read.add(name)
        return (self.root / name).read_text(encoding="utf-8", errors="replace")

    def has(self, name):
        return name in self.paths

    def under(self, pattern):
        return [name for name in self.files if fnmatch.fnmatchcase(name, pattern)]

    @functools.cached_property
    def stands_on(self):
        """crates.txt: each crate and the crates that it names, in the file's order. Behind the name of a static library stands that it is one."""
        lines = [line.split("#")[0] for line in self.text("crates.txt").splitlines()]
        return {name.split()[0]: rest.split() for name, colon, rest in (line.partition(":") for line in lines) if colon}

    @property
    def crates(self):
        return self.stands_on.keys()

    @functools.cached_property
    def kit(self):
        """The libraries of the Rattle kit that some crate names."""
        return {name for below in self.stands_on.values() for name in below} - set(self.crates)

    @functools.cached_property
    def programs(self):
        """Programs have no contract that could say what they print; what they call has."""
        return {name.split("/")[1] for name in self.under("crates/*/src/main.rt")}

    def by_crate(self, pattern, names):
        """For each crate the names that a reader finds in its files of a pattern."""
        found = {crate: set() for crate in self.crates}
        for path in self.under(pattern):
            found.setdefault(path.split("/")[1], set()).update(names(path))
        return found

    @functools.cached_property
    def definitions(self):
        return self.by_crate("crates/*/specs/*.antt", lambda path: declared(self.text(path)))

    @functools.cached_property
    def records(self):
        return self.by_crate("crates/*/specs/*.antt", lambda path: set(re.findall(r"^pub record (\S+)", self.text(path), re.M)))

    @functools.cached_property
    def claims(self):
        """The fields of the records of specs/: what a theorem or a promise says, one by one."""
        return self.by_crate("crates/*/specs/*.antt", lambda path: declared(self.text(path), fields=True))

    @functools.cached_property
    def theorems(self):
        """Theorems and laws: what the proofs of a crate hand to others."""
        return self.by_crate("crates/*/proofs/*.antt", lambda path: declared(self.text(path)))

    @functools.cached_property
    def edits(self):
        return self.by_crate("crates/*/must-fail/*.edit", lambda path: {pathlib.PurePosixPath(path).stem})

    @functools.cached_property
    def items(self):
        """Functions, structs, enums, constants and modules by their full names: crate, module where there is one, item. A method stands in the module of its type."""
        def inside(path):
            module = pathlib.PurePosixPath(path).stem
            before = path.split("/")[1] + ("::" if module in ("lib", "main") else f"::{module}::")
            return {before + name for kind in (ITEM, METHOD) for name in kind.findall(self.text(path))}
        return self.by_crate("crates/*/src/*.rt", inside)

    @functools.cached_property
    def public_functions(self):
        """The full name of each public function of a library; an exported one has its C name."""
        found = set()
        for path in self.under("crates/*/src/*.rt"):
            crate, module = path.split("/")[1], pathlib.PurePosixPath(path).stem
            before = "" if module == "lib" else module + "::"
            for exported, name in PUBLIC.findall(self.text(path)) if crate not in self.programs else ():
                found.add(name if exported else f"{crate}::{before}{name}")
        return found

    @functools.cached_property
    def modules(self):
        """The files of specs/ and proofs/ as a `use` names them."""
        return {pathlib.PurePosixPath(path).stem for part in ("specs", "proofs") for path in self.under(f"crates/*/{part}/*.antt")}

    @functools.cached_property
    def make_targets(self):
        return set(re.findall(r"^([a-z][\w-]*):(?!=)", self.text("Makefile"), re.M))

    @functools.cached_property
    def make_variables(self):
        return set(re.findall(r"^(?:export )?([A-Z_]+) :?=", self.text("Makefile"), re.M)) | {"DESTDIR"}

    def crate_names(self, crate):
        """All that a page may say to be of a crate. The promises and theorems of a crate NAME_PART stand in NAME."""
        found = set()
        for name in self.crates:
            if name == crate or name.startswith(crate + "_"):
                found |= self.definitions[name] | self.claims[name] | self.theorems[name] | self.edits[name]
                found |= {item.rpartition("::")[2] for item in self.items[name]}
        return found

    @functools.cached_property
    def simple(self):
        """Every name that stands without a path."""
        return set().union(self.crates, self.modules, self.make_variables, *(self.crate_names(crate) for crate in self.crates))
