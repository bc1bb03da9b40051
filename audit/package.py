"""The Python package against the header, the rules and the Makefile.

Its rows of C calls are written by hand, as the header is: each must be the header's function, argument by argument, and each function of the header must have its
function in Python. Its sentences for refusals are those of docs/RULES.md. What pages say in Python's words is looked up here as well.
"""
import ast
import builtins
import functools
import pathlib
import re
import runpy

import header

FOLDER = "python/slt"
ROWS, SENTENCES, LIBRARY = f"{FOLDER}/_rows.py", f"{FOLDER}/refusals.py", f"{FOLDER}/_library.py"
RULES, PAGES = "docs/RULES.md", ("docs/PYTHON.md", "python/README.md")


def rows(tree):
    """Each row as the header has it: the C types of the arguments and of the answer, and the names of the arguments but for lengths."""
    found = {}
    for name, row in runpy.run_path(str(tree.root / ROWS))["CALLS"].items():
        kinds = []
        for argument in row.arguments:
            is_run = hasattr(argument, "written")
            kinds.append(("" if argument.written else "const ") + (argument.struct or argument.kind) + " *" if is_run else argument.kind)
            kinds += ["size_t"] * (is_run and argument.counted)
        found[name] = kinds + [row.answer], [argument.name for argument in row.arguments]
    return found


def in_header(tree):
    """The same of the header. The length of a run is called n, or n_ with the run's name."""
    named = {}
    for name, arguments in re.findall(r"^\w+ (slt_\w+)\(([^)]*)\);", header.code(tree), re.M):
        words = [part.split()[-1].lstrip("*") for part in arguments.split(",") if part.strip() != "void"]
        runs = [part.split()[-1].lstrip("*") for part in arguments.split(",") if "*" in part]
        named[name] = [word for place, word in enumerate(words) if not (place and words[place - 1] in runs and word in ("n", "n_" + words[place - 1]))]
    return {name: (kinds, named[name]) for name, kinds in header.declared(tree).items()}


@functools.cache
def modules(tree):
    """The syntax of each file of the package."""
    return {path: ast.parse(tree.text(path)) for path in tree.under(f"{FOLDER}/*.py")}


def functions(tree):
    """The functions that stand in the files for users."""
    files = [syntax for path, syntax in modules(tree).items() if not pathlib.PurePosixPath(path).stem.startswith("_")]
    return {node.name for syntax in files for node in syntax.body if isinstance(node, ast.FunctionDef)}


def constant(tree, path, name):
    """What a file of the package gives a name, where that is plain data."""
    for node in modules(tree)[path].body:
        targets = node.targets if isinstance(node, ast.Assign) else [node.target] if isinstance(node, ast.AnnAssign) else []
        if any(isinstance(target, ast.Name) and target.id == name for target in targets):
            return ast.literal_eval(node.value)
    return None


def ruled(tree):
    """What the rules say of each number: the cells beside it in their table of numbers."""
    part = tree.text(RULES).partition("\n| No. | Given when |")[2].partition("\n\n")[0]
    return {int(number): cell.strip() for number, cell in re.findall(r"^\| (\d+) \|([^|]*)\|", part, re.M)}


@functools.cache
def words(tree):
    """Every name that the package declares: modules, functions and their arguments, classes and their fields, and constants."""
    found = {"slt", *(pathlib.PurePosixPath(path).stem for path in modules(tree))}
    for syntax in modules(tree).values():
        for node in ast.walk(syntax):
            if isinstance(node, (ast.FunctionDef, ast.ClassDef)):
                found.add(node.name)
            elif isinstance(node, ast.arg):
                found.add(node.arg)
            elif isinstance(node, ast.AnnAssign) and isinstance(node.target, ast.Name):
                found.add(node.target.id)
            elif isinstance(node, ast.Assign):
                found.update(target.id for target in node.targets if isinstance(target, ast.Name))
            elif isinstance(node, ast.Attribute) and isinstance(node.ctx, ast.Store):
                found.add(node.attr)
    return found


def known(tree, page, word):
    """A name of the package: on any page the package, its commands, and `slt.name`; on the package's own pages any name of it or of Python, and the variable that
    names the library. What is called may have arguments."""
    if re.match(r"python -m slt( |$)", word) or word in ("pip install ./python", "slt"):
        return tree.has("python/pyproject.toml")
    match = re.fullmatch(r"([A-Za-z_][\w.]*)(\(.*\))?", word)
    if not match or not (page in PAGES or word.startswith("slt.")):
        return False
    if word == constant(tree, LIBRARY, "VARIABLE"):
        return True
    parts = match[1].split(".")
    return all(part in words(tree) or len(parts) == 1 and part in dir(builtins) for part in parts)


def faults(tree):
    found, python, c = [], rows(tree), in_header(tree)
    found += [f"{ROWS}: no row for {name}" for name in sorted(c.keys() - python.keys())]
    found += [f"{ROWS}: {name} is nothing that {header.HEADER} declares" for name in sorted(python.keys() - c.keys())]
    found += [f"{ROWS}: {name} is {python[name]}, and in {header.HEADER} {c[name]}" for name in sorted(c.keys() & python.keys()) if python[name] != c[name]]
    found += [f"{FOLDER}: {name} has no function {name.removeprefix('slt_')}" for name in sorted(c) if name.removeprefix("slt_") not in functions(tree)]
    said, rules = constant(tree, SENTENCES, "SENTENCES"), ruled(tree)
    for number in sorted(said.keys() | rules.keys()):
        if said.get(number) != rules.get(number):
            found.append(f"{RULES}: refusal {number} is '{rules.get(number)}', and in {SENTENCES} '{said.get(number)}'")
    if f"\nVERSION = {constant(tree, LIBRARY, 'VERSION')}\n" not in tree.text("Makefile"):
        found.append(f"{LIBRARY}: its VERSION is not that of the Makefile")
    return found
