"""Every name in code style on a page is the name of something that there is.

A name in code style is what stands between backticks, in a block of code, or in bold or italic on the man page. Each must be of a kind that is known here
(a path, a crate, a function, a theorem, a definition, an edit, a call of C, a command ..) and then exist. Words of no such kind stand in WORDS, with the reason.
"""
import fnmatch
import functools
import posixpath
import re

import header
import kit
import package

MAN = "packaging/slotline.1"
# What a page may write as code though the tree declares nothing of that name.
WORDS = {
    "the languages' own words": "requires, ensures, .ensures, match, rw, pub fn, extern \"C\", i32, i64, u16, u32, usize, ?, Result, Option",
    "types and functions of C": "size_t, uint16_t, uint64_t, memcpy, memset",
    "Python's own words and tools": "ctypes, mypy, pip, unittest, nm -D",
    "functions of the provers' libraries": "min, replicate, position",
    "the kit's own programs": "rt, rattle, antt",
    "variables of a formula on the page": "alone, base",
    "digits, and bytes of a file that is refused": "0, 1, +, -, SLX, SL",
    "what a page writes where any name may stand": "NAME, file",
}
KNOWN = {word for words in WORDS.values() for word in words.split(", ")}
# Formulas of mathematics and lines that the gate prints: no name can be taken from them.
TEXTS = {
    "(float)v * level",
    r"results(s) = 32·(\|h1\|²+\|h2\|²)·indicator(s)",
    r"results(s) = 32·(\|h1\|²+\|h2\|²)·indicator(s) + alone(s)",
    "N passed, 0 failed",
}
# Columns whose words are wrong on purpose, and what tries each of them.
FREE = {"there stands": "examples/try_mistakes.py"}
RT = {"all", "check", "ci", "fmt", "lib", "must-fail", "run", "tidy", "try", "version"}
# A line that slotline prints: its first word, and words in capitals for what changes. A refusal that is printed has a number that there is.
PRINTED = re.compile(r"(SLT|AICH|PICH|DPCH|refused)( 1)?( [A-Z]+)*")
REFUSED = re.compile(r"refused (\d+) (\d+)")
PATH = re.compile(r"[\w.*-]*(/[\w.*-]*)+|[\w*-]*\.(md|antt|rt|rs|c|h|py|sh|txt|slt|svg|toml|map|typed|a|so(\.\d+)?|1|edit)")


def blank(match):
    """Lines stay where they are, so that a fault is told with its line."""
    return "\n" * match[0].count("\n")


def pages(tree):
    # The pages on the move from the older kit and on the older forms name what is gone.
    told = [page for page in tree.under("docs/*.md") if page not in ("docs/PORT.md", "docs/DESIGN-PASS.md", "docs/LOOK-BACK.md")]
    return ["README.md", "CONTRIBUTING.md", "python/README.md", *told]


def without_free(text):
    """The page with the cells of the columns FREE left empty."""
    place, lines = None, []
    for line in text.splitlines():
        cells = re.split(r"(?<!\\)\|", line)
        if not line.startswith("|"):
            place = None
        elif place is None:
            place = next((at for at, cell in enumerate(cells) if cell.strip() in FREE), -1)
        elif place > 0:
            cells[place:place + 1] = [""]
        lines.append("|".join(cells))
    return "\n".join(lines) + "\n"


def spans(text):
    """What stands between backticks, outside blocks of code, with its line."""
    prose = re.sub(r"^(?: {4}.*\n)+", blank, re.sub(r"^```.*?^```$", blank, without_free(text), flags=re.S | re.M), flags=re.M)
    for match in re.finditer(r"`([^`]*)`", prose):
        yield prose.count("\n", 0, match.start()) + 1, " ".join(match[1].split())


def uneven(text):
    """The paragraphs and rows whose backticks do not pair: from there on prose would be taken for code."""
    outside = re.sub(r"^```.*?^```$", blank, text, flags=re.S | re.M)
    for match in re.finditer(r"^\|.*$|(?:^(?!\|).+\n?)+", outside, re.M):
        if match[0].count("`") % 2:
            yield outside.count("\n", 0, match.start()) + 1


def commands(text):
    """The lines of code that are commands: those of indented blocks, without their remarks."""
    for number, line in enumerate(text.splitlines(), 1):
        if line.startswith("    "):
            yield number, line.split("  #")[0].split(" # ")[0].strip()


def is_path(tree, word):
    """A path from the root, from a crate's folder, or a file's bare name; what make puts in target/ if the Makefile says so."""
    if not PATH.fullmatch(word):
        return False
    if re.match(r"target/|.*\.(a|so(\.\d+)?)$", word):
        return re.sub(r"^target/|(?<=\.so)\.\d+$", "", word) in tree.text("Makefile")
    pattern = re.sub(r"(NAME|CHANNEL|FUNCTION)", "*", word.rstrip("/"))
    if pattern.startswith("."):
        return any(name.endswith(pattern) for name in tree.files)
    if "*" not in pattern:
        return pattern in tree.paths or pattern in tree.short
    return bool(fnmatch.filter(tree.paths, pattern) or fnmatch.filter(tree.short, pattern))


@functools.cache
def declared(tree):
    """The names of the crates and those of the header."""
    return tree.simple | header.declared(tree).keys() | header.others(tree)


def is_name(tree, word):
    """A name that some source declares; with NAME or CHANNEL in it, or `..` at its beginning, one of that form."""
    if word in declared(tree) or word in KNOWN:
        return True
    shape = re.sub(r"^\.\.|NAME|CHANNEL", "*", word)
    return "*" in shape and re.fullmatch(r"[\w*-]+", shape) is not None and bool(fnmatch.filter(declared(tree), shape))


def is_item(tree, word):
    """crate::item, crate::module::item or module::item; of the kit's libraries only the name of the library is looked at."""
    if word.count("::") == 0 or not re.fullmatch(r"[\w:]+", word):
        return False
    full = (name for names in tree.items.values() for name in names)
    return word.split("::")[0] in tree.kit or any(f"::{name}".endswith(f"::{word}") for name in full)


def is_call(tree, word):
    """name(arguments): of a C call as many as the header has, where `n` is a length; else of a macro, or of a function of some crate."""
    match = re.fullmatch(r"([\w:]+)\(([^()]*)\)", word)
    if not match:
        return False
    counts = {name: len(kinds) - 1 for name, kinds in header.declared(tree).items()}
    if match[1] in counts:
        return counts[match[1]] == len(match[2].split(","))
    return match[1] in header.others(tree) or is_item(tree, match[1]) or f"fn {match[1]}(" in "\n".join(map(tree.text, tree.under("crates/*/src/*.rt")))


def is_command(tree, word):
    """make TARGET VARIABLE=.., rt COMMAND .., pkg-config OPTIONS PACKAGE, or an option that the Makefile uses."""
    first, *rest = word.split()
    if first == "make":
        named = [part.partition("=") for part in rest]
        return bool(rest) and all(name in (tree.make_variables if equal else tree.make_targets) for name, equal, value in named)
    if first == "rt":
        return rest[:1] != [] and rest[0] in RT and all(part in tree.crates | RT or part == "NAME" or part.startswith("--") for part in rest[1:])
    if first == "pkg-config":
        return rest != [] and tree.has(f"packaging/{rest[-1]}.pc.in") and all(part.startswith("--") for part in rest[:-1])
    return first.startswith("-") and not rest and first in tree.text("Makefile").split()


def is_expression(tree, word):
    """A definition with variables behind it, or a line that stands so in the code."""
    first, *rest = word.split()
    defined = set().union(*tree.definitions.values())
    if rest and first in defined and all(re.fullmatch(r"[a-z]+", part) for part in rest):
        return True
    return word.endswith(";") and any(word in tree.text(path) for path in tree.under("crates/*/src/*.rt"))


KINDS = (is_name, is_path, is_item, is_call, is_command, is_expression)


@functools.cache
def known(tree, word):
    refusal = REFUSED.fullmatch(word)
    if refusal:
        return re.search(rf"^\w+_refused = {refusal[1]}$", tree.text("crates/run/specs/Refusals.antt"), re.M) is not None
    return word in TEXTS or word == kit.identity(tree) or PRINTED.fullmatch(word) is not None or any(kind(tree, word) for kind in KINDS)


def of_program(text, word):
    """A piece of the program in Python that the page itself shows."""
    programs = re.findall(r"^```python\n(.*?)^```$", text, re.S | re.M)
    return not re.fullmatch(r"[\w-]+", word) and any(word in program for program in programs)


def in_block(tree, line):
    """The words of a line of code that a page has in a block: commands of make and rt, and paths."""
    if re.match(r"(make|rt) ", line) and not is_command(tree, line):
        yield line
    for word in line.split():
        if "/" in word and word.split("/")[0] in tree.tops | {"target"} and not is_path(tree, word):
            yield word


def of_crate(tree, text):
    """`NAME`, `NAME` of `CRATE`: that crate has them."""
    for match in re.finditer(r"((?:`[\w-]+`,? (?:and )?)+)of (?:the crate )?`(\w+)`", text):
        for name in re.findall(r"`([\w-]+)`", match[1]) if match[2] in tree.crates else ():
            if name not in tree.crate_names(match[2]):
                yield text.count("\n", 0, match.start()) + 1, f"`{name}` is not of the crate {match[2]}"


def in_file(tree, text):
    """`NAME` in `FILE`, `NAME` (`FILE`): the name stands in that file."""
    for match in re.finditer(r"`([\w-]+)` (?:in |\()`(crates/[\w/]+\.antt)`", text):
        if tree.has(match[2]) and not re.search(rf"(?<![\w-]){match[1]}(?![\w-])", "".join(map(tree.text, both_doors(tree, match[2])))):
            yield text.count("\n", 0, match.start()) + 1, f"`{match[1]}` does not stand in {match[2]}"


def both_doors(tree, path):
    """A theorem is named by its proof, also where the file of its statement is given."""
    return [name for name in (path, path.replace("/specs/", "/proofs/")) if tree.has(name)]


def anchors(tree, page):
    """The sections of a page as a link names them: small letters, a hyphen for a space, and no other mark."""
    return {re.sub(r"[^\w-]", "", head.strip().lower().replace(" ", "-")) for head in re.findall(r"^#+ (.*)$", tree.text(page), re.M)}


def broken_links(tree, page):
    """A link or a picture leads to a file, from the page's own folder, or to a section of it."""
    text = tree.text(page)
    for match in re.finditer(r"\]\(([^)#:\s]+)(?:#([^)\s]*))?\)", text):
        target = posixpath.normpath(posixpath.join(posixpath.dirname(page), match[1]))
        if not tree.has(target):
            yield text.count("\n", 0, match.start()) + 1, f"there is no {match[1]}"
        elif match[2] is not None and match[2] not in anchors(tree, target):
            yield text.count("\n", 0, match.start()) + 1, f"{match[1]} has no section {match[2]}"


def page_faults(tree, page):
    text = tree.text(page)
    for line in uneven(text):
        yield line, "a backtick without its fellow"
    for line, word in spans(text):
        if not word or not known(tree, word) and not package.known(tree, page, word) and not of_program(text, word):
            yield line, f"`{word}` names nothing that there is"
    for line, code in commands(text):
        yield from ((line, f"`{word}` names nothing that there is") for word in in_block(tree, code))
    yield from broken_links(tree, page)
    yield from of_crate(tree, text)
    yield from in_file(tree, text)


def man_faults(tree):
    """On the man page bold and italic are code: .B and .I with one word, .BI and .BR with more. A number there is a refusal or a kind."""
    for number, line in enumerate(tree.text(MAN).splitlines(), 1):
        match = re.fullmatch(r"\.(B|I|BI|BR|IR) (.*)", line)
        word = match and re.sub(r"\\%|\"", "", match[2]).replace("\\-", "-")
        if match and match[1] in ("BR", "IR"):
            word = word.split()[0]
        if match and not word.isdigit() and not known(tree, " ".join(word.split())) and not package.known(tree, MAN, " ".join(word.split())):
            yield number, f"{word} names nothing that there is"


def comment_faults(tree):
    """A page that a comment, a script or another page names is there."""
    for path in tree.meant:
        for match in re.finditer(r"docs/[A-Z]\w*\.md\b", tree.text(path)):
            if not tree.has(match[0]):
                yield path, tree.text(path).count("\n", 0, match.start()) + 1, match[0]


def faults(tree):
    found = [f"{page}:{line}: {what}" for page in pages(tree) for line, what in page_faults(tree, page)]
    found += [f"{MAN}:{line}: {what}" for line, what in man_faults(tree)]
    return found + [f"{path}:{line}: there is no {page}" for path, line, page in comment_faults(tree)]
