"""What comments and pages cite of the rules: each section that they name is a heading of docs/RULES.md, and no other document of rules is spoken of."""
import re

RULES = "docs/RULES.md"
# Between two words of a comment there may be the end of a line and the mark of the next.
GAP = r"(?:\s|\n\s*(?://|--|#|\*|\.\\\")\s*)+"
SECTION = rf"'[^'\n]+(?:\n[^'\n]+)?'"
CITED = re.compile(rf"docs/RULES\.md`?,{GAP}({SECTION}(?:(?:,|{GAP}and|{GAP}or){GAP}{SECTION})*)")
# The papers that the project was built from are not in the repository, so a reader who is sent there is lost.
FOREIGN = re.compile(rf"documents?{GAP}0\d+\b")
TEXTS = (".rt", ".antt", ".rs", ".c", ".h", ".md", ".py", ".1", ".edit", ".sh", ".in", ".toml", ".txt", "Makefile", ".ci/run")


def line_of(text, match):
    return text.count("\n", 0, match.start()) + 1


def headings(tree):
    """The names of the sections. What stands in brackets behind a name (clauses of the standard) is no part of it."""
    lines = re.sub(r"^```.*?^```$", "", tree.text(RULES), flags=re.S | re.M)
    return {re.sub(r" \(.*\)$", "", head.strip()) for head in re.findall(r"^#+ (.*)$", lines, re.M)}


def sections(cited):
    """The names in a list of sections; one that goes on in the next line of a comment is put together."""
    for name in re.findall(SECTION, cited):
        yield " ".join(re.sub(r"\n\s*(//|--|#|\*)?", " ", name.strip("'")).split())


def columns(text):
    """The cells of a table's column `rules`: each begins with a section's name."""
    place, inside = None, False
    for number, line in enumerate(text.splitlines(), 1):
        cells = [cell.strip() for cell in line.strip().strip("|").split("|")]
        if not line.startswith("|"):
            inside = False
        elif not inside:
            inside, place = True, cells.index("rules") if "rules" in cells else None
        elif place is not None and not set(line) <= set("|-: "):
            yield number, re.sub(r" \(.*\)$", "", cells[place])


def unknown(tree, path, known):
    """Each section that a file cites and that there is not, with its line. A narrow column may leave off the end of a name."""
    text = tree.text(path)
    for match in CITED.finditer(text):
        yield from ((line_of(text, match), name) for name in sections(match[1]) if name not in known)
    for line, name in columns(text) if path.endswith(".md") else ():
        if sum(f"{head} ".startswith(f"{name} ") for head in known) != 1:
            yield line, name


def foreign(tree, path):
    """The lines that speak of a paper which is not here. The head of docs/RULES.md says what it was written from."""
    text = tree.text(path)
    head = re.search(r"^## ", text, re.M).start() if path == RULES and "\n## " in text else 0
    return [line_of(text, match) for match in FOREIGN.finditer(text.lower()) if match.start() >= head]


def faults(tree):
    files = [path for path in tree.meant if path.endswith(TEXTS)]
    found = [f"{path}:{line}: speaks of a document that is not here" for path in files for line in foreign(tree, path)]
    if not tree.has(RULES):
        return found + [f"there is no {RULES}"]
    known = headings(tree)
    return found + [f"{path}:{line}: {RULES} has no section '{name}'" for path in files for line, name in unknown(tree, path, known)]
