"""The kit that everything was last proved with: setup/kit has its identity, as `rt version` prints it, and the pages that speak of it say the same."""
FILE, PAGES = "setup/kit", ("README.md", "docs/TRUST.md")


def identity(tree):
    return tree.text(FILE).strip() if tree.has(FILE) else ""


def faults(tree):
    if not identity(tree) or tree.text(FILE) != identity(tree) + "\n":
        return [f"{FILE} is not one line with the identity of a kit"]
    return [f"{page}: it does not name the kit of {FILE}, `{identity(tree)}`" for page in PAGES if f"`{identity(tree)}`" not in tree.text(page)]
