#!/usr/bin/env python3
"""Brings the names that this repository's specs/ and proofs/ declare to snake case: definitions, lemmas, fields and constructors.

usage: respell.py [--check]      at the top of the repository

A name in lower camel case or with dashes gets underscores: orElse and or-else-done become or_else and or_else_done. Types and modules keep their capitals. Names of Rust
source, of the toolchain's libraries, and those that Rattle makes for proofs stay as they are. Where two names would fall together, LEMMAS, LENGTHS and TURNED say what the second is called.
In comments and pages a name is turned only between back quotes. It runs once, behind the toolchain's own port.py.
"""

import glob
import os
import re
import sys

TOKEN = r"[^\s(){}.;,@\"«»\[\]\\`]+"
# What would fall together with a definition: a lemma gets _lem behind its name, and the definitions of lengths, which have the names of calls, get _of.
LEMMAS = (
    "combined-at drop-plain drop-verdict fetch-plain fetch-verdict store-plain store-verdict gap-head in-float in-range is-whole open-verdict printed-row record-head run-verdict "
    "second-of slot-at value-at dpcch-formats dpdch-sizes plus-zero to-aich to-message"
)
LENGTHS = "compressedLengths dpcchFrameLengths dpcchLengths dpdchLengths frameLengths hspdschLengths slotLengths"
# port.py has turned these two already.
TURNED = {"wake": {"one_by_one": "one_by_one_lem"}, "sttd": {"read_back": "read_back_lem"}}


def snake(name):
    """The name in snake case, part by part: a type's capital stays where it begins a part."""
    parts = []
    for part in name.split("-"):
        if re.fullmatch(r"[a-z0-9_']+[A-Z][A-Za-z0-9_']*", part):
            part = re.sub(r"(?<=[a-z0-9'])([A-Z]+)", lambda m: "_" + m[1].lower(), part)
        parts.append(part)
    return "_".join(parts)


def texts(root):
    """Every file of antt of the crates."""
    return sorted(glob.glob(os.path.join(root, "crates/*/specs/*.antt")) + glob.glob(os.path.join(root, "crates/*/proofs/**/*.antt"), recursive=True))


def is_library(path):
    """Whether a file holds lemmas of its own, and not the proof of one function."""
    return os.path.basename(path) not in ("Proof.antt", "Answers.antt", "Invariants.antt")


def read(path):
    with open(path, encoding="utf-8") as it:
        return it.read()


def bare(text):
    """The text without comments."""
    return re.sub(r"--(?= |$)[^\n]*", "", text)


def declared(text):
    """The names that a file declares, fields and constructors among them."""
    found = set()
    for line in bare(text).split("\n"):
        m = re.match(r"^ *((?:(?:pub|abbrev|unfoldable|record|data|ruleset) +)*)(" + TOKEN + r") *((?:\{[^{}]*\}|\([^()]*\)) *)*(?::|=|where)", line)
        if m and m[2] not in ("let", "in", "use", "mod", "pub", "module", "where", "elim", "open"):
            found.add(m[2])
    return found


def names(root):
    """What each declared name becomes, where it changes."""
    found = set()
    for path in texts(root):
        if is_library(path):
            found |= declared(read(path))
    turned = {}
    for name in found:
        if re.search(r"[^A-Za-z0-9_'\-]", name) or not re.match(r"[A-Za-z]", name):
            continue
        new = snake(name) + ("_lem" if name in LEMMAS.split() else "_of" if name in LENGTHS.split() else "")
        if new != name:
            turned[name] = new
    return turned


def bound(text):
    """What the variables of a file become that stand before a colon in brackets."""
    found = set()
    for m in re.finditer(r"[({]((?:" + TOKEN + r" )+): ", bare(text)):
        found |= {it for it in m[1].split() if re.fullmatch(r"[a-z][A-Za-z0-9_'\-]*", it)}
    said = {it: snake(it) for it in found if snake(it) != it}
    # A variable that would hide a lemma or a definition of its file.
    tokens = {snake(it) for it in set(re.findall(TOKEN, bare(text))) - set(said)}
    return {it: new.replace("_length", "_len").replace("last_after", "last_later") if new in tokens or sum(1 for each in said.values() if each == new) > 1 else new for it, new in said.items()}


def imported(text):
    """Names that a file takes from the toolchain's libraries."""
    found = set()
    for m in re.finditer(r"^ *(?:pub |ghost )?use ([^\n;{]+?)\.\{([^}]*)\}", text, re.M):
        if not m[1].startswith("Rattle.") or m[1].startswith("Rattle.std"):
            found |= {it.split(" as ")[-1].strip() for it in m[2].split(",")}
    return found


def made(text):
    """Names that Rattle makes for a function, which its proof declares."""
    found = set(re.findall(r"(?:tie|goal|given|as)\.(?:Need-)?(" + TOKEN + ")", text))
    found |= set(re.findall(r"^(?:pub |abbrev )*(" + TOKEN + r") : (?:tie|goal)\.", text, re.M))
    found |= set(re.findall(r"^pub (" + TOKEN + r"-spec)\b", text, re.M))
    return found


def turn_code(text, turned, left):
    """A text of antt, or of Rust with clauses: every token in code, and what stands between back quotes in comments."""
    one = re.compile(TOKEN)

    def word(m):
        return turned.get(m[0], m[0]) if m[0] not in left else m[0]

    def quoted(m):
        return re.sub(TOKEN, word, m[0])

    out = []
    for line in text.split("\n"):
        m = re.search(r"(?:^|(?<=\s))(?:--(?= |$)|//)", line)
        at = m.start() if m else len(line)
        out.append(one.sub(word, line[:at]) + re.sub(r"`[^`]*`", quoted, line[at:]))
    return "\n".join(out)


def turn_page(text, turned):
    return re.sub(r"`[^`\n]*`", lambda m: re.sub(TOKEN, lambda w: turned.get(w[0], w[0]), m[0]), text)


def of_file(path, text, turned):
    """What the names of a file become."""
    crate = path.split("/crates/")[1].split("/")[0]
    return {**turned, **bound(text), **TURNED.get(crate, {})}


def main(root, check):
    turned = names(root)
    for path in texts(root):
        text = read(path)
        left = imported(text) | (set() if is_library(path) else made(text))
        put(path, text, turn_code(text, of_file(path, text, turned), left), check)
    for path in sorted(glob.glob(os.path.join(root, "crates/*/src/*.rt"))):
        text = read(path)
        put(path, text, turn_code(text, turned, imported(text)), check)
    for path in sorted(glob.glob(os.path.join(root, "docs/*.md"))) + [os.path.join(root, it) for it in ("README.md", "CONTRIBUTING.md")]:
        text = read(path)
        put(path, text, turn_page(text, turned), check)


def put(path, old, new, check):
    if new != old:
        print(path)
        if not check:
            with open(path, "w", encoding="utf-8") as it:
                it.write(new)


if __name__ == "__main__":
    main(os.getcwd(), "--check" in sys.argv)
