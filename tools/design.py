"""How often each old form stands in crates/*/src, for docs/DESIGN-PASS.md: python3 -B tools/design.py [-v] [FOLDER]"""
import collections
import pathlib
import re
import sys

# The source is read by its layout (rt fmt) and not parsed: a function is what stands between `fn` and a brace at its own indent.
FN = re.compile(r"^( *)(?:pub(?:\(crate\))? )?(?:const )?(?:extern \"C\" )?fn (\w+)(.*?)^\1\}$", re.M | re.S)


def functions(root):
    for path in sorted(root.glob("crates/*/src/**/*.rt")):
        text = path.read_text()
        for match in FN.finditer(text):
            head, _, body = match[3].partition("\n" + match[1] + "{\n")
            if not body:
                head, _, body = match[3].partition(" {\n")
            yield f"{path.relative_to(root / 'crates')}:{text.count(chr(10), 0, match.start()) + 1}", match[2], head, body


def answer_structs(root):
    """Structs with a verdict beside the values that are of use only where it refuses nothing."""
    found = {}
    for path in sorted(root.glob("crates/*/src/**/*.rt")):
        for match in re.finditer(r"struct (\w+) \{(.*?)\n\}", path.read_text(), re.S):
            if re.search(r"\bverdict: Verdict\b", match[2]):
                found[match[1]] = str(path.relative_to(root / "crates"))
    return found


def shape(body):
    body = re.sub(r"//.*", "", body)
    body = re.sub(r"\b\d[\w.]*", "0", body)
    return re.sub(r"\s+", " ", re.sub(r"\b(?!let|mut|if|else|while|for|in|return|match|as|Ok|Err|true|false)[A-Za-z_]\w*(::\w+)*", "x", body)).strip()


def twins(root):
    """Functions of four lines and more with one shape once names and numbers are taken as alike: all but one of each group."""
    groups = collections.defaultdict(list)
    for place, name, head, body in functions(root):
        if body.count("\n") >= 4 and not place.startswith("slt"):
            groups[shape(body)].append(f"{place} {name}")
    return [" = ".join(names) for names in groups.values() for _ in names[1:] if len(names) > 1]


def facts(root):
    """Facts that stand in the requires of three functions or more, each once for each function."""
    seen = collections.defaultdict(list)
    for place, name, head, body in functions(root):
        for clause in re.findall(r"^\s*requires(?: \w+)? \{ (.*) \}$", head, re.M):
            for fact in clause.split(" × "):
                seen[fact.strip("() ")].append(f"{place} {name}")
    return [f"{fact}: {place}" for fact, places in seen.items() if len(places) >= 3 for place in places]


def together(root):
    """Parameters that stand side by side in four functions or more: pairs of neighbours, each once for each function."""
    seen = collections.defaultdict(list)
    for place, name, head, body in functions(root):
        words = re.findall(r"(\w+: (?:&mut |&)?[\w\[\]<>; ]+)", re.split(r"\)\s*(?:->|$|\n)", head)[0])
        for pair in zip(words, words[1:]):
            if not place.startswith("slt"):
                seen[", ".join(pair)].append(f"{place} {name}")
    return [f"{pair}: {place}" for pair, places in seen.items() if len(places) >= 4 for place in places]


def lines(root, pattern, glob="crates/*/src/**/*.rt"):
    for path in sorted(root.glob(glob)):
        for at, line in enumerate(path.read_text().splitlines(), 1):
            if re.search(pattern, line):
                yield f"{path.relative_to(root / 'crates')}:{at} {line.strip()}"


def points(root):
    structs = answer_structs(root)
    answers = "|".join(["Verdict", *structs])
    yield "1", "functions that answer a verdict, or a struct that holds one", [p + " " + n for p, n, h, b in functions(root) if re.search(rf"-> *(?:io::Result<)?(?:{answers})\b", h)]
    yield "1", "structs of a verdict with values beside it, and the verdict itself", sorted(structs) + [*lines(root, r"pub struct Verdict\b")]
    yield "1", "numbers that name a refusal, a kind or a call", [*lines(root, r"^(pub(\(crate\))? )?const [A-Z_]+: usize = \d+;", "crates/run/src/refusal.rt"), *lines(root, r"const (NORMAL|KIND_[AB]): usize"), *lines(root, r"const (?!DIGITS|VALUES|NONE)[A-Z_]+: usize = \d+;", "crates/cases/src/question.rt")]
    yield "1", "searches that answer a length, or 0, where there is nothing", [p + " " + n for p, n, h, b in functions(root) if re.search(r"-> usize", h) and (re.search(r"ensures \{.*first_bad", h) or n in ("head_total", "front_size", "front_length"))]
    yield "2", "functions with the shape of another", twins(root)
    yield "3", "loops by `while`", [*lines(root, r"^\s*while ")]
    yield "3", "loops by `while` that count an index by one or by a step", [p + " " + n for p, n, h, b in functions(root) for _ in re.findall(r"while .*?\{.*?^\s*\w+ (?:\+= |= \w+;)", b, re.S | re.M)]
    yield "4", "casts, bytes and choices written out: a body that is a cast, a match to true and false, `else { false }`", [p + " " + n for p, n, h, b in functions(root) if re.fullmatch(r"\s*\w+ as \w+\s*", b) or re.search(r"=> true,\s*_ => false", b) or re.search(r"\} else \{ false \}|\} else \{\s*false\s*\}", b) or re.search(r"return false;\n    \}\n    [^\n]*\n$", b)]
    yield "4", "numbers taken from bytes and put into bytes by hand", [*lines(root, r"16777216|\* 256 \+|256 \* wide|/ 256\) as u8")]
    yield "5", "facts in the requires of three functions or more", facts(root)
    yield "5", "neighbouring parameters of four functions or more", together(root)
    yield "6", "a lent run with a place in it beside it", [p + " " + n for p, n, h, b in functions(root) if re.search(r"&(?:mut )?\[u8\],\s*at: usize", h)]
    yield "7", "choices of a call by a number", [*lines(root, r"match call \{|if call == |<= call\b")]
    yield "8", "answers that only rename (`let head = c in`)", [*lines(root, r"let \w+ = (?:c|head|turn|start|one|at_head) in", "crates/*/proofs/*/Answers.antt")]
    yield "8", "answers", [*lines(root, r"^pub [\w-]+ : goal\.", "crates/*/proofs/*/Answers.antt")]
    yield "8", "lines of proofs of functions", [*lines(root, r"\S", "crates/*/proofs/*/*.antt")]


def main():
    args = [arg for arg in sys.argv[1:] if arg != "-v"]
    root = pathlib.Path(args[0] if args else ".")
    for point, what, places in points(root):
        print(f"{point} {len(places):6} {what}")
        if "-v" in sys.argv:
            for place in places:
                print("         ", place)


if __name__ == "__main__":
    main()
