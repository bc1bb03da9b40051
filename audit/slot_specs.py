"""The numbers of the pictures of channels, read from the specs: what a picture shows is what the promises use.

A reader that does not find the form of words it looks for says so: the spec has changed, and the picture with it. Formulas are taken from the specs too, and worked out as
they stand there.
"""
import re

FORMATS, COMPRESSED, UPLINK, PILOTS = (f"crates/dpch/specs/{name}.antt" for name in ("Formats", "Compressed", "Uplink", "UplinkPilots"))
PICH, PCCPCH, STTD, HSPDSCH, FRAME, GAP, ANTENNA, WAKE, SIGNATURE, AICH, DESK, CORRELATOR, SAMPLE, JOB, KINDS = (f"crates/{name}/specs/Rule.antt" for name in (
    "pich", "pccpch", "sttd", "hspdsch", "frame", "compressed", "antenna", "wake", "signature", "aich", "desk", "correlator", "sample", "job", "kinds"))
COMBINER, JOB_HEAD, BANK, SLOTS = "crates/combiner/specs/Outcome.antt", "crates/job/specs/Outcome.antt", "crates/bank/specs/Layout.antt", "crates/bank/specs/Slots.antt"
DESK_PAGE = "docs/DESK.md"
# The tables of formats: the file, the table's name, the definition of its rows and that of the fields' order.
DPCH, DPCCH = (FORMATS, "formats", "row", "widths"), (UPLINK, "dpcch_formats", "dpcch_row", "dpcch_widths")


class Unread(Exception):
    """A spec that does not have the form which is looked for."""


def found(tree, path, form):
    match = re.search(form, tree.text(path), re.M | re.S)
    if not match:
        raise Unread(f"{path}: a picture reads it by the form {form}, which is not there")
    return match


def formula(tree, path, name, arguments):
    """A definition by plain sums, products, quotients and remainders of its arguments, as a function: a quotient of whole numbers is rounded down."""
    right = found(tree, path, rf"^{name} {arguments} = ([\w +*/%()-]+)$")[1]
    if not set(re.findall(r"[A-Za-z]\w*", right)) <= set(arguments.split()):
        raise Unread(f"{path}: {name} is more than a formula of its arguments: {right}")
    code = compile(right.replace("/", "//"), path, "eval")
    return lambda *numbers: eval(code, {"__builtins__": {}}, dict(zip(arguments.split(), numbers, strict=True)))


def numbers(tree, path, form):
    """The whole numbers of a form, one for each of its groups."""
    return [int(word) for word in found(tree, path, form).groups()]


def listed(tree, path, name, row, widths):
    """The rows of a table of formats: each a dictionary from the name of a column to its number. The columns are those of the definition of a row."""
    columns = found(tree, path, rf"^{row} ([\w ]+) =")[1].split()
    table = found(tree, path, rf"^{name} =\n(.*?)\[\]$")[1]
    rows = [[int(word) for word in line.split()] for line in re.findall(rf"\b{row} ((?:\d+ ?)+)$", table, re.M)]
    if not rows or any(len(row) != len(columns) for row in rows):
        raise Unread(f"{path}: a row of {name} does not have the columns {columns}")
    return [dict(zip(columns, row)) for row in rows]


def fields(tree, path, name, row, widths):
    """The fields of a slot in their order: those of the definition of their widths."""
    return re.findall(r"f\.(\w+)", found(tree, path, rf"^{widths} f = (.*?)$")[1])


def filled(path, order, row):
    """A row as the list of its fields and widths, and its length. The fields must fill the slot."""
    if sum(row[field] for field in order) != row["slot"]:
        raise Unread(f"{path}: the fields of {row} do not fill its slot")
    return [(field, row[field]) for field in order], row["slot"]


def slots(tree, table):
    """So each format of a table."""
    order = fields(tree, *table)
    return [filled(table[0], order, row) for row in listed(tree, *table)]


def compressed(tree):
    """The rows of compressed frames by their names, 0A, 0B, 1B and so on; no_row stands where the table has none. The last two columns are the slots that are transmitted,
    at least and at most."""
    columns, fewest, most = found(tree, COMPRESSED, r"^compressed_row kind ([\w ]+) =\n[^\n]*fewest = (\d+); most = (\d+) }$").groups()
    rows = {}
    for letter in "AB":
        table = found(tree, COMPRESSED, rf"^formats_{letter.lower()} =\n(.*?)\[\]$")[1]
        for number, line in enumerate(re.findall(rf"(no_row|row_{letter.lower()} (?:\d+ ?)+)$", table, re.M)):
            if line != "no_row":
                rows[f"{number}{letter}"] = dict(zip(columns.split(), map(int, line.split()[1:]), strict=True), fewest=int(fewest), most=int(most))
    return dict(sorted(rows.items(), key=lambda row: (int(row[0][:-1]), row[0][-1])))


def compressed_slots(tree):
    """So each of them, in the order of the normal formats' fields."""
    order = fields(tree, *DPCH)
    return [filled(COMPRESSED, order, row) for row in compressed(tree).values()]


def dpdch(tree):
    """The same of the uplink DPDCH, whose only field is data."""
    sizes = [int(word) for word in found(tree, UPLINK, r"^dpdch_sizes = ((?:\d+ ∷ )+)\[\]$")[1].split(" ∷ ")[:-1]]
    return [([("data", size)], size) for size in sizes]


def pilots(tree):
    """The pilot bits of the uplink DPCCH: for each slot the patterns of 3 to 8 bits."""
    rows = []
    for name in ("table3", "table4"):
        table = found(tree, PILOTS, rf"^{name} =\n(.*?)\n    ∷ \[\]$")[1]
        rows.append(["".join(re.findall(r"[01]", line)) for line in table.splitlines()])
    patterns = [int(word) for word in found(tree, PILOTS, r"^patterns = ((?:\d+ ∷ )+)\[\]$")[1].split(" ∷ ")[:-1]]
    joined = [first + second for first, second in zip(*rows, strict=True)]
    if any(len(row) != sum(patterns) for row in joined):
        raise Unread(f"{PILOTS}: a row does not have the patterns {patterns}")
    return [[row[sum(patterns[:at]):sum(patterns[:at + 1])] for at in range(len(patterns))] for row in joined]


def frame_slots(tree):
    """The slots of a frame."""
    return numbers(tree, FRAME, r"^frame_of f d tfci commands = joined \(tab (\d+) \(slot_at f d tfci commands\)\)$")[0]


def gap(tree):
    """The slots of a frame, how many are sent at least and at most, whether a slot is missing, and which of the sent ones it is."""
    count = numbers(tree, GAP, r"^transmitted missing = (\d+) - missing$")[0]
    found(tree, GAP, r"^is_missing first missing k = leb first k && ltb k \(first \+ missing\)$")
    found(tree, GAP, r"^turn_of first missing k = cond \(ltb k first\) k \(k - missing\)$")
    fewest, most = numbers(tree, COMPRESSED, r"fewest = (\d+); most = (\d+) }$")
    return count, fewest, most, lambda first, missing, k: first <= k < first + missing, lambda first, missing, k: k if k < first else k - missing


def second_antenna(tree):
    """Up to which format the first digits are the same on both antennas, how many those are, and how long a pilot is that goes by blocks."""
    few, start = numbers(tree, ANTENNA, r"^coded_from format = cond \(leb format (\d+)\) (\d+) 0$")
    whole = numbers(tree, ANTENNA, r"^coded_to format = cond \(eqb \(format_of format\)\.pilot (\d+)\) \(format_of format\)\.slot \(pilot_start format\)$")[0]
    return few, start, whole


def pich(tree):
    """The frame's length, where its tail begins, and each Np with the digits of one indicator."""
    length, tail = map(int, found(tree, PICH, r"^frame_of np indicators = tab (\d+) \(λ \(k : ℕ\)\. cond \(ltb k (\d+)\)").groups())
    total = int(found(tree, PICH, r"^width np = (\d+) / np$")[1])
    numbers = [int(np) for np in re.findall(r"eqb np (\d+)", found(tree, PICH, r"^is_np np = (.*?)$")[1])]
    if total != tail or any(tail % np for np in numbers):
        raise Unread(f"{PICH}: the indicators do not fill the digits before the tail")
    return length, tail, [(np, tail // np) for np in numbers]


def pccpch(tree):
    """The length of a slot, its data digits, and the silent digits before them."""
    slot, data, silent, again = map(int, found(tree, PCCPCH, r"^place d = (\d+) \* \(d / (\d+)\) \+ (\d+) \+ d % (\d+)$").groups())
    if data != again or silent + data != slot:
        raise Unread(f"{PCCPCH}: the data digits do not fill what is not silent")
    return slot, data, silent


def block(tree):
    """What antenna 2 sends for a block b0 b1 b2 b3: for each place the entry, and whether it has a bar."""
    words = found(tree, STTD, r"^sttd bar \(b0 ∷ b1 ∷ b2 ∷ b3 ∷ rest\) = (.*) ∷ sttd bar rest$")[1].split(" ∷ ")
    return [(int(word[-1]), word.startswith("bar ")) for word in words]


def hspdsch(tree):
    """The slots of the HS-PDSCH, whose only field is data."""
    sizes = [int(word) for word in found(tree, HSPDSCH, r"^slot_sizes = ((?:\d+ ∷ )+)\[\]$")[1].split(" ∷ ")[:-1]]
    return [([("data", size)], size) for size in sizes]


def figure(tree):
    """What antenna 2 sends for a block of eight: for each place the digit, and whether it has a bar."""
    words = found(tree, HSPDSCH, r"^figure8_a = ((?:(?:bar|plain) \d ∷ )+)\[\]$")[1].split(" ∷ ")[:-1]
    return [(int(word[-1]), word.startswith("bar ")) for word in words]


def subframe(tree):
    """The slots of a subframe of the HS-PDSCH."""
    return numbers(tree, HSPDSCH, r"^size format = (\d+) \* get_or slot_sizes format 0$")[0]


def wake(tree):
    """Which indicator is a handset's in a frame, the SFN of frame k, and the last SFN."""
    count = numbers(tree, WAKE, r"^sfn_at first k = cond \(eqb k 0\) first \(\(first \+ k\) % (\d+)\)$")[0]
    return formula(tree, PICH, "q_of", "np pi sfn"), lambda first, k: (first + k) % count, count - 1


def signatures(tree):
    """How many signatures there are, how many values each has, and whether signature s has +1 at value j."""
    count = numbers(tree, AICH, r"^value_at indicators j = sum (\d+) ")[0]
    values = numbers(tree, AICH, r"^values_of indicators = tab (\d+) \(value_at indicators\)$")[0]
    found(tree, SIGNATURE, r"^is_plus s j = eqb \(ones \(bit_and s \(j / 2\)\) % 2\) 0$")
    return count, values, lambda s, j: bin(s & j // 2).count("1") % 2 == 0


def answers(place_of, heard, available, last, n):
    """The indicators of a desk, and the desk afterwards: of those heard and available the first n in circular order get +1."""
    asking = sorted((s for s in range(16) if heard >> s & available >> s & 1), key=lambda s: place_of(last, s))
    return [0 if s not in asking else 1 if s in asking[:n] else -1 for s in range(16)], [last, *asking[:n]][-1]


def desk(tree):
    """The slots of the desk's page, worked out by the rule; the signatures in order from behind one; and the distances for each timing."""
    place_of, at = formula(tree, DESK, "place_of", "last s"), formula(tree, DESK, "signature_at", "last place")
    last, rows = numbers(tree, DESK, r"^fresh_last = (\d+)$")[0], []
    n = numbers(tree, DESK_PAGE, r"^All of the three are called with n = (\d+)\.$")[0]
    for slot, before, heard, available, after in re.findall(r"^\| (\d) \| (\d+).*?\(0x(\w+)\) \|.*?\(0x(\w+)\) \|.*\| (\d+) \|$", tree.text(DESK_PAGE), re.M):
        given, rest = answers(place_of, int(heard, 16), int(available, 16), last, n)
        rows.append({"slot": int(slot), "before": last, "after": rest, "n": n, "heard": int(heard, 16), "answers": given})
        if (int(before), int(after)) != (last, rest):
            raise Unread(f"{DESK_PAGE}: the desk of slot {slot} is not {before} and then {after}, as the page has it")
        last = rest
    if not rows:
        raise Unread(f"{DESK_PAGE}: a picture shows its slots, and there are none")
    distances = [numbers(tree, DESK, rf"^{name} timing = cond \(eqb timing 0\) (\d+) (\d+)$") for name in ("to_aich", "to_message")]
    return rows, lambda last: [at(last, place) for place in range(16)], list(zip(*distances, strict=True))


def combiner(tree):
    """The bound of a gain's parts and that of received parts, how many of these there are, and how many results."""
    gain, = numbers(tree, COMBINER, r"^gain_in = between \(negsuc \d+\) \(pos (\d+)\)$")
    part, = numbers(tree, COMBINER, r"^part_in = in_range \(negsuc \d+\) \(pos (\d+)\)$")
    return gain, part, *numbers(tree, COMBINER, r"eqb receivedLength (\d+)\).*?eqb resultsLength (\d+)\)")


def combined(tree):
    """T1 and T2 as the spec has them, with a star for the conjugate."""
    signs = {"⊠": "·", "⊞": "+", "⊟": "-"}
    texts = [found(tree, CORRELATOR, rf"^{name} h1 h2 r1 r2 = ([\w ⊠⊞⊟]+)$")[1] for name in ("t1", "t2")]
    return [re.sub("[⊠⊞⊟]", lambda sign: signs[sign[0]], re.sub(r"conj (\w+)", r"\1*", text)).replace(" · ", "·") for text in texts]


def block_of_pair(tree):
    """What antenna 2 sends of two symbols, by what it sends of their four parts: a symbol whose second part has the bar is a conjugate, one whose first has it the negative of one."""
    (a, first), (b, second), (c, third), (d, fourth) = block(tree)
    if ([a // 2, b // 2, c // 2, d // 2], [first, second, third, fourth]) != ([1, 1, 0, 0], [True, False, False, True]):
        raise Unread(f"{STTD}: a block is not that of two symbols")
    return "-S2*, S1*"


def sample(tree):
    """The bound of a value, and the levels: one over the least, and the greatest."""
    value, = numbers(tree, SAMPLE, r"^is_value = between \(negsuc \d+\) \(pos (\d+)\)$")
    low, = numbers(tree, SAMPLE, r"^lowest = fin false 1 \(negsuc (\d+)\)$")
    high, = numbers(tree, SAMPLE, r"^highest = fin false 1 \(pos (\d+)\)$")
    return value, 2 ** (low + 1), 2 ** high


def bank(tree):
    """The mark, the bytes of the header, those of a slot beside its digits, the least and the most bytes of a buffer, and of a slot's digits."""
    letters = numbers(tree, BANK, r"^head n = (\d+) ∷ (\d+) ∷ (\d+) ∷ (\d+) ∷ n / 16777216 ∷")
    found(tree, BANK, r"^slot_bytes s = s\.number ∷ 0 ∷ length s\.digits / 256 ∷ length s\.digits % 256 ∷ s\.digits$")
    head, = numbers(tree, SLOTS, r"^taken ss = (\d+) \+ total \(map size_of ss\)$")
    beside, = numbers(tree, SLOTS, r"^size_of s = (\d+) \+ length s\.digits$")
    return "".join(map(chr, letters)), head, beside, numbers(tree, BANK, r"^is_room n = leb (\d+) n && leb n (\d+)$"), numbers(tree, SLOTS, r"^is_length n = leb (\d+) n && leb n (\d+)$")


def jobfile(tree):
    """The mark; of each version its number, the bytes that count the records, and the most bytes of a file; of each kind its number and, where that is fixed, its bytes."""
    mark = "".join(chr(int(word)) for word in re.findall(r"eqb \(get_or file \d 0\) (\d+)\) \(WrongMark", tree.text(JOB_HEAD)))
    versions = numbers(tree, JOB, r"^is_version version = eqb version (\d+) \|\| eqb version (\d+)$")
    widths = numbers(tree, JOB, r"^width_of version = cond \(eqb version 1\) (\d+) (\d+)$")
    limits = numbers(tree, JOB, r"^limit_of version = cond \(eqb version 1\) (\d+) (\d+)$")
    aich, = numbers(tree, KINDS, r"^size_of kind second = by_kind kind (\d+) ")
    kinds = {name: (numbers(tree, KINDS, rf"^{name}_kind = (\d+)$")[0], aich if name == "aich" else None) for name in ("aich", "pich", "dpch")}
    return mark, list(zip(versions, widths, limits, strict=True)), kinds
