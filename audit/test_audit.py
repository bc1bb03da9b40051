#!/usr/bin/env python3
"""A test of the audit: in a copy of the project each plant below is one thing said wrongly, and the audit must find it and nothing else. The copy as it is must pass.

    audit/test_audit.py [ROOT]
"""
import pathlib
import shutil
import subprocess
import sys
import tempfile

sys.dont_write_bytecode = True

import audit
import names

# What is wrong; the file; the text that is taken out (none: the new text is put at the end); the text that is put in; what a fault must say of it.
PLANTS = (
    ("a crate", "README.md", "", "\nThe crate `pich_rd` is not there.\n", "pich_rd"),
    ("a file", "docs/TRUST.md", "`crates/*/specs/`", "`crates/*/spex/`", "crates/*/spex/"),
    ("a page in a comment", "crates/run/src/lib.rt", "", "// See docs/NOWHERE.md.\n", "docs/NOWHERE.md"),
    ("a function", "docs/DECISIONS.md", "`correlator::fold`", "`correlator::unfold`", "correlator::unfold"),
    ("a theorem", "docs/DEMAND3.md", "`combine_once`", "`combine_twice`", "combine_twice"),
    ("a theorem of another crate", "docs/DEMAND3.md", "`rows` of `signature`", "`rows` of `pich`", "rows"),
    ("a theorem of another file", "docs/INTERFACE.md", "`unpacks` in `crates/packed/", "`packs` in `crates/packed/", "packs"),
    ("a theorem of a row", "docs/PROMISES.md", "`frame_filled` (each", "`read_exakt` (each", "read_exakt"),
    ("a public function without a row", "crates/bank_find/src/lib.rt", "\nfn start_of(", "\npub fn start_of(", "bank_find::start_of: no row"),
    ("a public method without a row", "crates/run/src/refusal.rt", "    // The number that C is told.\n", "    pub fn told(self) -> usize {\n        0\n    }\n\n    // The number that C is told.\n", "run::refusal::told: no row"),
    ("the one outcome of a part", "docs/PROMISES.md", "how many digits it has; `parts_once`", "how many digits it has", "bank_find::held"),
    ("a definition", "docs/DEMAND3.md", "`values_of`", "`values_for`", "values_for"),
    ("an edit", "docs/DEMAND3.md", "`gains_after_12`", "`wrong_partner`", "wrong_partner"),
    ("an edit of another crate", "docs/PROMISES.md", "`tail_as_zero`", "`tail_of_zeros`", "tail_"),
    ("a C function", "docs/INTERFACE.md", "`slt_pich_q(np, pi, sfn)`", "`slt_pich_qq(np, pi, sfn)`", "slt_pich_q"),
    ("an argument of a C function", "docs/INTERFACE.md", "`slt_pich_q(np, pi, sfn)`", "`slt_pich_q(np, pi)`", "slt_pich_q(np, pi)"),
    ("a C function that is not exported", "include/slt.h", "slt_pich_q(", "slt_pich_qq(", "slt_pich_q"),
    ("a type of the header", "include/slt.h", "slt_pich_q(size_t np, size_t pi", "slt_pich_q(size_t np, int64_t pi", "slt_pich_q"),
    ("an export with another clause", "crates/slt/src/pich_calls.rt", "PichQ np pi sfn result", "PichQ np sfn pi result", "slt_pich_q"),
    ("an export that hands on other arguments", "crates/slt/src/pich_calls.rt", "slt_pich::slt_pich_map(np, indicators, frame)", "slt_pich::slt_pich_map(np, frame, indicators)", "slt_pich_map"),
    ("an export of another name", "crates/slt/src/desk_calls.rt", "fn slt_desk_to_aich(", "fn slt_desk_to_aichs(", "slt_desk_to_aich"),
    ("a library whose calls are not exported", "crates.txt", " slt_sample slt_bank\nnumbers", " slt_sample\nnumbers", ""),
    ("what a fresh desk holds", "include/slt.h", "SLT_DESK_FRESH 15u", "SLT_DESK_FRESH 0u", "SLT_DESK_FRESH"),
    ("a field of a struct of the header", "include/slt.h", "uint32_t next_sfn;", "uint64_t next_sfn;", "slt_tally"),
    ("a macro", "docs/INTERFACE.md", "`SLT_PLACE(a)`", "`SLT_WHERE(a)`", "SLT_WHERE"),
    ("a make target", "docs/SPEED.md", "`make bench`", "`make benches`", "make benches"),
    ("a make target in a block", "README.md", "    make lib ", "    make libs ", "make libs"),
    ("a file in a block", "README.md", "< examples/all_formats.slt", "< examples/no_formats.slt", "examples/no_formats.slt"),
    ("a section that a link leads to", "README.md", "(docs/RULES.md#pich)", "(docs/RULES.md#pitch)", "pitch"),
    ("a call that the first page lacks", "README.md", "`slt_wake_run`, ", "", "slt_wake_run"),
    ("a program that the first page lacks", "README.md", "(examples/wake.c)", "(examples/hs.c)", "examples/wake.c"),
    ("a picture that the first page lacks", "README.md", "(docs/bank.svg)", "(docs/desk.svg)", "docs/bank.svg"),
    ("a program that is not short", "examples/hs.c", "", "\n" * 9, "examples/hs.c"),
    ("a picture that is shown", "README.md", "](docs/crates.svg)", "](docs/creates.svg)", "docs/cr"),
    ("a refusal that is printed", "docs/JOBFILE.md", "`refused NUMBER PLACE`", "`refused 99 0`", "refused 99 0"),
    ("a word of the man page", "packaging/slotline.1", ".I docs/JOBFILE.md", ".I docs/JOBS.md", "docs/JOBS.md"),
    ("a backtick", "docs/SPEED.md", "", "\nOne ` alone.\n", "backtick"),
    ("a section", "crates/pich/src/lib.rt", "", "// docs/RULES.md, 'PICH' and\n// 'PICH tail'.\n", "PICH tail"),
    ("a document", "crates/pich/src/lib.rt", "", "// As document" + " 01 has it.\n", "document"),
    ("a refusal of the rules", "docs/RULES.md", "\n| 7 |", "\n| 77 |", "docs/RULES.md: refusal 7"),
    ("a refusal of the interface", "docs/INTERFACE.md", "\n| 12 | both", "\n| 14 | both", "docs/INTERFACE.md: refusal 1"),
    ("a refusal of the job file", "docs/JOBFILE.md", "| 8 | 0 |", "| 18 | 0 |", "refusal "),
    ("a refusal of the man page", "packaging/slotline.1", ".B 8\n", ".B 18\n", "packaging/slotline.1: refusal "),
    ("a refusal of the header", "include/slt.h", "SLT_REFUSED_PILOT 7u", "SLT_REFUSED_PILOT 17u", "PILOT = "),
    ("a refusal of the code", "crates/run/src/refusal.rt", "    Room = 31,", "    Room = 41,", "ROOM"),
    ("a number of a call on the page", "docs/INTERFACE.md", "| `slt_dpcch_read` | 1, 2, 3, 4, 5, 7 |", "| `slt_dpcch_read` | 1, 2, 3, 4, 5, 6, 7 |", "docs/INTERFACE.md: slt_dpcch_read gives"),
    ("a call without its numbers", "docs/INTERFACE.md", "| `slt_bank_empty`, `slt_bank_room` | 28 |", "| `slt_bank_empty` | 28 |", "no numbers of slt_bank_room"),
    ("a number of the order of checks", "docs/INTERFACE.md", "slot, data, TFCI | 1, 2, 3, 4 above 2, 5, 6, 7;", "slot, data, TFCI | 1, 2, 3, 4 above 2, 5, 7;", "order of checks: slt_slot_read gives"),
    ("a number of a call in the second program", "second/src/numbers.rs", "(\"slt_slot_read\", &[1, 2, 3, 4, 5, 6, 7])", "(\"slt_slot_read\", &[1, 2, 3, 4, 5, 7])", "second/src/numbers.rs: slt_slot_read gives"),
    ("a number of a call in the specs", "crates/numbers/specs/Rule.antt", "refusals bank_empty = 28", "refusals bank_empty = 29", "slt_bank_empty"),
    ("a number that is no refusal", "crates/numbers/specs/Rule.antt", "refusals bank_empty = 28", "refusals bank_empty = 28 ∷ 33", "slt_bank_empty"),
    ("a call that no list has", "crates/numbers/specs/Rule.antt", "refusals bank_empty = 28 ∷ []\n", "", "slt_bank_empty"),
    ("a number that no case gives", "crates/cases/stdout", "refused 12 0", "refused 11 0", "no case is refused with 12"),
    ("a number of the comparison of job files", "second/src/bin/jobs/main.rs", "11, 20, 21,", "11, 21,", "second/src/bin/jobs/main.rs"),
    ("a number that no call on a page gives", "docs/PYTHON.md", "\n| 32 | 0 | `slt.wake_run(", "\n| 31 | 0 | `slt.wake_run(", "docs/PYTHON.md: refusal 3"),
    ("a crate that a picture lacks", "crates.txt", "\nslotline: run", "\nslotlines: run", ""),
    ("a line of a picture", "docs/slots.svg", "format 16", "format 17", "docs/slots.svg"),
    ("a number of a picture", "crates/dpch/specs/Formats.antt", "row 0 4 2 0 4 10", "row 0 2 4 0 4 10", ""),
    ("a form that a picture reads", "crates/pich/specs/Rule.antt", "width np = 288 / np", "width np = 288 / (np + 0)", "a picture reads it"),
    ("a formula that a picture works out", "crates/pich/specs/Rule.antt", "(pi + 18 *", "(pi + 19 *", "docs/pich.svg"),
    ("a formula of more than its arguments", "crates/pich/specs/Rule.antt", "% np\n", "% np + dtx\n", "q_of"),
    ("a distance in a picture", "crates/desk/specs/Rule.antt", "7680 12800", "7680 12801", "docs/desk.svg"),
    ("a slot of the desk's page", "docs/DESK.md", "| 9, 14 | 5 |", "| 9, 14 | 9 |", "docs/DESK.md"),
    ("a sign in a picture", "crates/correlator/specs/Rule.antt", "conj h1 ⊠ r1 ⊞", "conj h1 ⊠ r1 ⊟", "docs/combiner.svg"),
    ("a level in a picture", "crates/sample/specs/Rule.antt", "fin false 1 (pos 10)", "fin false 1 (pos 11)", "docs/combiner.svg"),
    ("a bound in a picture", "crates/bank/specs/Layout.antt", "leb n 65536", "leb n 65535", "docs/bank.svg"),
    ("a limit in a picture", "crates/job/specs/Rule.antt", "65535 1048576", "65535 1048575", "docs/jobfile.svg"),
    ("the digits that a picture leaves alone", "crates/antenna/specs/Rule.antt", "(leb format 1) 2 0", "(leb format 1) 4 0", "docs/antennas.svg"),
    ("a size in a picture", "crates/hspdsch/specs/Rule.antt", "slot_sizes = 320", "slot_sizes = 300", "docs/hspdsch.svg"),
    ("a gap in a picture", "crates/compressed/specs/Rule.antt", "(k - missing)", "(k - first)", "a picture reads it"),
    ("a sum in a picture", "crates/aich/specs/Rule.antt", "values_of indicators = tab 32", "values_of indicators = tab 31", "docs/aich.svg"),
    ("a slot of the uplink in a picture", "docs/uplink.svg", "10 = 5 + 2 + 1 + 2", "10 = 5 + 2 + 2 + 1", "docs/uplink.svg"),
    ("a format of the rules", "docs/RULES.md", "\n| 9 | 6 | 26 |", "\n| 9 | 6 | 24 |", "docs/RULES.md"),
    ("a compressed format of the rules", "docs/RULES.md", "\n| 7B | 4 | 12 |", "\n| 7B | 4 | 16 |", "docs/RULES.md"),
    ("a compressed format of the specs", "crates/dpch/specs/Compressed.antt", "row_a 6 24 2 0 8 40", "row_a 8 22 2 0 8 40", ""),
    ("a format of the uplink in the rules", "docs/RULES.md", "\n| 2 | 5 | 2 | 1 | 2 | 10 |", "\n| 2 | 5 | 1 | 2 | 2 | 10 |", "docs/RULES.md"),
    ("a pilot bit in the rules", "docs/RULES.md", "| 00110 | 100110 | 1001101 |", "| 00110 | 100110 | 1001100 |", "docs/RULES.md"),
    ("a pilot bit in the specs", "crates/dpch/specs/UplinkPilots.antt", "(1 ∷ 1 ∷ 1 ∷ 1 ∷ 1 ∷ 0 ∷ 1 ∷ 1", "(1 ∷ 1 ∷ 1 ∷ 1 ∷ 1 ∷ 0 ∷ 0 ∷ 1", "docs/RULES.md"),
    ("the order of the uplink's fields", "crates/dpch/specs/Uplink.antt", "f.tfci ∷ f.fbi", "f.fbi ∷ f.tfci", ""),
    ("a row of Python", "python/slt/_rows.py", "    \"slt_pich_q\": row(NP, PI, size(\"sfn\")),\n", "", "no row for slt_pich_q"),
    ("a row of Python for no call", "python/slt/_rows.py", "\"slt_pich_q\": row(", "\"slt_pich_qq\": row(", "slt_pich_q"),
    ("a type of a row", "python/slt/_rows.py", "size(\"sfn\")", "whole(\"sfn\")", "slt_pich_q"),
    ("a run of a row", "python/slt/_rows.py", "room(\"frame\", PICH_FRAME)", "given(\"frame\", PICH_FRAME)", "slt_pich_map"),
    ("a name of a row", "python/slt/_rows.py", "size(\"sfn\")", "size(\"nfs\")", "slt_pich_q"),
    ("a function of Python", "python/slt/pich.py", "def pich_q(", "def pich_qq(", "pich_q"),
    ("a sentence of Python", "python/slt/refusals.py", "both gains are zero", "both gains are 0", "refusal 12"),
    ("a sentence of the rules", "docs/RULES.md", "| both gains are zero |", "| both gains are 0 |", "refusal 12"),
    ("the version of Python", "python/slt/_library.py", "VERSION = \"2.0\"", "VERSION = \"2.1\"", "VERSION"),
    ("a function on Python's page", "docs/PYTHON.md", "| `slt.pich_read(np", "| `slt.pich_reed(np", "slt.pich_reed"),
    ("a name on Python's page", "docs/PYTHON.md", "`sentence`", "`sentense`", "sentense"),
    ("a command of Python", "README.md", "`python -m slt --help`", "`python -m slot --help`", "python -m slot"),
    ("the kit on the first page", "README.md", "logic dac8", "logic 1ac8", "logic "),
    ("the kit on the page of trust", "docs/TRUST.md", "logic dac8", "logic 1ac8", "logic "),
    ("the kit that is pinned", "setup/kit", "logic dac8", "logic 1ac8", "logic "),
    ("a refusal of the specs", "crates/run/specs/Refusals.antt", "pilot_refused = 7", "pilot_refused = 17", ""),
)


def readers(copy):
    """The files that each check reads in the untouched copy. Where a plant is in none of them the check would say what it says there: nothing."""
    found = {}
    for check in audit.CHECKS:
        tree = names.Tree(copy)
        list(check.faults(tree))
        found[check] = tree.read
    return found


def planted(copy, plant, read):
    """The faults of the copy with one plant in it."""
    what, name, old, new, sign = plant
    path = copy / name
    before = path.read_text(encoding="utf-8")
    if old and old not in before:
        return [f"the text that is to be replaced does not stand in {name}"]
    path.write_text(before.replace(old, new, 1) if old else before + new, encoding="utf-8")
    found = audit.faults(copy, [check for check in audit.CHECKS if name in read[check]])
    path.write_text(before, encoding="utf-8")
    return found


def command(copy):
    """The audit as the gate runs it: whether it passes."""
    return subprocess.run([sys.executable, "-B", copy / "audit/audit.py"], capture_output=True).returncode == 0


def try_plants(copy):
    read = readers(copy)
    for plant in PLANTS:
        found = planted(copy, plant, read)
        if not found:
            yield f"{plant[0]}: a wrong one in {plant[1]} is not found"
        yield from (f"{plant[0]}: it says '{fault}'" for fault in found if plant[4] not in fault)


def main():
    root = pathlib.Path(sys.argv[1] if len(sys.argv) > 1 else pathlib.Path(__file__).resolve().parent.parent)
    with tempfile.TemporaryDirectory() as folder:
        copy = pathlib.Path(folder) / "copy"
        shutil.copytree(root, copy, ignore=shutil.ignore_patterns(*names.MADE))
        wrong = [f"the untouched copy: {fault}" for fault in audit.faults(copy)] or list(try_plants(copy))
        passes = command(copy)
        (copy / "README.md").write_text("A page without the crate `run_to`.\n", encoding="utf-8")
        if not passes or command(copy):
            wrong.append("the command does not pass on the untouched copy, or passes on another")
    if wrong:
        sys.exit("\n".join(wrong) + f"\ntest of the audit: {len(wrong)} wrong")
    print(f"test of the audit: {len(PLANTS)} plants, each found")


main()
