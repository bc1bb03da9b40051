"""The mutants of a circuit: which there are, and where in the source each one is."""
import dataclasses
import json
import re

import tools


@dataclasses.dataclass
class Mutant:
    """One edit. Either yosys makes it, or it is planted by hand as an edit of the source."""
    number: int
    command: str = ""        # of yosys
    lines: str = ""          # of the source
    what: str = ""
    prepared: str = ""       # a planted one: its own file, prepared as the original is
    plant: str = ""          # and its name


# flatten: mutate adds its input to one module only. -norom: else large tables become memories, which mutate leaves alone.
# chtype, setundef: what has no value in yosys would have one in a simulator, and not the same one: an index out of range gives 0.
PREPARE = """
read_verilog {source}
hierarchy -check -top {circuit}
flatten
proc -norom
opt -full
chtype -set $shift t:$shiftx
setundef -zero
write_rtlil {work}/{name}.il
write_json {work}/{name}.json
"""


def prepare(contract, source, work, name):
    """The circuit as yosys sees it, in a file that keeps the names which the list of mutants uses; and its cells and ports."""
    tools.yosys(PREPARE.format(source=source, circuit=contract.circuit, work=work, name=name), work, name)
    return json.loads((work / f"{name}.json").read_text())["modules"][contract.circuit]


def options(command):
    """The options of a command of mutate, the last of each name."""
    words = command.split()
    found = {}
    for word, after in zip(words, words[1:]):
        if word.startswith("-") and not (word == "-src" and after.endswith(":0.0-0.0")):
            found[word[1:]] = after
    return found


def pin_value(module, said, bit):
    """What stands on a bit of a cell's port: a number of a net, or '0', '1', 'x' where it is constant."""
    cell = module["cells"].get(said["cell"].lstrip("\\"))
    return cell["connections"][said["port"].lstrip("\\")][int(said[bit])] if cell else None


def changes_nothing(module, command):
    """Is it an edit of a constant that leaves it as it is, or of one that has no value?"""
    said = options(command)
    value = pin_value(module, said, "portbit")
    control = pin_value(module, said, "ctrlbit") if "ctrlbit" in said else None
    kept = {"const0": value == "0", "const1": value == "1", "cnot0": control == "1", "cnot1": control == "0"}
    return kept.get(said["mode"], False) or value == "x"


def is_clock(module, contract, command):
    """Is it on the clock? Such an edit makes a gated clock, which is not judged."""
    said = options(command)
    return said["port"].lstrip("\\") == "CLK" or pin_value(module, said, "portbit") in module["ports"][contract.clock]["bits"]


def lines_of(sources):
    """'dpch_slot.v:34-41' of the last place of the source in a list of attributes, or nothing."""
    for place in reversed([place for source in sources for place in source.strip('"').split("|")]):
        match = re.match(r"(?:.*/)?([^:/]+):(\d+)\.\d+-(\d+)\.\d+$", place)
        if match and match.group(2) != "0":
            file, first, last = match.groups()
            return f"{file}:{first}" + (f"-{last}" if last != first else "")
    return ""


def neighbours(module, cell):
    """The places of nets and cells that a cell is joined to, for one that yosys made itself and gave no place."""
    own = {bit for bits in module["cells"][cell]["connections"].values() for bit in bits if isinstance(bit, int)}
    found = [net["attributes"].get("src", "") for net in module["netnames"].values() if own & set(net["bits"])]
    for other in module["cells"].values():
        if "src" in other["attributes"] and any(own & set(bits) for bits in other["connections"].values()):
            found.append(other["attributes"]["src"])
    return found


def source_lines(module, command):
    """The lines of the source that a mutant touches."""
    cell = options(command)["cell"].lstrip("\\")
    return lines_of(re.findall(r"-src (\S+)", command)) or lines_of(neighbours(module, cell)) or "no line kept"


KINDS = {"dff": "register", "sdff": "register", "dffe": "register", "sdffe": "register", "sdffce": "register", "pmux": "case", "shiftx": "index"}
MODES = {"inv": "inverted", "const0": "held at 0", "const1": "held at 1", "cnot0": "inverted where bit {} of it is 0",
         "cnot1": "inverted where bit {} of it is 1"}


def words(module, command):
    """What a command of mutate does, in words."""
    said = options(command)
    kind = module["cells"][said["cell"].lstrip("\\")]["type"].lstrip("$")
    wire = f" ({said['wire'].lstrip(chr(92))}[{said.get('wirebit', '0')}])" if "wire" in said else ""
    return f"{KINDS.get(kind, kind)} {said['port'].lstrip(chr(92))}[{said['portbit']}]{wire} {MODES[said['mode']].format(said.get('ctrlbit'))}"


def listed(contract, module, work, count, seed):
    """So many mutants, or all that there are. More are asked for until enough of them are left."""
    asked, found = count + count // 4 + 8, []
    while len(found) < count:
        tools.yosys(f"""
read_rtlil {work}/prepared.il
mutate -list {asked} -seed {seed} -o {work}/list.txt
""", work, "list")
        commands = (work / "list.txt").read_text().splitlines()
        found = [c for c in commands if not changes_nothing(module, c) and not is_clock(module, contract, c)]
        if len(commands) < asked:
            break
        asked *= 2
    return [Mutant(k, command, source_lines(module, command), words(module, command)) for k, command in enumerate(found[:count], 1)]
