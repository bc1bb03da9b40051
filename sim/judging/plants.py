"""Mutants that are planted by hand: an edit of the source in a small file, with the class that it must get.

    circuit NAME
    class   WORD...      any of these
    old     TEXT         stands once in the source
    new     TEXT
"""
import dataclasses
import pathlib

import contract as contracts
import mutants

CLASSES = ("killed", "missed", "no difference", "open")


@dataclasses.dataclass
class Plant:
    """A file of this form."""
    name: str
    circuit: str
    classes: list
    old: str
    new: str


def read(path):
    """The plant in a file."""
    path, said = pathlib.Path(path), {}
    for line in path.read_text().splitlines():
        if line.strip() and not line.startswith("#"):
            word, text = line.split(None, 1)
            said[word] = text
    try:
        classes = [kind for kind in CLASSES if kind in said["class"]]
        return Plant(path.stem, said["circuit"], classes, said["old"], said["new"])
    except KeyError as missing:
        raise contracts.Wrong(f"{path} says no {missing}") from missing


def planted(contract, plant, work, number):
    """The mutant, from the circuit's source with the edit in it."""
    source = contract.verilog().read_text()
    if plant.circuit != contract.circuit or source.count(plant.old) != 1:
        raise contracts.Wrong(f"plant {plant.name}: its old text does not stand once in {contract.verilog()}")
    edited = work / f"plant_{plant.name}.source.v"
    edited.write_text(source.replace(plant.old, plant.new))
    mutants.prepare(contract, edited, work, f"plant_{plant.name}")
    line = source[:source.index(plant.old)].count("\n") + 1
    return mutants.Mutant(number, "", f"{contract.verilog().name}:{line}", f"planted: {plant.name}", str(work / f"plant_{plant.name}.il"), plant.name)
