"""What stands between a contract and the tools: where its pins are, and the top of a netlist. model.py and miter.py have the rest."""
import contract as contracts


def widths(module):
    """The width of every port of a module of yosys."""
    return {name: len(port["bits"]) for name, port in module["ports"].items()}


def check_pins(contract, module):
    """Every pin that the contract names is one of the circuit's, and the wire that says when a start may come is there."""
    named = [contract.clock, contract.reset, contract.start, *contract.input_pins(), *contract.output_pins()]
    missing = [pin for pin in named if pin not in module["ports"]]
    if contract.rest_wire() not in module["netnames"]:
        missing.append(contract.rest_wire())
    if missing:
        raise contracts.Wrong(f"{contract.circuit} has no {', '.join(missing)}")


def places(contract, width):
    """Where each input pin begins in the vector, and the vector's width."""
    at, total = {}, 0
    for pin in contract.input_pins():
        at[pin] = total
        total += width[pin]
    return at, total


def vector(width):
    """[7:0], or nothing for one bit."""
    return f"[{width - 1}:0] " if width > 1 else ""


def instance(module, name, contract, prefix, more=""):
    """An instance whose outputs go to wires with a prefix."""
    inputs = [contract.clock, contract.reset, contract.start] + contract.input_pins()
    joined = [f".{pin}({pin})" for pin in inputs] + [f".{pin}({prefix}{pin})" for pin in contract.output_pins()]
    return f"    {module} {name} ({', '.join(joined)}{more});"


def ports(contract, width):
    """The input ports of a module around the circuit."""
    inputs = [contract.clock, contract.reset, contract.start] + contract.input_pins()
    return "\n".join(f"    input  wire {vector(width[pin])}{pin}," for pin in inputs)


def judged(contract, module, select_width, planted):
    """The top of a netlist: the circuit with its mutants, and beside it those that were planted by hand. planted: number and module."""
    width = widths(module)
    outputs = contract.output_pins()
    lines = [instance(contract.circuit, "all", contract, "a_", ", .mutsel(mutsel)")]
    lines += [f"    wire {vector(width[pin])}a_{pin};" for pin in outputs]
    choice = {pin: f"a_{pin}" for pin in outputs}
    for number, name in planted:
        lines += [f"    wire {vector(width[pin])}p{number}_{pin};" for pin in outputs]
        lines.append(instance(name, f"p{number}", contract, f"p{number}_"))
        choice = {pin: f"mutsel == {number} ? p{number}_{pin} : {choice[pin]}" for pin in outputs}
    lines += [f"    assign {pin} = {choice[pin]};" for pin in outputs]
    head = ",\n".join(f"    output wire {vector(width[pin])}{pin}" for pin in outputs)
    return f"module judged (\n{ports(contract, width)}\n    input  wire {vector(select_width)}mutsel,\n{head}\n);\n" + "\n".join(lines) + "\nendmodule\n"
