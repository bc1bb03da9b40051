"""The miter of a circuit and a mutant of it, which compares what is defined and nothing else."""
import generate


def differs(contract):
    """When two circuits differ in what is defined: the value counts only where a digit is sent, DTX only where there is a digit."""
    value = f"(a_{contract.value} != b_{contract.value})"
    if contract.dtx:
        value = f"((a_{contract.dtx} != b_{contract.dtx}) | !a_{contract.dtx} & {value})"
    refused = f" | (a_{contract.refused} != b_{contract.refused})" if contract.refused else ""
    # no start comes in a reset, so the pin that says when one may means nothing there
    rest = f" | !stop & (a_{contract.rest_wire()} != b_{contract.rest_wire()})" if contract.rest_pin else ""
    return f"(a_{contract.valid} != b_{contract.valid}){refused}{rest} | a_{contract.valid} & {value}"


def registers(module):
    """The registers of a circuit that are no output, by name and width."""
    driven = {bit for cell in module["cells"].values() if "dff" in cell["type"] for bit in cell["connections"]["Q"]}
    return {name: len(net["bits"]) for name, net in module["netnames"].items()
            if not net["hide_name"] and name not in module["ports"] and set(net["bits"]) <= driven}


def inner(contract, module):
    """What of a circuit's inside the miter looks at: its registers, and the wire that says when a start may come."""
    found = registers(module)
    if not contract.rest_pin:
        found.setdefault(contract.rest_wire(), 1)
    return found


MITER = """// bad is 1 where the modules original and mutant differ in what is defined; unlike is 1 there and where their registers differ. Where
// unlike is never 1, bad is not either, and that is often easier to prove.
module miter (
    input  wire {clock},
    input  wire free_reset,
    input  wire free_start,
{inputs}
    output wire bad,
    output wire unlike
);
{wires}
    reg  ready = 0;      // there has been a reset
    reg  started = 0;
    wire stop = {stop};
    wire {start} = {go};
    wire {reset} = {level}stop;
    always @(posedge {clock}) begin
        ready   <= ready | stop;
        started <= started | {start};
    end
{original}
{mutant}
    assign bad = ready & ({differs});
    assign unlike = bad | ready & ({registers});
endmodule
"""


def miter(contract, module, one_stream):
    """The miter. Resets and starts come at any time that the contract allows; with one_stream there is one reset, then one start, and
    all other inputs are free."""
    width, looked_at = generate.widths(module), inner(contract, module)
    stop, go = ("!ready", "ready & !started") if one_stream else ("free_reset", f"free_start & !stop & {'!' if contract.busy else ''}a_{contract.rest_wire()}")
    wires = [(pin, width[pin]) for pin in contract.output_pins()] + list(looked_at.items())
    joined = {p: "".join(f", .{name}({p}{name})" for name in looked_at) for p in ("a_", "b_")}
    return MITER.format(
        clock=contract.clock, start=contract.start, reset=contract.reset, level="" if contract.reset_high else "!", stop=stop, go=go,
        inputs="\n".join(f"    input  wire {generate.vector(width[pin])}{pin}," for pin in contract.input_pins()),
        wires="\n".join(f"    wire {generate.vector(bits)}a_{name}, b_{name};" for name, bits in wires),
        original=generate.instance("original", "a", contract, "a_", joined["a_"]), mutant=generate.instance("mutant", "b", contract, "b_", joined["b_"]),
        differs=differs(contract), registers=" | ".join(f"(a_{name} != b_{name})" for name in looked_at))
