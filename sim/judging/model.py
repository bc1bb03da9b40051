"""model.cpp: the contract as the driver's table, and the verilated netlist behind the driver's interface."""
import generate

KINDS = {"number": "NUMBER", "digits": "DIGITS", "numbers": "NUMBERS"}

MODEL = """// Written from {file}.
#include "Vjudged.h"
#include "contract.h"
#include "device.h"
#include "verilated.h"

const Contract CONTRACT = {{
    "{circuit}", "{call}", "{out}",
    {{{rows}}},
    {{{fixed}}},
    {bits}, {first}, {numbers}, {has_refused}, {rest_pin}}};

class Netlist : public Model {{
    VerilatedContext context;
    Vjudged top;
    static VerilatedContext *with(VerilatedContext *context, unsigned seed) {{
        context->randReset(seed ? 2 : 0);
        context->randSeed(int(seed));
        return context;
    }}

  public:
    Netlist(unsigned mutant, unsigned seed) : top(with(&context, seed), "judged") {{ top.mutsel = mutant; }}
    void reset(bool on) override {{ top.{reset} = on == {reset_high}; }}
    void start(bool on) override {{ top.{start} = on; }}
    void put(const Bits &inputs) override {{
{puts}
    }}
    void edge() override {{
        top.{clock} = 0;
        top.eval();
        top.{clock} = 1;
        top.eval();
    }}
    Pins pins() override {{ return {{{valid}, {dtx}, {refused}, {rest}, {value}}}; }}
}};

std::unique_ptr<Model> power_up(unsigned mutant, unsigned seed) {{ return std::make_unique<Netlist>(mutant, seed); }}
"""


def field_row(field, at, width):
    """A field as a row of the driver's table."""
    bits = width[field.pin] if field.kind == "number" else field.width
    room = width[field.pin] // bits
    dtx_at = at[field.dtx] if field.dtx else -1
    return (f'{{"{field.name}", Field::{KINDS[field.kind]}, {at[field.pin]}, {bits}, {room}, {dtx_at}, {str(field.signed).lower()}, '
            f"{field.low}, {field.high}, {field.length}}}")


def put_pin(pin, at, width):
    """The line of C++ that puts a part of the vector on a pin. Verilator has pins of more than 64 bits in words of 32."""
    if width <= 64:
        return f"        top.{pin} = inputs.get({at}, {width});"
    words = [f"        top.{pin}[{k // 32}] = uint32_t(inputs.get({at + k}, {min(32, width - k)}));" for k in range(0, width, 32)]
    return "\n".join(words)


def value_words(contract, width):
    """The value on the output pin; Verilator gives no sign to a narrow one."""
    bits = width[contract.value]
    if not contract.signed:
        return f"int32_t(top.{contract.value})"
    return f"int32_t(uint32_t(top.{contract.value}) << {32 - bits}) >> {32 - bits}"


def boolean(value):
    """A truth value as C++ has it."""
    return str(bool(value)).lower()


def pin(name):
    """A pin of one bit, or false where there is none."""
    return f"bool(top.{name})" if name else "false"


def model(contract, module):
    """The file's text."""
    width = generate.widths(module)
    at, total = generate.places(contract, width)
    return MODEL.format(
        file=contract.path.name, circuit=contract.circuit, call=contract.call, out=contract.out, bits=total, first=contract.first,
        rows=",\n     ".join(field_row(field, at, width) for field in contract.fields),
        fixed=", ".join(f'{{"{name}", {value}}}' for name, value in contract.fixed.items()),
        puts="\n".join(put_pin(name, at[name], width[name]) for name in contract.input_pins()),
        numbers=boolean(contract.numbers), has_refused=boolean(contract.refused), rest_pin=boolean(contract.rest_pin),
        clock=contract.clock, reset=contract.reset, reset_high=boolean(contract.reset_high), start=contract.start, valid=pin(contract.valid),
        dtx=pin(contract.dtx), refused=pin(contract.refused), rest=pin(contract.rest_wire() if contract.rest_pin else ""),
        value=value_words(contract, width))
