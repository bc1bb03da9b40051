"""Netlists that hold many mutants each, and the driver that is compiled around one."""
import hashlib
import os
import pathlib

import generate
import model
import tools

MOST = 200    # mutants in a netlist: with many more a cycle costs more than another compile saves


def batches(found):
    """The mutants of each netlist."""
    made, planted = [m for m in found if not m.plant], [m for m in found if m.plant]
    cut = [made[k:k + MOST] for k in range(0, len(made), MOST)] or [[]]
    return cut[:-1] + [cut[-1] + planted]


def select_width(batch):
    """Bits of the input that chooses a mutant; yosys does not check that a number fits."""
    return max(1, max(mutant.number for mutant in batch).bit_length())


def controlled(mutant, width):
    """The command of yosys with the input that switches the mutant on."""
    return mutant.command.replace("mutate ", f"mutate -ctrl mutsel {width} {mutant.number} ", 1)


def write_netlist(contract, batch, work, circuit_work):
    """One netlist with every mutant of a batch."""
    width = select_width(batch)
    made = [mutant for mutant in batch if mutant.command]
    (work / "mutants.txt").write_text("".join(controlled(mutant, width) + "\n" for mutant in made))
    # The port must be there also where all mutants of a batch are planted.
    port = "" if made else f"\nadd -input mutsel {width}"
    # techmap: two inputs of a pmux that are chosen at once are undefined in yosys and have an order in a simulator; as gates they are
    # defined, and alike to both. splitnets: else an edit between two bits of a bus makes the bus depend on itself, which is slow.
    tools.yosys(f"""
read_rtlil {circuit_work}/prepared.il{port}
script {work}/mutants.txt
techmap t:$pmux
opt_clean
check -assert
splitnets
write_verilog -noattr {work}/mutants.v
""", work, "netlist")
    for mutant in batch:
        if mutant.plant:
            write_planted(contract, mutant, work)


def planted_module(mutant):
    """The name of a planted mutant's module."""
    return f"plant_{mutant.plant}"


def write_planted(contract, mutant, work):
    """A planted mutant as a module of its own beside the netlist."""
    tools.yosys(f"""
read_rtlil {mutant.prepared}
rename {contract.circuit} {planted_module(mutant)}
techmap t:$pmux
opt_clean
write_verilog -noattr {work}/{planted_module(mutant)}.v
""", work, planted_module(mutant))


def driver_objects(work):
    """The parts of the driver that are the same for every circuit, compiled once."""
    work.mkdir(parents=True, exist_ok=True)
    here, objects = tools.HERE, []
    include = ["-I", here / "driver", "-I", here, "-I", header(here)]
    for source in sorted((here / "driver").glob("*.cpp")) + [here / "calls.c", here / "lengths.c"]:
        to = work / (source.name + ".o")
        inputs = [source, here / "calls.h", *(here / "driver").glob("*.h")]
        if not to.exists() or any(path.stat().st_mtime > to.stat().st_mtime for path in inputs):
            compiler = [os.environ.get("CXX", "g++"), "-std=c++17"] if source.suffix == ".cpp" else [os.environ.get("CC", "cc"), "-std=c11"]
            mine = work / f"{source.name}.{os.getpid()}.o"   # another judge may be at the same work
            tools.run([*compiler, "-O2", "-Wall", "-Wextra", "-Werror", *include, "-c", source, "-o", mine], work / f"{source.name}.{os.getpid()}.log")
            mine.replace(to)
        objects.append(to)
    return objects


def header(here):
    """The directory of slt.h: beside this one in the project, else where the environment says."""
    return pathlib.Path(os.environ.get("SLT_INCLUDE", here.parent / "include"))


def archive():
    """libslt.a."""
    return pathlib.Path(os.environ.get("SLT_LIB", tools.HERE.parent / "target" / "staticlib" / "libslt.a")).resolve()


def compile_driver(contract, module, batch, work, objects):
    """The driver of one netlist."""
    planted = [(mutant.number, planted_module(mutant)) for mutant in batch if mutant.plant]
    (work / "judged.v").write_text(generate.judged(contract, module, select_width(batch), planted))
    (work / "model.cpp").write_text(model.model(contract, module))
    sources = [work / "judged.v", work / "mutants.v", *(work / f"{name}.v" for _, name in planted)]
    program, stamp = work / "obj" / "driver", work / "compiled-from"
    inputs = digest([*sources, work / "model.cpp", *objects, archive()])
    if program.exists() and stamp.exists() and stamp.read_text() == inputs:
        return program
    flags = f"-I{tools.HERE}/driver -I{tools.HERE} -I{header(tools.HERE)} -O1"
    tools.run(["verilator", "--cc", "--exe", "--build", "-j", "1", "-O3", "-Wno-lint", "-Wno-fatal", "--x-initial", "unique", "--prefix", "Vjudged",
               "--top", "judged", "--Mdir", work / "obj", "-o", "driver", "-CFLAGS", flags, "-MAKEFLAGS", f"OPT_FAST=-O1 CXX={os.environ.get('CXX', 'g++')} LINK={os.environ.get('CXX', 'g++')}", *sources,
               (work / "model.cpp").resolve(), *(path.resolve() for path in objects), archive()], work / "verilator.log")
    stamp.write_text(inputs)
    return program


def digest(paths):
    """What tells whether a driver is compiled from these files."""
    total = hashlib.sha256()
    for path in paths:
        total.update(path.read_bytes())
    return total.hexdigest()
