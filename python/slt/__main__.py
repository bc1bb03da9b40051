"""The mapper on the command line: python -m slt --help."""
from __future__ import annotations

import argparse
import inspect
import sys
import textwrap
from typing import Any, Callable, Dict, List, Sequence

import slt
from slt import job
from slt._rows import CALLS, Number, Run

DONE, REFUSED, BAD_USAGE = 0, 1, 2

ABOUT = """The slot mapper for 3GPP TS 25.211: puts the fields of a channel into the digits that are sent, reads
them back, and looks at job files."""

EPILOG = """examples:
  %(prog)s map slot format=1 slot=1 tpc=1 data=10 tfci=01
  %(prog)s read slot format=1 slot=1 run=1101101100
  %(prog)s map --help             the channels
  %(prog)s map slot --help        what a channel's call is given
  %(prog)s q np=18 pi=5 sfn=1
  %(prog)s job check FILE         FILE may be - for standard input
  %(prog)s job show FILE

Digits are written as 0, 1, and - for DTX; values as numbers with commas between them.
Status: 0 done, 1 refused, 2 bad usage, or no such file, or no library."""


# What the arguments of the commands are, for their help: numbers, and runs of digits or values.
NUMBERS = {
    "format": "the slot format, counted from 0; docs/RULES.md has the tables",
    "slot": "the slot's number in its frame, 0 to 14",
    "tpc": "the power control command, 0 or 1",
    "antenna": "0 for antenna 1, 1 for antenna 2",
    "kind": "1 for a format A, 2 for a format B",
    "first": "the first slot that is missing",
    "missing": "how many slots are missing",
    "np": "how many paging indicators a frame has: 18, 36, 72 or 144",
    "pi": "the handset's PI, 0 to np - 1",
    "sfn": "the number of the frame, 0 to 4095",
    "available": "the signatures that the cell offers: signature s is bit s, and 0xffff is all",
}
RUNS = {
    "data": "the data digits, those of Data1 before those of Data2",
    "tfci": "the TFCI digits; some formats have none",
    "fbi": "the FBI digits; some formats have none",
    "commands": "a power control command, 0 or 1, for each slot",
    "run": "the digits of the slot",
    "frame": "the digits of the frame",
    "first": "the digits that antenna 1 sent",
    "second": "the digits that antenna 2 sent",
    "antenna1": "the digits that antenna 1 sent",
    "antenna2": "the digits that antenna 2 sent",
    "indicators": "the indicators: of the PICH each 0 or 1, of the AICH each -1, 0 or 1",
    "values": "the 32 AICH values",
}


class Wrong(Exception):
    """The words of the command line are no call."""


def calls(word: str) -> Dict[str, str]:
    """The calls that map, or that read: the words of their name without that word, and the name."""
    parts = {name: name.split("_") for name in slt.__all__ if word in name.split("_")}
    return {"-".join(part for part in words if part != word): name for name, words in parts.items()}


def arguments(name: str) -> List[Any]:
    """The arguments that a call's function takes, as its row has them, in the function's order."""
    by_name = {argument.name: argument for argument in CALLS["slt_" + name].arguments}
    return [by_name[parameter] for parameter in inspect.signature(getattr(slt, name)).parameters]


def needed(name: str) -> List[str]:
    """The names of those that have to be given."""
    return [key for key, parameter in inspect.signature(getattr(slt, name)).parameters.items() if parameter.default is parameter.empty]


def form(argument: Any) -> str:
    """What is written for an argument."""
    if isinstance(argument, Run):
        return "DIGITS" if argument.kind == "uint8_t" else "NUMBER,NUMBER.."
    return "NUMBER"


def value(argument: Any, text: str) -> Any:
    """What is given for an argument, from its text."""
    if isinstance(argument, Run) and argument.kind == "uint8_t":
        return text
    try:
        return int(text, 0) if isinstance(argument, Number) else [int(part, 0) for part in text.split(",") if part]
    except ValueError:
        raise Wrong(f"{argument.name}={text}: {form(argument)} is asked for") from None


def given(name: str, words: Sequence[str]) -> Dict[str, Any]:
    """The words NAME=VALUE of the command line as arguments of a call."""
    takes, found = {argument.name: argument for argument in arguments(name)}, {}
    for word in words:
        key, equals, text = word.partition("=")
        if not equals or key not in takes or key in found:
            raise Wrong(f"{word}: NAME=VALUE is asked for, each of these once: {', '.join(takes)}")
        found[key] = value(takes[key], text)
    missing = [key for key in needed(name) if key not in found]
    if missing:
        raise Wrong("not given: " + ", ".join(missing))
    return found


def shown(found: Any) -> str:
    """A value as it is printed: digits as text, values with spaces between them."""
    return " ".join(map(str, found)) if isinstance(found, list) else str(found)


def make(name: str, words: Sequence[str]) -> int:
    """Makes a call and prints what it answers: one thing by itself, more with their names, one on a line."""
    found = getattr(slt, name)(**given(name, words))
    fields = getattr(found, "_fields", None)
    print(shown(found) if fields is None else "\n".join(f"{key} {shown(part)}" for key, part in zip(fields, found)))
    return DONE


def read_file(path: str) -> bytes:
    try:
        if path == "-":
            return sys.stdin.buffer.read()
        with open(path, "rb") as file:
            return file.read()
    except OSError as error:
        raise Wrong(f"{path}: {error.strerror}") from None


def check(path: str) -> int:
    found = job.Job.read(read_file(path))
    print(f"{path}: version {found.version}, {len(found.records)} records")
    return DONE


def words_of(record: job.Record) -> str:
    """A record as its kind and words NAME=VALUE, as the command takes them."""
    fields = {key: list(part) if isinstance(part, tuple) else part for key, part in vars(record).items()}
    return " ".join([type(record).__name__.upper(), *(f"{key}={shown(part).replace(' ', ',')}" for key, part in fields.items())])


def show(path: str) -> int:
    """Each record on a line with its offset, up to the first that is refused."""
    reader = job.Reader(read_file(path))
    version, count = reader.header()
    print(f"{0:7} {job.MARK.decode()} version={version.number} records={count}")
    for part in reader.records(count):
        print(f"{part.offset:7} {words_of(part.record)}")
    return DONE


def add_calls(commands: Any, word: str, help: str) -> None:
    channels = commands.add_parser(word, help=help, description=help).add_subparsers(metavar="CHANNEL", required=True)
    for channel, name in calls(word).items():
        add_call(channels, channel, name)


def add_call(commands: Any, word: str, name: str) -> None:
    """A command that makes a call, with the call's own words as its help."""
    text = (inspect.getdoc(getattr(slt, name)) or "").replace("%", "%%")
    least = needed(name)
    forms = {f"{argument.name}={form(argument)}": (RUNS if isinstance(argument, Run) else NUMBERS)[argument.name] for argument in arguments(name)}
    usage = " ".join(each if each.partition("=")[0] in least else f"[{each}]" for each in forms)
    widest = max(map(len, forms))
    meanings = "\n".join(["arguments:", *(f"  {each:{widest}}  {meaning}" for each, meaning in forms.items())])
    command = commands.add_parser(
        word, help=text, description=textwrap.fill(text), epilog=meanings, usage=f"%(prog)s {usage}", formatter_class=argparse.RawDescriptionHelpFormatter
    )
    command.add_argument("words", nargs="*", metavar="NAME=VALUE", help="the arguments below, in any order")
    command.set_defaults(run=lambda chosen: make(name, chosen.words))


def add_file(commands: Any, word: str, help: str, run: Callable[[str], int]) -> None:
    command = commands.add_parser(word, help=help, description=help)
    command.add_argument("file", metavar="FILE", help="a job file, or - for standard input")
    command.set_defaults(run=lambda chosen: run(chosen.file))


def parser() -> argparse.ArgumentParser:
    found = argparse.ArgumentParser(
        prog="python -m slt", description=ABOUT, epilog=EPILOG, formatter_class=argparse.RawDescriptionHelpFormatter
    )
    found.add_argument("--version", action="version", version=f"slt {slt.__version__}")
    commands = found.add_subparsers(metavar="COMMAND", required=True)
    add_calls(commands, "map", "fields into the digits or values of a channel")
    add_calls(commands, "read", "digits or values of a channel into its fields")
    add_call(commands, "q", "pich_q")
    files = commands.add_parser("job", help="job files", description="Job files, as the program slotline reads them.").add_subparsers(metavar="COMMAND", required=True)
    add_file(files, "check", "whether slotline would take the whole file", check)
    add_file(files, "show", "each record on a line, with its offset in the file", show)
    return found


def main(words: Sequence[str]) -> int:
    """Does what the words say, and answers the status. Bad usage that argparse finds ends the program with status 2."""
    chosen = parser().parse_args(words)
    try:
        status: int = chosen.run(chosen)
        return status
    except slt.Refused as refusal:
        print(refusal, file=sys.stderr)
        return REFUSED
    except (Wrong, ValueError, OSError) as error:
        print(f"python -m slt: {error}", file=sys.stderr)
        return BAD_USAGE


if __name__ == "__main__":
    sys.exit(main(sys.argv[1:]))
