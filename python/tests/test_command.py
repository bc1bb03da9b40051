"""The command line: what is printed, and the status."""
from __future__ import annotations

import contextlib
import io
import re
import unittest
from typing import Tuple
from unittest import mock

import slt
from slt import __main__ as command

from . import support

THREE_KINDS = str(support.ROOT / "examples/three_kinds.slt")
REFUSED = str(support.ROOT / "examples/refused.slt")


def run(*words: str, input: bytes = b"") -> Tuple[int, str, str]:
    """The status, and what is printed on both outputs."""
    out, err = io.StringIO(), io.StringIO()
    stdin = mock.Mock(buffer=io.BytesIO(input))
    with contextlib.redirect_stdout(out), contextlib.redirect_stderr(err), mock.patch("sys.stdin", stdin):
        try:
            status = command.main(words)
        except SystemExit as ended:
            status = int(ended.code or 0)
    return status, out.getvalue(), err.getvalue()


class Calls(unittest.TestCase):
    def test_map_and_read(self) -> None:
        self.assertEqual(run("map", "slot", "format=1", "slot=1", "tpc=1", "data=10", "tfci=01"), (0, "1101101100\n", ""))
        self.assertEqual(run("read", "slot", "format=1", "slot=1", "run=1101101100"), (0, "tpc 1\ndata 10\ntfci 01\n", ""))
        self.assertEqual(run("map", "slot", "data=-01-", "tpc=0x0", "slot=0", "format=0")[:2], (0, "00-01-1111\n"))
        self.assertEqual(run("map", "aich", "indicators=1,-1" + ",0" * 14)[1], " ".join(["0 0 2 2"] * 8) + "\n")
        self.assertEqual(run("read", "aich-available", "available=0x3", "values=" + ",".join("0022" * 8))[1], " ".join(["1", "-1"] + ["0"] * 14) + "\n")
        antennas = run("map", "pccpch", "data=" + "01" * 135)[1].split()
        self.assertEqual(antennas[::2], ["antenna1", "antenna2"])
        self.assertEqual(run("read", "pccpch", "antenna1=" + antennas[1], "antenna2=" + antennas[3])[1], "01" * 135 + "\n")

    def test_q(self) -> None:
        self.assertEqual(run("q", "np=18", "pi=5", "sfn=1"), (0, "7\n", ""))

    def test_refused(self) -> None:
        status, out, err = run("map", "slot", "format=17", "slot=1", "tpc=1", "data=10")
        self.assertEqual((status, out, err[:12]), (1, "", "refused 1 0:"))
        self.assertEqual(run("q", "np=18", "pi=5", "sfn=4096")[0], 1)

    def test_bad_usage(self) -> None:
        slot = ["map", "slot", "format=1", "slot=1", "tpc=1", "data=10"]
        wrong_words = [[], ["nothing"], ["map"], ["map", "nothing"], ["job"], ["job", "check"], ["job", "check", "/no/such/file"], ["job", "show", str(support.ROOT)], ["--nothing"]]
        wrong_words += [slot[:-1], slot + ["data=10"], slot + ["datum=1"], slot + ["tfci"], slot[:-1] + ["data=12"], slot[:-1] + ["data=x"]]
        wrong_words += [["map", "slot", f"format={wrong}", "slot=1", "tpc=1", "data=10"] for wrong in ("one", "-1", "")] + [["map", "aich", "indicators=1;2"]]
        for words in wrong_words:
            status, out, err = run(*words)
            self.assertEqual((status, out), (2, ""), words)
            self.assertIn("python -m slt", err)

    def test_every_mapper_and_reader(self) -> None:
        """Each with its good arguments from the command line, as the function answers."""
        for name, given in support.good().items():
            word = "map" if "map" in name.split("_") else "read" if "read" in name.split("_") else ""
            if word:
                runs = {argument.name for argument in command.arguments(name) if command.form(argument) == "DIGITS"}
                texts = {key: slt.Digits(value) if key in runs else ",".join(map(str, value)) if isinstance(value, list) else value for key, value in given.items()}
                words = [f"{key}={text}" for key, text in texts.items()]
                channel = "-".join(part for part in name.split("_") if part != word)
                with self.subTest(name):
                    status, out, err = run(word, channel, *words)
                    found = getattr(slt, name)(**given)
                    parts = found if isinstance(found, tuple) else (found,)
                    self.assertEqual((status, err), (0, ""))
                    self.assertEqual([line.split(" ", 1)[-1] if isinstance(found, tuple) else line for line in out.splitlines()], [command.shown(part) for part in parts])

    def test_help(self) -> None:
        status, out, _ = run("--help")
        self.assertEqual(status, 0)
        for word in ("map", "read", "q", "job check", "job show", "Status: 0 done, 1 refused, 2 bad usage"):
            self.assertIn(word, out)
        for line in re.findall(r"^  python -m slt (.*?)(?:  .*)?$", out, re.M):
            if "FILE" not in line:
                self.assertEqual(run(*line.split())[0], 0, line)
        self.assertIn("slot-antenna", run("map", "--help")[1])
        self.assertIn("format=NUMBER slot=NUMBER tpc=NUMBER data=DIGITS [tfci=DIGITS]", " ".join(run("map", "slot", "--help")[1].split()))
        self.assertEqual(run("--version")[1], f"slt {slt.__version__}\n")

    def test_help_of_each(self) -> None:
        """Every channel says what each of its arguments is."""
        for word in ("map", "read"):
            for channel, name in command.calls(word).items():
                status, out, _ = run(word, channel, "--help")
                self.assertEqual(status, 0)
                for argument in command.arguments(name):
                    self.assertRegex(out, rf"\n  {argument.name}={re.escape(command.form(argument))} +\w")


class Jobs(unittest.TestCase):
    def test_check(self) -> None:
        self.assertEqual(run("job", "check", THREE_KINDS), (0, f"{THREE_KINDS}: version 1, 3 records\n", ""))
        status, out, err = run("job", "check", REFUSED)
        self.assertEqual((status, out, err[:12]), (1, "", "refused 6 1:"))
        self.assertEqual(run("job", "check", "-", input=b"SLT\0\1\0"), (0, "-: version 1, 0 records\n", ""))

    def test_show(self) -> None:
        status, out, err = run("job", "show", THREE_KINDS)
        self.assertEqual((status, err), (0, ""))
        wanted = [
            "      0 SLT version=1 records=3",
            "      6 AICH indicators=1,-1,0,0,0,0,0,0,0,0,0,0,0,0,0,0",
            "     23 PICH np=18 indicators=000000010000000000",
            "     43 DPCH format=0 slot=0 tpc=0 data=1010 tfci=",
        ]
        self.assertEqual(out.splitlines(), wanted)
        status, out, err = run("job", "show", REFUSED)
        self.assertEqual((status, len(out.splitlines()), err[:12]), (1, 2, "refused 6 1:"))

    def test_a_record_that_is_shown_can_be_mapped(self) -> None:
        words = run("job", "show", THREE_KINDS)[1].splitlines()[-1].split()[2:]
        self.assertEqual(run("map", "slot", *words)[1], "0010101111\n")


class Status(unittest.TestCase):
    def test_as_a_shell_sees_it(self) -> None:
        for words, status in ((["q", "np=18", "pi=5", "sfn=1"], 0), (["q", "np=19", "pi=5", "sfn=1"], 1), (["q"], 2)):
            self.assertEqual(support.run("-m", "slt", *words).returncode, status)
