"""The examples of docs/PYTHON.md, run as they stand."""
from __future__ import annotations

import doctest
import inspect
import os
import pathlib
import re
import subprocess
import sys
import tempfile
import unittest
from typing import List, Tuple

import slt
from slt._rows import CALLS

from . import support

PAGE = (support.ROOT / "docs/PYTHON.md").read_text(encoding="utf-8")


def blocks(first: str, second: str) -> List[Tuple[str, str]]:
    """Blocks of one language, each with the block that follows it."""
    return re.findall(rf"^```{first}\n(.*?)^```\n+```{second}\n(.*?)^```$", PAGE, re.S | re.M)


class Page(unittest.TestCase):
    def test_examples(self) -> None:
        found = blocks("python", "text")
        self.assertEqual((len(found), PAGE.count("```python")), (5, 5))
        with tempfile.TemporaryDirectory() as folder:
            for program, printed in found:
                with self.subTest(program):
                    ended = support.run("-c", program, cwd=pathlib.Path(folder))
                    self.assertEqual(ended.stderr.decode(), "")
                    self.assertEqual(ended.stdout.decode(), printed)

    def test_commands(self) -> None:
        """Each line with a dollar is given to a shell, and the lines up to the next are what it prints."""
        (block,) = re.findall(r"^```console\n(.*?)^```$", PAGE, re.S | re.M)
        commands = re.findall(r"^\$ (.*)\n((?:(?!\$ ).*\n)*)", block, re.M)
        self.assertGreater(len(commands), 4)
        with tempfile.TemporaryDirectory() as folder:
            (pathlib.Path(folder) / "python").symlink_to(os.path.realpath(sys.executable))
            environment = {**os.environ, "PATH": f"{folder}:{os.environ['PATH']}", "PYTHONPATH": str(support.ROOT / "python"), "PYTHONDONTWRITEBYTECODE": "1"}
            for command, printed in commands:
                with self.subTest(command):
                    ended = subprocess.run(["sh", "-c", command], cwd=support.ROOT, env=environment, stdout=subprocess.PIPE, stderr=subprocess.DEVNULL)
                    self.assertEqual(ended.stdout.decode(), printed)

    def test_what_is_shown_elsewhere(self) -> None:
        """The lines with >>> of the package's own text and of both first pages."""
        ended = [doctest.testmod(slt)]
        ended += [doctest.testfile(str(support.ROOT / page), module_relative=False, globs={"slt": slt}) for page in ("README.md", "python/README.md")]
        self.assertEqual([found.failed for found in ended], [0, 0, 0])
        self.assertTrue(all(found.attempted for found in ended))

    def test_every_function_has_its_row(self) -> None:
        """Under its name and with its arguments."""
        for name in CALLS:
            function = name[len("slt_") :]
            signature = inspect.signature(getattr(slt, function))
            arguments = ", ".join(str(parameter.replace(annotation=parameter.empty)) for parameter in signature.parameters.values())
            star = next((key for key, parameter in signature.parameters.items() if parameter.kind is parameter.KEYWORD_ONLY), "")
            arguments = re.sub(rf"\b{star}\b", f"*, {star}", arguments, count=1).replace("b''", 'b""') if star else arguments
            self.assertIn(f"| `slt.{function}({arguments})` |", PAGE)
