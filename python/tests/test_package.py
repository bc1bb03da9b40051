"""The package: complete, in the Python that it says, found with its library, and made into a wheel."""
from __future__ import annotations

import ast
import base64
import hashlib
import importlib.util
import inspect
import os
import pathlib
import re
import shutil
import tempfile
import unittest
import zipfile
from unittest import mock

import slt
from slt import _library
from slt._rows import CALLS

from . import support

ASK = "import slt; print(slt.slot_map(1, 1, tpc=1, data='10', tfci='01'))"
SHOWN = b"1101101100\n"


class Complete(unittest.TestCase):
    def test_every_call_has_its_function(self) -> None:
        declared = re.findall(r"^\w+ (slt_\w+)\(", support.HEADER, re.M)
        self.assertEqual(sorted(CALLS), sorted(declared))
        for name in declared:
            function = name[len("slt_") :]
            self.assertIn(function, slt.__all__, f"{name} of include/slt.h has no function slt.{function}")
            self.assertTrue(inspect.isfunction(getattr(slt, function)))
            self.assertTrue(inspect.getdoc(getattr(slt, function)), function)

    def test_functions_and_calls_have_the_same_arguments(self) -> None:
        """But for the gains, of which each is one, and for the tally, which is one, too."""
        for name, row in CALLS.items():
            wanted = ["tally" if argument.name in support.TALLY else argument.name for argument in row.read]
            found = list(inspect.signature(getattr(slt, name[len("slt_") :])).parameters)
            self.assertEqual(sorted({re.sub(r"^(h\d)_(re|im)$", r"\1", argument) for argument in wanted}), sorted(found), name)

    def test_a_fresh_desk(self) -> None:
        self.assertIn(f"#define SLT_DESK_FRESH {slt.DESK_FRESH}u\n", support.HEADER)

    def test_all_that_is_named_is_there(self) -> None:
        for name in slt.__all__:
            self.assertTrue(hasattr(slt, name), name)
        self.assertEqual(len(slt.__all__), len(set(slt.__all__)))

    def test_python_3_9(self) -> None:
        for path in [*support.PACKAGE.glob("*.py"), *(support.ROOT / "python/backend").glob("*.py")]:
            ast.parse(path.read_text(encoding="utf-8"), path.name, feature_version=(3, 9))

    def test_no_table_of_formats(self) -> None:
        """The library tells lengths: of whole numbers above 31 the package has those of channels without formats, of job files, and of C's types, and no others."""
        known = {270, 300, 32, 65535, 1048576, 100, 0xFFFF, 0xFFFFFFFF, 48, 256}
        for path in support.PACKAGE.glob("*.py"):
            numbers = {node.value for node in ast.walk(ast.parse(path.read_text(encoding="utf-8"))) if isinstance(node, ast.Constant) and type(node.value) is int}
            self.assertEqual({number for number in numbers if number > 31} - known, set(), path.name)

    def test_typed(self) -> None:
        """Type checkers look at a package's annotations where this file says so."""
        self.assertTrue((support.PACKAGE / "py.typed").exists())

    def test_version(self) -> None:
        makefile = (support.ROOT / "Makefile").read_text(encoding="utf-8")
        self.assertIn(f"\nVERSION = {slt.__version__}\n", makefile)


class Finding(unittest.TestCase):
    """The library is named by a variable, or beside the package, or where the loader looks."""

    def setUp(self) -> None:
        folder = tempfile.TemporaryDirectory()
        self.addCleanup(folder.cleanup)
        self.folder = pathlib.Path(folder.name)
        shutil.copytree(support.PACKAGE, self.folder / "slt", ignore=shutil.ignore_patterns("__pycache__"))
        self.library = pathlib.Path(_library.library()._name).resolve()

    def ask(self, **variables: str) -> bytes:
        ended = support.run("-c", ASK, cwd=self.folder, **{"PYTHONPATH": str(self.folder), "SLT_LIBRARY": "", "LD_LIBRARY_PATH": "", **variables})
        return ended.stdout + ended.stderr

    def test_by_its_variable(self) -> None:
        self.assertEqual(self.ask(SLT_LIBRARY=str(self.library)), SHOWN)

    def test_beside_the_package(self) -> None:
        for name in (_library.SONAME, "libslt.so"):
            (self.folder / "slt" / name).symlink_to(self.library)
            self.assertEqual(self.ask(), SHOWN)
            (self.folder / "slt" / name).unlink()

    def test_by_the_loader(self) -> None:
        (self.folder / _library.SONAME).symlink_to(self.library)
        self.assertEqual(self.ask(LD_LIBRARY_PATH=str(self.folder)), SHOWN)

    def test_the_order(self) -> None:
        with mock.patch.dict(os.environ, SLT_LIBRARY=""):
            self.assertEqual(_library.candidates(), [str(support.PACKAGE / _library.SONAME), str(support.PACKAGE / "libslt.so"), _library.SONAME])
        with mock.patch.dict(os.environ, SLT_LIBRARY="some/other.so"):
            self.assertEqual(_library.candidates(), ["some/other.so"])

    def test_where_there_is_none(self) -> None:
        """What was tried is told."""
        with self.assertRaises(OSError) as raised:
            _library.open_first(["/no/such/folder/libslt.so.2", "libslt-of-nobody.so.2"])
        for told in ("/no/such/folder/libslt.so.2", "libslt-of-nobody.so.2", "SLT_LIBRARY"):
            self.assertIn(told, str(raised.exception))

    def test_the_variable_decides(self) -> None:
        """Where it is set no other is taken, though there is one."""
        (self.folder / "slt" / _library.SONAME).symlink_to(self.library)
        said = self.ask(SLT_LIBRARY="/no/such/library.so").decode()
        self.assertIn("/no/such/library.so", said)
        self.assertNotIn(_library.SONAME, said)

    def test_another_library(self) -> None:
        self.assertIn("libc.so.6 has no slt_slot_", self.ask(SLT_LIBRARY="libc.so.6").decode())

    def test_not_before_it_is_needed(self) -> None:
        ended = support.run("-c", "import slt; print(slt.Digits('01'))", cwd=self.folder, PYTHONPATH=str(self.folder), SLT_LIBRARY="/no/such/library.so")
        self.assertEqual(ended.stdout, b"01\n")


class Wheel(unittest.TestCase):
    """What pip is given, with the library and without."""

    def setUp(self) -> None:
        folder = tempfile.TemporaryDirectory()
        self.addCleanup(folder.cleanup)
        self.folder = pathlib.Path(folder.name)
        spec = importlib.util.spec_from_file_location("make_wheel", support.ROOT / "python/backend/make_wheel.py")
        assert spec is not None and spec.loader is not None
        self.backend = importlib.util.module_from_spec(spec)
        spec.loader.exec_module(self.backend)

    def made(self) -> pathlib.Path:
        return self.folder / self.backend.build_wheel(str(self.folder))

    def test_with_the_library(self) -> None:
        self.backend.MADE = pathlib.Path(_library.library()._name).resolve().parent
        wheel = self.made()
        self.assertEqual(wheel.name, f"slt-{slt.__version__}-py3-none-linux_x86_64.whl")
        with zipfile.ZipFile(wheel) as archive:
            archive.extractall(self.folder)
            info = f"slt-{slt.__version__}.dist-info"
            record = [line.split(",") for line in archive.read(f"{info}/RECORD").decode().splitlines()]
            self.assertEqual(sorted(path for path, _, _ in record), sorted(archive.namelist()))
            for path, digest, length in record[:-1]:
                content = archive.read(path)
                self.assertEqual((digest, length), ("sha256=" + base64.urlsafe_b64encode(hashlib.sha256(content).digest()).decode().rstrip("="), str(len(content))))
        ended = support.run("-c", ASK, cwd=self.folder, PYTHONPATH=str(self.folder), SLT_LIBRARY="", LD_LIBRARY_PATH="")
        self.assertEqual(ended.stdout, SHOWN, ended.stderr)

    def test_without(self) -> None:
        self.backend.MADE = self.folder
        wheel = self.made()
        self.assertEqual(wheel.name, f"slt-{slt.__version__}-py3-none-any.whl")
        with zipfile.ZipFile(wheel) as archive:
            files = {f"slt/{path.name}" for path in support.PACKAGE.iterdir() if path.suffix in (".py", ".typed")}
            self.assertEqual({name for name in archive.namelist() if name.startswith("slt/")}, files)
