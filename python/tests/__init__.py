"""The tests of the package, with nothing but Python's own unittest: make python.

SLT_LIBRARY names the library, and SLOTLINE the program that job files are compared with; else they are where make puts them.
"""
import os
import pathlib

MADE = pathlib.Path(__file__).resolve().parent.parent.parent / "target"
os.environ.setdefault("SLT_LIBRARY", str(MADE / "staticlib/libslt.so"))
os.environ.setdefault("SLOTLINE", str(MADE / "bin/slotline"))
