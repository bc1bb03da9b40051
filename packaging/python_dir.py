#!/usr/bin/env python3
"""Prints where Python packages go below a prefix: the first of the folders below it in which this Python looks for packages, or else where another Python of that prefix
would look.

    packaging/python_dir.py PREFIX
"""
import os
import site
import sys


def main():
    prefix = os.path.abspath(sys.argv[1])
    inside = [path for path in site.getsitepackages() if path.startswith(os.path.join(prefix, "lib", ""))]
    print(inside[0] if inside else os.path.join(prefix, "lib", "python%d.%d" % sys.version_info[:2], "site-packages"))


main()
