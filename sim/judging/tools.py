"""Runs the tools, each with what it printed kept in a file beside its work."""
import os
import pathlib
import subprocess
import sys

HERE = pathlib.Path(__file__).resolve().parent.parent


class Failed(Exception):
    """A tool that failed, with the end of what it said."""


def run(command, log, **more):
    """Runs a command to its end. What it printed is answered, and kept in the file."""
    done = subprocess.run([str(word) for word in command], stdout=subprocess.PIPE, stderr=subprocess.STDOUT, text=True, check=False, **more)
    pathlib.Path(log).write_text(done.stdout)
    if done.returncode:
        raise Failed(f"{command[0]} failed ({log}):\n" + "\n".join(done.stdout.splitlines()[-15:]))
    return done.stdout


def yosys(script, work, name):
    """Runs a script of yosys; it is kept beside its output."""
    file = work / (name + ".ys")
    file.write_text(script)
    return run(["yosys", "-q", "-s", file], work / (name + ".log"))


def note(text):
    """Tells how far the work is, apart from the report."""
    if os.environ.get("SIM_QUIET") != "1":
        print(text, file=sys.stderr, flush=True)
