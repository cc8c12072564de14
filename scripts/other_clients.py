"""What other people's programs need of this machine, which the scripts that run them ask first.

A distribution's package of libnbd's Python module (Debian's python3-libnbd) is for the distribution's own Python, which
needn't be the first `python3` of the path. nbdsh, a program of libnbd, runs the path's `python3`.
"""
import functools
import os
import shutil
import subprocess
import sys

SYSTEM = "/usr/bin/python3"


@functools.lru_cache(maxsize=None)
def python_of_libnbd():
    """The path of a Python with the module: the running Python, the path's or the system's; None if none has it."""
    for python in (sys.executable, shutil.which("python3"), SYSTEM):
        if python and os.path.exists(python):
            if subprocess.run([python, "-c", "import nbd"], capture_output=True, check=False).returncode == 0:
                return python
    return None


def environment_of_libnbd():
    """The environment in which nbdsh finds the module."""
    python = python_of_libnbd()
    if python is None or python == shutil.which("python3"):
        return dict(os.environ)
    return {**os.environ, "PATH": f"{os.path.dirname(python)}{os.pathsep}{os.environ['PATH']}"}


def why_missing(program):
    """Why an installed program can't run here, or None."""
    if program == "nbdfuse" and not os.path.exists("/dev/fuse"):
        return "there is no FUSE here"
    if program == "nbdsh" and python_of_libnbd() is None:
        return "no Python here has the module nbd"
    return None
