#!/usr/bin/env python3
"""Runs the examples of the manual page and of the protocol's page, and compares what they print with what is shown.

  check_documents.py [PROGRAM]

PROGRAM defaults to crates/vcserve/out/vcserve, and is `vcserve` in the examples. The examples of a page run in their
order in one folder, as a reader would type them, each by bash. What one prints is the block of text behind it; one
without such a block may print anything. Their home folder has a password in `.disk-password`. An example that begins a
line with a program that isn't installed or can't run here is left out, and told: none of the clients of other people that
the protocol's page shows is needed.

The status is 0 if all examples agree, 1 if one differs, and 77 if the package `cryptography` is missing, which the
modules that it shares with other scripts need.
"""
import os
import re
import signal
import subprocess
import sys
import tempfile

from other_clients import environment_of_libnbd, why_missing
from program_rows import LIMIT, Rows
from speed import PROGRAM

HERE = os.path.dirname(os.path.abspath(__file__))
PAGES = ("docs/vcserve.1.md", "docs/PROTOCOL.md")
EXAMPLE = re.compile(r"^```sh\n(.*?)^```\n(?:\n```text\n(.*?)^```\n)?", re.DOTALL | re.MULTILINE)


def missing(lines, environment):
    """What is missing of the programs that begin a line, or None."""
    for line in lines.replace("\\\n", " ").splitlines():
        name = line.partition(" ")[0]
        if not name or "=" in name:
            continue
        if subprocess.run(["bash", "-c", 'type "$0"', name], capture_output=True, env=environment, check=False).returncode:
            return f"{name} isn't installed"
        if why := why_missing(name):
            return f"{name}: {why}"
    return None


def examples(page):
    """The examples of a page: the line, the commands, and what they print, if that is shown."""
    with open(os.path.join(HERE, "..", page), encoding="utf-8") as file:
        text = file.read()
    return [(text.count("\n", 0, found.start()) + 1, *found.groups()) for found in EXAMPLE.finditer(text)]


def run_example(lines, folder, environment):
    """The status of an example and what it printed. If it doesn't end, all that it began is ended, and there is no status."""
    with subprocess.Popen(["bash", "-c", lines], cwd=folder, env=environment, stdin=subprocess.DEVNULL,
                          stdout=subprocess.PIPE, stderr=subprocess.STDOUT, start_new_session=True) as run:
        try:
            printed, _ = run.communicate(timeout=LIMIT)
        except subprocess.TimeoutExpired:
            os.killpg(run.pid, signal.SIGKILL)
            return None, b""
    return run.returncode, printed


def run_page(rows, page, folder, environment):
    for line, lines, shown in examples(page):
        name = f"{page}, line {line}"
        if why := missing(lines, environment):
            rows.leave_out(name, why)
            continue
        status, printed = run_example(lines, folder, environment)
        if status is None:
            rows.note(name, [f"no end after {LIMIT} s"])
            continue
        # a block of text ends with a line end, even if the output doesn't
        printed = printed.decode().removesuffix("\n") + "\n"
        faults = [f"it prints {printed!r} in place of {shown!r}"] if shown is not None and printed != shown else []
        rows.note(name, faults + ([] if status == 0 else [f"status {status}"]))


def main(words):
    program = os.path.abspath(words[0] if words else PROGRAM)
    if not os.path.isfile(program):
        sys.exit(f"{program} is missing: `rt run` in crates/vcserve builds it")
    rows = Rows(program)
    for page in PAGES:
        with tempfile.TemporaryDirectory() as home:
            os.symlink(HERE, os.path.join(home, "scripts"))
            tools = os.path.join(home, "bin")
            os.mkdir(tools)
            os.symlink(program, os.path.join(tools, "vcserve"))
            with open(os.path.join(home, ".disk-password"), "w", encoding="utf-8") as file:
                file.write("a password of the disk\n")
            environment = environment_of_libnbd()
            run_page(rows, page, home, {**environment, "HOME": home, "PATH": f"{tools}:{environment['PATH']}"})
    print(f"documents: {rows.rows - rows.wrong} passed, {rows.wrong} failed")
    return 1 if rows.wrong else 0


if __name__ == "__main__":
    sys.exit(main(sys.argv[1:]))
