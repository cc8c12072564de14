"""Runs of the built program, each with the status, the output and the file that it has to leave."""
import hashlib
import os
import pty
import subprocess

# What the program says on the standard error, by its exit status. Status 5 names the length too.
LINES = {
    0: "",
    2: "vcserve: usage\n",
    3: "vcserve: no valid header\n",
    4: "vcserve: no valid hidden header\n",
    5: "vcserve: container length {}\n",
    6: "vcserve: bad size\n",
    7: "vcserve: container fault\n",
    8: "vcserve: output fault\n",
    9: "vcserve: no memory\n",
}

# A run that takes longer hangs.
LIMIT = 100

PASSWORD = "correct horse"

# The file may have any bytes after the run.
ANYTHING = object()


def why_no_terminal():
    """Why no terminal can be made here, or None."""
    try:
        parent, child = pty.openpty()
        os.ttyname(child)
        os.close(parent)
        os.close(child)
    except OSError as error:
        return error
    return None


class Rows:
    """Counts the rows, and tells the wrong ones."""

    def __init__(self, program):
        self.program = program
        self.rows = 0
        self.wrong = 0
        self.is_package_missing = False

    def note(self, name, faults):
        self.rows += 1
        if faults:
            self.wrong += 1
            print(f"wrong: {name}: {'; '.join(faults)}", flush=True)

    def leave_out(self, what, why):
        """Tells what can't be tried here."""
        print(f"left out: {what}: {why}", flush=True)

    def row(self, name, words, status, out=b"", length=None, kept=None, left=None, **how):
        """One run. `kept` is the file that has to stay as it is, and defaults to the one that is named;
        with `left` that file has these bytes after the run."""
        kept = kept or (words[1] if len(words) > 1 else None)
        before = fingerprint(kept)
        try:
            run = subprocess.run([self.program, *words], timeout=LIMIT,
                                 **{"stdin": subprocess.DEVNULL, "stdout": subprocess.PIPE, "stderr": subprocess.PIPE,
                                    **how})
        except subprocess.TimeoutExpired:
            return self.note(name, [f"no end after {LIMIT} s"])
        faults = differences(run, status, out, LINES[status].format(length))
        if left is None and fingerprint(kept) != before:
            faults.append("the container has changed")
        if left is not None and left is not ANYTHING:
            faults += differences_left(kept, left)
        return self.note(name, faults)


def differences(run, status, out, line):
    faults = []
    if run.returncode != status:
        faults.append(f"status {run.returncode} in place of {status}")
    if run.stdout is not None and run.stdout != out:
        faults.append(f"{len(run.stdout)} bytes of output differ from the {len(out)} asked ones")
    if run.stderr is not None and run.stderr != line.encode():
        faults.append(f"standard error {run.stderr!r} in place of {line!r}")
    return faults


def differences_left(path, left):
    if not os.path.isfile(path):
        return ["no container is left"]
    with open(path, "rb") as file:
        found = file.read(len(left) + 1)
    if found == left:
        return []
    if os.path.getsize(path) != len(left):
        return [f"a container of {os.path.getsize(path)} bytes in place of {len(left)}"]
    first = next(i for i in range(len(left)) if found[i] != left[i])
    return [f"the container differs from byte {first} on"]


def fingerprint(path):
    """The bytes of a file and when it was written, of a long one the length; None for no file."""
    try:
        if not os.path.isfile(path):
            return None
        info = os.stat(path)
        if info.st_size > 1 << 24:
            return info.st_size, info.st_mtime_ns
        with open(path, "rb") as file:
            return hashlib.sha256(file.read()).digest(), info.st_mtime_ns
    except (OSError, TypeError, ValueError):
        return None


def nobody():
    """How to run as a user whom the modes of files keep from them; the superuser they don't."""
    return {"user": 65534, "group": 65534, "extra_groups": []} if os.geteuid() == 0 else {}


def words_of(path, first, count, password=PASSWORD, pim="1"):
    return ["cat", path, str(first), str(count), "--password", password, "--pim", str(pim)]


def info_words(path, password=PASSWORD, pim="1"):
    return ["info", path, "--password", password, "--pim", str(pim)]


def format_words(path, size, random, *more, password=PASSWORD, pim="1"):
    return ["format", path, "--size", str(size), "--password", password, "--random", random,
            "--pim", str(pim), *more]


def info_text(start, volume, prf="sha512", algorithm="aes"):
    lines = ["slot standard", f"prf {prf}", f"algorithm {algorithm}", f"start {start}",
             f"size {volume}", "sector 512"]
    return "".join(line + "\n" for line in lines).encode()
