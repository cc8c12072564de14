"""Rows of check_program.py: what a person at a terminal is told, and what becomes of files.

A mistake is a line of arguments with `|` between two, the status, and what the first line of reasons has to say.
Without a terminal the same run prints the prescribed line alone.
"""
import fcntl
import os
import pty
import resource
import shutil
import signal
import subprocess
import tempfile
import time

from check_format import HEX, KEY, SMALLEST, formatted, small_disk
from program_rows import LIMIT, LINES, PASSWORD, differences, differences_left, fingerprint, why_no_terminal

FORMAT = f"format|N|--size=262656|--password=x|--random={HEX}"
MISTAKES = [
    # commands
    ("dog", 2, "no such command: dog; there are format, hide, info, cat, passwd, restore, expand, serve and drill"),
    ("dog|C", 2, "no such command: dog"),
    ("Info|C|--password=x", 2, "no such command: Info"),
    ("inf|C|--password=x", 2, "no such command: inf"),
    ("infos|C|--password=x", 2, "no such command: infos"),
    ("|C", 2, "no such command: "),
    ("--password=zebra|info|C", 2, "no such command: --password;"),
    ("--password-file|P|info|C", 2, "no such command: --password;"),
    ("drill|7|--password-file|P", 2, "no such option: --password"),
    ("C|info|--password=x", 2, "no such command: "),
    ("--version", 2, "no such command: --version"),
    ("-v", 2, "no such command: -v"),
    ("serve|C|--password=x", 2, "serve needs the files of 1 to 16 clients: -- INPUT OUTPUT .."),
    ("serve|C|--password=x|--" + "|/dev/null" * 34, 2, "serve needs the files of 1 to 16 clients"),
    ("serve|C|--password=x|--", 2, "serve needs the files of 1 to 16 clients: -- INPUT OUTPUT .."),
    # positions
    ("info", 2, "PATH is missing"),
    ("info|--password=x", 2, "PATH is missing"),
    ("format|--size=1|--password=x|--random=H", 2, "PATH is missing"),
    ("cat|C|--password=x", 2, "FIRST is missing"),
    ("cat|C|0|--password=x", 2, "COUNT is missing"),
    ("cat|--password=x", 2, "PATH is missing"),
    ("info|C|D|--password=x", 2, "one position too many: D"),
    ("cat|C|0|1|2|--password=x", 2, "one position too many: 2"),
    ("info|C|--password|correct|horse", 2, "one position too many after --password; a value with spaces is written in quotes"),
    ("passwd|C|--password=x|--new=correct|horse", 2, "one position too many after --new; a value with spaces"),
    ("info|C|--password=x|--pim|1|D", 2, "one position too many: D"),
    ("format|N|262656|--password=x|--random=H", 2, "one position too many: 262656"),
    ("drill", 2, "N is missing"),
    ("drill|7|8", 2, "one position too many: 8"),
    # options that the command doesn't have
    ("info|C|--pasword=x", 2, "no such option: --pasword; perhaps --password"),
    ("info|C|--passwd|x", 2, "no such option: --passwd; perhaps --password"),
    ("info|C|--pass|x", 2, "no such option: --pass; perhaps --password"),
    ("info|C|--PASSWORD|x", 2, "no such option: --PASSWORD; perhaps --password"),
    ("info|C|--PIM|1|--password=x", 2, "no such option: --PIM; perhaps --pim"),
    ("info|C|--password=x|--pin=1", 2, "no such option: --pin; perhaps --pim"),
    ("info|C|--passwd-file|P", 2, "no such option: --passwd-file; perhaps --password-file"),
    ("info|C|--passwordfile=P", 2, "no such option: --passwordfile; perhaps --password-file"),
    ("info|C|--password-files=P", 2, "no such option: --password-files; perhaps --password-file"),
    ("passwd|C|--password=x|--new-files=P", 2, "no such option: --new-files; perhaps --new-file"),
    ("restore|C|--password=x|--random_file=P", 2, "no such option: --random_file; perhaps --random-file"),
    ("info|C|--password=x|--random_file=P", 2, "no such option: --random_file"),
    ("info|C|--key-file=P", 2, "no such option: --key-file"),
    ("info|C|--password=x|--backups", 2, "no such option: --backups; perhaps --backup"),
    ("info|C|--password=x|--back-up", 2, "no such option: --back-up; perhaps --backup"),
    ("info|C|--password=x|--type=any", 2, "no such option: --type"),
    ("info|C|--password=x|--kinds=any", 2, "no such option: --kinds; perhaps --kind"),
    ("info|C|-p|x", 2, "no such option: -p"),
    ("info|C|-password|x", 2, "no such option: -password"),
    ("info|C|---password|x", 2, "no such option: ---password"),
    ("info|C|-|--password=x", 2, "no such option: -"),
    ("info|-C|--password=x", 2, "no such option: -C"),
    ("info|C|--password=x|--size=1", 2, "no such option: --size"),
    ("info|C|--password=x|--random=H", 2, "no such option: --random"),
    ("info|C|--password=x|--help", 2, "no such option: --help"),
    ("info|C|--password=x|-h", 2, "no such option: -h"),
    ("info|C|--password=x|--=1", 2, "no such option: --"),
    (f"{FORMAT}|--hash=sha512", 2, "no such option: --hash"),
    (f"{FORMAT}|--algoritm=aes", 2, "no such option: --algoritm; perhaps --algorithm"),
    (f"{FORMAT}|--encryption=aes", 2, "no such option: --encryption"),
    (f"{FORMAT}|--sectors=512", 2, "no such option: --sectors; perhaps --sector"),
    (f"{FORMAT}|--sector-size=512", 2, "no such option: --sector-size; perhaps --sector"),
    (f"{FORMAT}|--kind=any", 2, "no such option: --kind"),
    (f"{FORMAT}|--backup", 2, "no such option: --backup"),
    (f"{FORMAT}|--quick", 2, "no such option: --quick"),
    (f"{FORMAT}|--force", 2, "no such option: --force"),
    ("drill|7|--password=x", 2, "no such option: --password"),
    # given twice
    ("info|C|--password=x|--password=y", 2, "given twice: --password"),
    ("info|C|--password|x|--password=x", 2, "given twice: --password"),
    ("info|C|--password=x|--pim=1|--pim=1", 2, "given twice: --pim"),
    ("info|C|--password=x|--backup|--backup", 2, "given twice: --backup"),
    ("info|C|--password=x|--kind=any|--kind=any", 2, "given twice: --kind"),
    (f"{FORMAT}|--size=262656", 2, "given twice: --size"),
    (f"{FORMAT}|--random=H", 2, "given twice: --random"),
    # no value, and a value too many
    ("info|C|--password", 2, "no value: --password"),
    ("info|C|--password|-x", 2, "no value: --password; one that begins with `-` is written --password=VALUE"),
    ("info|C|--password|--pim=1", 2, "no value: --password"),
    ("info|C|--password=x|--pim", 2, "no value: --pim"),
    ("info|C|--password=x|--kind", 2, "no value: --kind"),
    (f"{FORMAT}|--prf", 2, "no value: --prf"),
    ("info|C|--password=x|--pim|-1", 2, "no value: --pim"),
    ("info|C|--password=x|--backup=1", 2, "--backup has no value"),
    ("info|C|--password=x|--backup=", 2, "--backup has no value"),
    # missing options
    ("info|C", 2, "--password is missing"),
    ("cat|C|0|1", 2, "--password is missing"),
    ("info|C|--pim=1", 2, "--password is missing"),
    ("format|N", 2, "--size is missing"),
    ("format|N|--size=262656", 2, "--password is missing"),
    ("format|N|--size=262656|--password=x", 2, "--random is missing"),
    ("hide|C|--password=x|--random=H", 2, "--size is missing"),
    ("passwd|C|--password=x|--random=H", 2, "--new is missing"),
    ("restore|C|--password=x", 2, "--random is missing"),
    # values
    ("info|C|--password=", 2, "password has 0 bytes and needs 1 to 128"),
    ("info|C|--password=L", 2, "password has 129 bytes and needs 1 to 128"),
    ("info|C|--password=x|--pim=", 2, "pim isn't a number from 0 to 2147468"),
    ("info|C|--password=x|--pim=one", 2, "pim isn't a number from 0 to 2147468"),
    ("info|C|--password=x|--pim=-1", 2, "pim isn't a number from 0 to 2147468"),
    ("info|C|--password=x|--pim=2147469", 2, "pim isn't a number from 0 to 2147468"),
    ("info|C|--password=x|--kind=outer", 2, "kind is any, standard or hidden"),
    ("info|C|--password=x|--kind=", 2, "kind is any, standard or hidden"),
    ("info|C|--password=x|--kind=Hidden", 2, "kind is any, standard or hidden"),
    ("cat|C|x|1|--password=x", 2, "FIRST isn't a number of 1 to 20 decimal digits below 2^64"),
    ("cat|C|0|1k|--password=x", 2, "COUNT isn't a number of 1 to 20 decimal digits below 2^64"),
    ("cat|C|0|0x10|--password=x", 2, "COUNT isn't a number"),
    ("cat|C||1|--password=x", 2, "FIRST isn't a number"),
    ("cat|C|0|18446744073709551616|--password=x", 2, "COUNT isn't a number"),
    ("format|N|--size=1M|--password=x|--random=H", 2, "size isn't a number"),
    ("format|N|--size=|--password=x|--random=H", 2, "size isn't a number"),
    ("format|N|--size=+1|--password=x|--random=H", 2, "size isn't a number"),
    ("format|N|--size=1.5|--password=x|--random=H", 2, "size isn't a number"),
    ("format|N|--size=1|--password=x|--random=", 2, "random has 0 hexadecimal digits in 0 bytes and needs 64"),
    ("format|N|--size=1|--password=x|--random=0", 2, "random has 1 hexadecimal digits in 1 bytes and needs 64"),
    ("format|N|--size=1|--password=x|--random=0xff", 2, "random has 3 hexadecimal digits in 4 bytes and needs 64"),
    (f"format|N|--size=1|--password=x|--random={HEX}0", 2, "random has 65 hexadecimal digits in 65 bytes and needs 64"),
    (f"format|N|--size=1|--password=x|--random={HEX[1:]}g", 2, "random has 63 hexadecimal digits in 64 bytes and needs 64"),
    (f"{FORMAT}|--prf=sha256sum", 2, "prf is sha512 or sha256"),
    (f"{FORMAT}|--prf=SHA512", 2, "prf is sha512 or sha256"),
    (f"{FORMAT}|--prf=whirlpool", 2, "prf is sha512 or sha256"),
    (f"{FORMAT}|--algorithm=AES", 2, "algorithm is aes, serpent, twofish"),
    (f"{FORMAT}|--algorithm=camellia", 2, "algorithm is aes, serpent, twofish"),
    (f"{FORMAT}|--sector=513", 2, "sector is 512, 1024, 2048 or 4096"),
    (f"{FORMAT}|--sector=8192", 2, "sector is 512, 1024, 2048 or 4096"),
    ("drill|4294967296", 2, "N isn't a number from 0 to 4294967295"),
    ("serve|C|--password=x|--workers=0", 2, "workers isn't a number from 1 to 8"),
    ("serve|C|--password=x|--helpers=9", 2, "helpers isn't a number from 0 to 8"),
    ("serve|C|--password=x|--protect-pim=1", 2, "--protect-pim needs --protect"),
    ("serve|C|--password=x|--protect=y|--kind=hidden", 2, "--protect and --kind hidden exclude each other"),
    # client files, secret files
    ("info|C|--password=x|--|a", 2, "after `--` come pairs of files for the clients of serve"),
    ("info|C|--password=x|--|a|b", 2, "after `--` come pairs of files for the clients of serve"),
    ("serve|C|--password=x|--|a", 2, "after `--` come pairs of files for the clients of serve"),
    ("serve|C|--password=x|--|-|a|-|b", 2, "after `--` come pairs of files for the clients of serve"),
    ("serve|C|--password=x|--|P|-|P|-", 2, "after `--` come pairs of files for the clients of serve"),
    ("serve|C|--password=x|--|nowhere|/dev/null", 7, "nowhere: open: No such file or directory"),
    ("serve|C|--password=x|--|.|/dev/null", 7, ".: open: is a directory"),
    ("serve|C|--password=x|--|P|.", 7, ".: open: Is a directory"),
    ("serve|C|--password=x|--|C|/dev/null", 7, "C: a client's file is the container"),
    ("serve|C|--password=x|--|P|C", 7, "C: a client's file is the container"),
    ("info|C|--password-file", 2, "no path: --password-file; one that begins with `-` is written --password-file=PATH"),
    ("info|C|--password-file|--pim=1", 2, "no path: --password-file"),
    ("info|C|--password-file|-x", 2, "no path: --password-file"),
    ("passwd|C|--password-file|P|--new-file", 2, "no path: --new-file"),
    ("format|N|--size=1|--password-file|P|--random-file|--pim=1", 2, "no path: --random-file"),
    ("info|C|--password-file|nowhere", "secret file", "a file has to hold a password of 1 to 128 bytes of UTF-8"),
    ("info|C|--random-file|/dev/urandom", 2, "no such option: --random"),
    # the container
    ("info|C|--password=wrong|--pim=1", 3, "a wrong password or PIM, another hash"),
    ("cat|C|0|1|--password=wrong|--pim=1", 3, "a wrong password or PIM, another hash"),
    ("passwd|C|--password=wrong|--pim=1|--new=y|--random=H", 3, "a wrong password or PIM, another hash"),
    ("restore|C|--password=wrong|--pim=1|--random=H", 3, "a wrong password or PIM, another hash"),
    ("serve|C|--password=wrong|--pim=1|--|P|/dev/null", 3, "a wrong password or PIM, another hash"),
    ("serve|C|--password=correct horse|--pim=1|--protect=x|--protect-pim=1|--|P|/dev/null", 4,
     "the standard header opens, but the protecting password and PIM open no hidden header"),
    ("info|E|--password=x|--pim=1", 5, "a container has 262656 to 1152921504606846976 bytes"),
    ("cat|C|0|2|--password=correct horse|--pim=1", 6, "the volume doesn't have these sectors; info tells its size"),
    ("format|N|--size=1|--password=x|--random=H", 6, "--size is a multiple of --sector, from 262144 plus one sector"),
    ("format|N|--size=262657|--password=x|--random=H", 6, "--size is a multiple of --sector"),
    ("hide|C|--size=1|--password=x|--random=H", 6, "--size is a multiple of --sector, from one sector"),
    # so long that it would be told how much is done, but nothing is
    ("format|N|--size=536870913|--password=x|--random=H", 6, "--size is a multiple of --sector"),
    ("info|nowhere|--password=x", 7, "nowhere: open: No such file or directory"),
    ("info|.|--password=x", 7, ".: it isn't a regular file"),
    ("info|/dev/null|--password=x", 7, "/dev/null: it isn't a regular file"),
    ("info||--password=x", 7, "No such file or directory"),
    ("info|C/x|--password=x", 7, "Not a directory"),
    (f"format|nowhere/x|--size=262656|--password=x|--random={HEX}", 7, "nowhere/x: open: No such file or directory"),
]


def at_terminal(program, words, folder, stdout=subprocess.PIPE, **how):
    """A run whose standard error is a terminal: its status, its output, and what it told."""
    parent, child = pty.openpty()
    running = subprocess.Popen([program, *words], stdin=subprocess.DEVNULL, stdout=stdout, stderr=child, cwd=folder,
                               **how)
    os.close(child)
    told = b""
    while True:
        try:
            piece = os.read(parent, 65536)
        except OSError:
            break
        if not piece:
            break
        told += piece
    os.close(parent)
    out = running.stdout.read() if running.stdout else None
    if running.stdout:
        running.stdout.close()
    return running.wait(LIMIT), out, told.decode().replace("\r\n", "\n")


def mistakes(rows, small, folder):
    with open(small, "rb") as file:
        image = file.read()
    with open(os.path.join(folder, "C"), "wb") as file:
        file.write(image)
    open(os.path.join(folder, "E"), "wb").close()
    with open(os.path.join(folder, "P"), "wb", opener=lambda path, flags: os.open(path, flags, 0o600)) as file:
        file.write(b"zebra")
    for line, status, reason in MISTAKES:
        words = [word.replace("=H", f"={HEX}") if word.endswith("=H") else word.replace("=L", "=" + "a" * 129)
                 for word in line.split("|")]
        code = 2 if status == "secret file" else status
        first = f"vcserve: {status}\n" if status == "secret file" else LINES[status].format(0)
        done = subprocess.run([rows.program, *words], capture_output=True, stdin=subprocess.DEVNULL, cwd=folder,
                              timeout=LIMIT)
        rows.note(f"mistake: {line}", differences(done, code, b"", first))
        code_there, out, told = at_terminal(rows.program, words, folder)
        faults = [] if (code_there, out) == (code, b"") else [f"status {code_there}, output {out!r}"]
        if not told.startswith(first):
            faults.append(f"{told!r} doesn't begin with {first!r}")
        reasons = told[len(first):].splitlines()
        if not 1 <= len(reasons) <= 3:
            faults.append(f"{len(reasons)} lines of reasons")
        if reasons and reason not in reasons[0]:
            faults.append(f"{reasons[0]!r} doesn't have {reason!r}")
        if any(secret in told for secret in (HEX, "zebra", "horse", "a" * 129)):
            faults.append("a secret is told")
        if os.path.exists(os.path.join(folder, "N")):
            faults.append("a container is left")
            os.remove(os.path.join(folder, "N"))
        rows.note(f"mistake at a terminal: {line}", faults)
    rows.note("mistakes: the container", differences_left(os.path.join(folder, "C"), image))


def help_at_terminal(rows, folder):
    for words in ([], ["--help"], ["-h"], ["help"]):
        status, out, told = at_terminal(rows.program, words, folder)
        lines = told.splitlines()
        wanted = [f"vcserve {name} " for name in ("format", "hide", "info", "cat", "passwd", "restore", "expand",
                                                   "serve", "drill")]
        faults = [] if (status, out) == (2, b"") else [f"status {status}"]
        faults += [] if lines[:1] == ["vcserve: usage"] else ["no first line"]
        faults += [f"no synopsis of {name}" for name in wanted if not any(name in line for line in lines[1:])]
        rows.note(f"help at a terminal: {words}", faults)
        done = subprocess.run([rows.program, *words], capture_output=True, stdin=subprocess.DEVNULL, timeout=LIMIT)
        rows.note(f"help without a terminal: {words}", differences(done, 2, b"", LINES[2]))


def progress(rows, folder):
    """A format or expand that writes more than 256 MiB shows its progress at a terminal alone, and removes the line at
    the end."""
    path = os.path.join(folder, "progress.vc")
    for size, is_shown in [(256 << 20, False), ((256 << 20) + 512, True)]:
        words = ["format", path, "--size", str(size), "--password", PASSWORD, "--random", HEX, "--pim", "1"]
        status, out, told = at_terminal(rows.program, words, folder)
        faults = [] if (status, out) == (0, b"ok\n") else [f"status {status}, output {out!r}"]
        lines = told.split("\r")
        if is_shown and not (len(lines) == 102 and lines[50].startswith("50% (") and lines[101] == "\x1b[K"):
            faults.append(f"{len(lines)} states of the line, the last {lines[-1]!r}")
        if not is_shown and told:
            faults.append(f"{told[:80]!r}")
        rows.note(f"progress of {size} bytes at a terminal", faults)
        done = subprocess.run([rows.program, *words], capture_output=True, stdin=subprocess.DEVNULL, timeout=LIMIT)
        rows.note(f"progress of {size} bytes without one", differences(done, 0, b"ok\n", ""))
    for more, is_shown in [(200 << 20, False), (300 << 20, True)]:
        with open(path, "wb") as file:
            file.write(formatted(1 << 20, PASSWORD, 1, KEY))
        words = ["expand", path, "--size", str((1 << 20) + more), "--password", PASSWORD, "--random", HEX, "--pim", "1",
                 "--no-hidden"]
        status, out, told = at_terminal(rows.program, words, folder)
        faults = [] if (status, out) == (0, b"ok\n") else [f"status {status}, output {out!r}"]
        lines = told.split("\r")
        if is_shown and not (lines[-1] == "\x1b[K" and any(line.startswith("50% (") for line in lines)):
            faults.append(f"{len(lines)} states of the line, the last {lines[-1]!r}")
        if not is_shown and told:
            faults.append(f"{told[:80]!r}")
        rows.note(f"progress of {more} bytes more at a terminal", faults)
    words = ["cat", path, "0", str((size >> 9) - 512), "--password", PASSWORD, "--pim", "1"]
    with open(os.devnull, "wb") as nowhere:
        status, _, told = at_terminal(rows.program, words, folder, stdout=nowhere)
    rows.note("cat of a long volume tells no progress", [] if (status, told) == (0, "") else [f"{status}, {told[:80]!r}"])
    os.remove(path)


def faults_at_terminal(rows, folder):
    """The path, the call and the system's reason of a container fault."""
    path = os.path.join(folder, "fault.vc")
    words = ["format", path, "--size", str(SMALLEST), "--password", PASSWORD, "--random", HEX, "--pim", "1"]
    limit = {"preexec_fn": limit_files(1 << 10)}
    for name, is_there, call in [("a new file", False, "set the length"), ("a long file", True, "write")]:
        if is_there:
            # It may be cut, to a length that no file may grow to.
            with open(path, "wb") as file:
                file.write(bytes(1 << 20))
        status, out, told = at_terminal(rows.program, words, folder, **limit)
        wanted = f"{LINES[7]}  {path}: {call}: File too large"
        rows.note(f"fault at a terminal: {name}",
                  [] if (status, out) == (7, b"") and told.startswith(wanted) else [f"status {status}, {told!r}"])
    with small_disk(rows, folder, 300 << 10) as disk:
        if disk is None:
            return
        path = os.path.join(disk, "full.vc")
        words = ["format", path, "--size", str(1 << 20), "--password", PASSWORD, "--random", HEX, "--pim", "1"]
        status, out, told = at_terminal(rows.program, words, folder)
        wanted = f"{LINES[7]}  {path}: write: No space left on device"
        rows.note("fault at a terminal: a full disk",
                  [] if (status, out) == (7, b"") and told.startswith(wanted) else [f"status {status}, {told!r}"])
        rows.note("format on a full disk: the file", ["it is left"] if os.path.exists(path) else [])


# Locks are refused as by a file system that has none, and the names of what is synced are written down.
LIBRARY = r"""
#define _GNU_SOURCE
#include <errno.h>
#include <fcntl.h>
#include <stdio.h>
#include <stdlib.h>
#include <unistd.h>
int flock(int fd, int how) { (void)how; if (getenv("NO_LOCKS")) { errno = ENOLCK; return -1; } return 0; }
int fsync(int fd) {
    char link[64], name[4096];
    snprintf(link, sizeof link, "/proc/self/fd/%d", fd);
    ssize_t len = readlink(link, name, sizeof name - 1);
    int log = open(getenv("SYNCED"), O_WRONLY | O_CREAT | O_APPEND, 0600);
    if (len < 0 || log < 0) return -1;
    name[len] = '\n';
    if (write(log, name, len + 1) < 0) return -1;
    close(log);
    return 0;
}
"""


def without_locks(rows, folder):
    """A file system without locks: no container is opened, and one that was made is removed again."""
    if shutil.which("gcc") is None:
        return rows.leave_out("a file system without locks, and what is synced", "gcc is missing")
    library, log = os.path.join(folder, "calls.so"), os.path.join(folder, "log")
    subprocess.run(["gcc", "-O2", "-shared", "-fPIC", "-x", "c", "-", "-o", library], input=LIBRARY.encode(), check=True)
    path = os.path.join(folder, "unlocked.vc")
    words = ["format", path, "--size", str(SMALLEST), "--password", PASSWORD, "--random", HEX, "--pim", "1"]
    loaded = {**os.environ, "LD_PRELOAD": library, "SYNCED": log}
    no_locks = {"env": {**loaded, "NO_LOCKS": "1"}}
    rows.row("format without locks", words, 7, kept=path, **no_locks)
    rows.note("format without locks: the file", ["it is left"] if os.path.exists(path) else [])
    with open(path, "wb") as file:
        file.write(b"there before")
    rows.row("format without locks, over a file", words, 7, kept=path, left=b"there before", **no_locks)
    rows.row("info without locks", ["info", path, "--password", PASSWORD], 7, kept=path, **no_locks)
    if why_no_terminal() is None:
        status, _, told = at_terminal(rows.program, words, folder, **no_locks)
        wanted = f"{LINES[7]}  {path}: open: No locks available"
        rows.note("format without locks, at a terminal",
                  [] if status == 7 and told.startswith(wanted) else [f"status {status}, {told!r}"])
    os.remove(path)
    for name, synced in [("a new file", [path, folder]), ("a file that is there", [path])]:
        rows.row(f"what is synced: {name}", words, 0, b"ok\n", left=formatted(SMALLEST, PASSWORD, 1, KEY), env=loaded)
        with open(log, encoding="utf-8") as file:
            found = file.read().splitlines()
        wanted = [os.path.realpath(name) for name in synced]
        rows.note(f"what is synced: {name}: its names", [] if found == wanted else [f"{found} in place of {wanted}"])
        os.remove(log)
    os.remove(path)


def one_writer(rows, small, folder):
    """A second program is refused while a first one that may write has the container open."""
    path = os.path.join(folder, "one.vc")
    size = 64 << 20
    words = ["format", path, "--size", str(size), "--password", PASSWORD, "--random", HEX]
    first = subprocess.Popen([rows.program, *words], stdin=subprocess.DEVNULL, stdout=subprocess.PIPE,
                             stderr=subprocess.PIPE)
    while not (os.path.exists(path) and os.path.getsize(path)):
        time.sleep(0.005)
    others = [("format", words), ("hide", ["hide", path, "--size", "512", "--password", "y", "--random", HEX]),
              ("info", ["info", path, "--password", PASSWORD]),
              ("cat", ["cat", path, "0", "1", "--password", PASSWORD]),
              ("passwd", ["passwd", path, "--password", PASSWORD, "--new", "y", "--random", HEX]),
              ("restore", ["restore", path, "--password", PASSWORD, "--random", HEX])]
    for name, more in others:
        done = subprocess.run([rows.program, *more], capture_output=True, stdin=subprocess.DEVNULL, timeout=LIMIT)
        is_running = first.poll() is None
        rows.note(f"{name} during a format", differences(done, 7, b"", LINES[7]) if is_running else ["the first has ended"])
    out, line = first.communicate(timeout=LIMIT)
    done = subprocess.CompletedProcess(words, first.returncode, out, line)
    rows.note("the format that was first", differences(done, 0, b"ok\n", ""))
    rows.note("mode of a made container", [] if os.stat(path).st_mode & 0o777 == 0o600 else ["it isn't 0600"])
    os.remove(path)
    for name, lock, status in [("shared", fcntl.LOCK_SH, 0), ("exclusive", fcntl.LOCK_EX, 7)]:
        with open(small, "rb") as file:
            fcntl.flock(file, lock)
            rows.row(f"info of a container with a lock that is {name}", ["info", small, "--password", PASSWORD, "--pim=1"],
                     status, b"slot standard\nprf sha512\nalgorithm aes\nstart 131072\nsize 512\nsector 512\n" if status == 0 else b"")
            rows.row(f"hide with a lock that is {name}", ["hide", small, "--size", "512", "--password", "y", "--random", HEX],
                     7, kept=small)


def own_output(rows, small, folder):
    """The container as the standard output or the standard error: nothing is written."""
    path = os.path.join(folder, "own.vc")
    with open(small, "rb") as file:
        image = file.read()
    with open(path, "wb") as file:
        file.write(image)
    commands = [["info", path, "--password", PASSWORD, "--pim", "1"],
                ["cat", path, "0", "1", "--password", PASSWORD, "--pim", "1"],
                ["hide", path, "--size", "512", "--password", "y", "--random", HEX, "--pim", "1"],
                ["format", path, "--size", str(SMALLEST), "--password", "y", "--random", HEX, "--pim", "1"],
                ["passwd", path, "--password", PASSWORD, "--new", "y", "--random", HEX, "--pim", "1"],
                ["restore", path, "--password", PASSWORD, "--random", HEX, "--pim", "1"]]
    for words in commands:
        for mode in ("r+b", "ab"):
            with open(path, mode) as file:
                rows.row(f"{words[0]} into its own container, {mode}", words, 7, stdout=file, kept=path)
        for mode in ("r+b", "ab"):
            with open(path, mode) as file:
                rows.row(f"{words[0]} with its container as standard error, {mode}", words, 7, stderr=file, kept=path)
    # The warning of a password's file that others may read would come first.
    secret = os.path.join(folder, "exposed")
    with open(secret, "wb") as file:
        file.write(PASSWORD.encode())
    os.chmod(secret, 0o644)
    for mode in ("r+b", "ab"):
        with open(path, mode) as file:
            rows.row(f"info warns of a file, with its container as standard error, {mode}",
                     ["info", path, "--password-file", secret, "--pim", "1"], 7, stderr=file, kept=path)
    other = os.path.join(folder, "linked.vc")
    os.link(path, other)
    with open(other, "r+b") as file:
        rows.row("info into its container by another name", commands[0], 7, stdout=file, kept=path)


def limit_files(size):
    def limit():
        signal.signal(signal.SIGXFSZ, signal.SIG_IGN)
        resource.setrlimit(resource.RLIMIT_FSIZE, (size, size))
    return limit


def files_of_format(rows, folder):
    """What is left of a format that fails: a file that it made is removed, one that was there stays."""
    def words(path, size):
        return ["format", path, "--size", str(size), "--password", PASSWORD, "--random", HEX, "--pim", "1"]

    for name, size, how, status in [
        ("refused", 1, {}, 6),
        ("with a size that is no multiple", SMALLEST + 1, {}, 6),
        ("on a file system that is full", 1 << 20, {"preexec_fn": limit_files(1 << 19)}, 7),
    ]:
        path = os.path.join(folder, "left.vc")
        rows.row(f"format {name}", words(path, size), status, kept=folder, **how)
        rows.note(f"format {name}: the file", ["it is left"] if os.path.exists(path) else [])
        with open(path, "wb") as file:
            file.write(b"there before")
        os.chmod(path, 0o640)
        run = subprocess.run([rows.program, *words(path, size)], capture_output=True, stdin=subprocess.DEVNULL, **how)
        rows.note(f"format {name}, over a file", differences(run, status, b"", LINES[status]))
        rows.note(f"format {name}: a file that was there", [] if os.path.exists(path) else ["it is gone"])
        rows.note(f"format {name}: its mode", [] if os.stat(path).st_mode & 0o777 == 0o640 else ["it has changed"])
        os.remove(path)
    target, link = os.path.join(folder, "target"), os.path.join(folder, "link")
    os.symlink(target, link)
    rows.row("format refused, by a link to nothing yet", words(link, 1), 6, kept=target)
    rows.note("format by a link: its target", ["it is left"] if os.path.exists(target) else [])
    rows.note("format by a link: the link", [] if os.path.islink(link) else ["it is gone"])
    path = os.path.join(folder, "interrupted.vc")
    large = ["format", path, "--size", str(64 << 20), "--password", PASSWORD, "--random", HEX]
    # A shell's background job ignores the signal, and so would the program that it starts.
    running = subprocess.Popen([rows.program, *large], stdin=subprocess.DEVNULL, stdout=subprocess.PIPE,
                               preexec_fn=lambda: signal.signal(signal.SIGINT, signal.SIG_DFL))
    while not os.path.exists(path):
        time.sleep(0.005)
    running.send_signal(signal.SIGINT)
    rows.note("format interrupted", [] if running.wait(LIMIT) == -signal.SIGINT else ["it wasn't"])
    rows.note("format interrupted: its output", ["it says ok"] if running.stdout.read() else [])
    running.stdout.close()
    rows.row("format after one that was interrupted", words(path, SMALLEST), 0, b"ok\n",
             left=formatted(SMALLEST, PASSWORD, 1, KEY))


def opened_to_read(rows, small):
    """`info` and `cat` open the container for reading alone: they read what the running program has open."""
    for words in (["info", small, "--password", PASSWORD], ["cat", small, "0", "1", "--password", PASSWORD]):
        running = subprocess.Popen([rows.program, *words], stdin=subprocess.DEVNULL, stdout=subprocess.PIPE,
                                   stderr=subprocess.PIPE)
        flags = None
        while running.poll() is None and flags is None:
            flags = flags_of(running.pid, small)
        running.communicate(timeout=LIMIT)
        wrong = "it wasn't seen open" if flags is None else f"it is open with {flags:o}"
        rows.note(f"{words[0]} can't write", [] if flags is not None and flags & 3 == os.O_RDONLY else [wrong])


def flags_of(pid, path):
    try:
        for number in os.listdir(f"/proc/{pid}/fd"):
            if os.path.realpath(f"/proc/{pid}/fd/{number}") == os.path.realpath(path):
                with open(f"/proc/{pid}/fdinfo/{number}", encoding="ascii") as file:
                    return next(int(line.split()[1], 8) for line in file if line.startswith("flags:"))
    except OSError:
        pass
    return None


def check(rows, small, folder):
    parts = [(one_writer, True), (own_output, True), (files_of_format, False), (without_locks, False)]
    why = why_no_terminal()
    if why:
        rows.leave_out("rows at a terminal", why)
    else:
        parts = [(mistakes, True), (help_at_terminal, False), (progress, False),
                 (faults_at_terminal, False), *parts]
    for part, more in parts:
        with tempfile.TemporaryDirectory(dir=folder) as place:
            part(rows, small, place) if more else part(rows, place)
    opened_to_read(rows, small)
