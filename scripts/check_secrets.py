"""Rows of check_program.py: secrets that are in files.

Each run names a file in place of a secret and has to do what the run with the secret as an argument does, or to
refuse the file before a container is opened or made.
"""
import os
import pty
import subprocess
import threading
import time

from check_format import HEX, KEY, SMALLEST, formatted
from independent_container import changed
from program_rows import LIMIT, LINES, PASSWORD, differences, differences_left, fingerprint, nobody, why_no_terminal

LINE = "vcserve: secret file\n"
HIDDEN = "hidden horse"


def written(folder, name, content, mode=0o600):
    path = os.path.join(folder, name)
    with open(path, "wb") as file:
        file.write(content)
    os.chmod(path, mode)
    return path


def run(rows, name, words, status, out, line="", kept=None, left=None, **how):
    """As Rows.row, but with a line of its own on the standard error."""
    before = fingerprint(kept)
    try:
        done = subprocess.run([rows.program, *words], timeout=LIMIT, stdout=subprocess.PIPE, stderr=subprocess.PIPE,
                              **({} if {"input", "stdin"} & how.keys() else {"stdin": subprocess.DEVNULL}), **how)
    except subprocess.TimeoutExpired:
        return rows.note(name, [f"no end after {LIMIT} s"])
    faults = differences(done, status, out, line)
    if left is not None:
        faults += differences_left(kept, left)
    elif fingerprint(kept) != before:
        faults.append("the file has changed")
    return rows.note(name, faults)


def contents(rows, small, folder):
    """What a password's file may hold: a row is its name, the content, and whether it opens the container."""
    two = bytes(range(256)) * 2
    right = PASSWORD.encode()
    for name, content, status in [
        ("no line end", right, 0),
        ("a line end", right + b"\n", 0),
        ("CR LF", right + b"\r\n", 0),
        ("two line ends", right + b"\n\n", 3),
        ("two CR LF", right + b"\r\n\r\n", 3),
        ("a CR", right + b"\r", 3),
        ("a space", right + b" \n", 3),
        ("a line before", b"\n" + right, 3),
        ("128 bytes", b"a" * 128, 3),
        ("128 bytes and a line end", b"a" * 128 + b"\n", 3),
        ("128 bytes and CR LF", b"a" * 128 + b"\r\n", 3),
        ("a hyphen first", b"-x\n", 3),
        ("two hyphens", b"--\n", 3),
        ("equals signs", b"==\n", 3),
        ("129 bytes", b"a" * 129, 2),
        ("129 bytes and a line end", b"a" * 129 + b"\n", 2),
        ("128 bytes and two line ends", b"a" * 128 + b"\n\n", 2),
        ("nothing", b"", 2),
        ("a line end alone", b"\n", 2),
        ("CR LF alone", b"\r\n", 2),
        ("no UTF-8", b"\xff\n", 2),
        ("UTF-8 cut short", b"a\xc3", 2),
    ]:
        path = written(folder, "secret", content)
        words = ["cat", small, "0", "1", "--password-file", path, "--pim", "1"]
        lines = {0: "", 2: LINE, 3: "vcserve: no valid header\n"}
        run(rows, f"secret file: {name}", words, status, two if status == 0 else b"", lines[status], small)
    long = os.path.join(folder, "long")
    with open(long, "wb") as file:
        file.truncate(1 << 30)
    os.chmod(long, 0o600)
    begin = time.monotonic()
    run(rows, "secret file: 1 GiB", ["info", small, "--password-file", long], 2, b"", LINE, small)
    rows.note("secret file: 1 GiB isn't read", ["it takes long"] if time.monotonic() - begin > 5 else [])


def what_is_taken(rows, small):
    """Of an input that doesn't end 131 bytes are read for a password, and 32 for a random key. The others stay."""
    run(rows, "secret file: it has no end", ["info", small, "--password-file", "/dev/zero"], 2, b"", LINE, small)
    for name, words, status, line, taken in [
        ("password", ["info", small, "--password-file"], 2, LINE, 131),
        ("random key", ["hide", small, "--size", "1", "--password", "x", "--random-file"], 6, LINES[6], 32),
    ]:
        reader, writer = os.pipe()
        os.write(writer, bytes(range(250)) * 4)
        # The end that writes stays open, so a read for more than there is would wait.
        run(rows, f"secret file: a {name} from a pipe that stays open", [*words, f"/dev/fd/{reader}"], status, b"", line,
            small, pass_fds=[reader])
        left = os.read(reader, 4096)
        faults = [] if left == (bytes(range(250)) * 4)[taken:] else [f"{1000 - len(left)} bytes in place of {taken}"]
        rows.note(f"secret file: what is read of a {name}", faults)
        os.close(reader)
        os.close(writer)


def unreadable(rows, small, folder):
    """Files that the system refuses to read; to the superuser it refuses none, so another user tries them."""
    path = written(folder, "unreadable", PASSWORD.encode(), 0)
    inner = os.path.join(folder, "closed")
    os.mkdir(inner)
    inside = written(inner, "secret", PASSWORD.encode(), 0o644)
    os.chmod(inner, 0)
    try:
        for name, file in [("mode 000", path), ("in a folder that can't be searched", inside)]:
            words = ["info", small, "--pim", "1", "--password-file", file]
            run(rows, f"secret file: {name}", words, 2, b"", LINE, small, **nobody())
    except (PermissionError, subprocess.SubprocessError) as error:
        rows.leave_out("secret files that can't be read", f"the superuser reads all, and no other user runs: {error}")
    os.chmod(inner, 0o755)


def places(rows, small, folder):
    """Every option, both spellings, with its partner and after `--`."""
    secret = written(folder, "secret", PASSWORD.encode() + b"\n")
    key = written(folder, "key", KEY + b"more")
    short = written(folder, "short", KEY[:31])
    open_to_all = written(folder, "open", PASSWORD.encode(), 0o644)
    of_group = written(folder, "group", PASSWORD.encode(), 0o640)
    warning = "vcserve: others may read the secret file {}\n"
    two = bytes(range(256)) * 2
    usage = "vcserve: usage\n"
    cat = ["cat", small, "0", "1", "--pim", "1"]
    missing = os.path.join(folder, "missing")
    for name, words, status, out, line in [
        ("as two arguments", [*cat, "--password-file", secret], 0, two, ""),
        ("as one argument", [*cat, f"--password-file={secret}"], 0, two, ""),
        ("before the positions", ["cat", f"--password-file={secret}", *cat[1:]], 0, two, ""),
        ("before the command", [f"--password-file={secret}", *cat], 2, b"", usage),
        ("twice", [*cat, "--password-file", secret, f"--password-file={secret}"], 2, b"", usage),
        ("and the password", [*cat, "--password-file", secret, "--password", PASSWORD], 2, b"", usage),
        ("after the password", [*cat, "--password", PASSWORD, "--password-file", secret], 2, b"", usage),
        ("no path", [*cat, "--password-file"], 2, b"", usage),
        ("an option for the path", [*cat, "--password-file", "--pim"], 2, b"", usage),
        ("an empty path", [*cat, "--password-file="], 2, b"", LINE),
        ("missing", [*cat, "--password-file", missing], 2, b"", LINE),
        ("a folder", [*cat, "--password-file", folder], 2, b"", LINE),
        ("no such option of the command", [*cat, "--password", PASSWORD, "--random-file", key], 2, b"", usage),
        ("no such command", ["dog", "--password-file", secret], 2, b"", usage),
        ("a key that is short", ["format", missing, "--size", str(SMALLEST), "--password-file", secret,
                                 "--random-file", short], 2, b"", LINE),
        ("for others to read", [*cat, "--password-file", open_to_all], 0, two, warning.format(open_to_all)),
        ("for the group to read", [*cat, "--password-file", of_group], 0, two, warning.format(of_group)),
        ("a file and its client files", [*cat, "--password-file", missing, "--", "a"], 2, b"", usage),
        ("a client file of that name", [*cat, "--password", PASSWORD, "--", "--password-file", secret], 2, b"", usage),
        ("a new password that is missing", ["passwd", small, "--password-file", secret, "--new-file", missing,
                                           "--random-file", key], 2, b"", LINE),
        ("new, and the new password", ["passwd", small, "--password-file", secret, "--new-file", secret, "--new", "x",
                                       "--random-file", key], 2, b"", usage),
        ("protect, for serve without clients", ["serve", small, "--password-file", secret, "--protect-file",
                                                  secret], 2, b"", usage),
    ]:
        run(rows, f"secret file: {name}", words, status, out, line, small)
        rows.note(f"secret file: {name}: nothing is made", ["it is"] if os.path.exists(missing) else [])
    made = os.path.join(folder, "made.vc")
    run(rows, "secret file: a password and a key", ["format", made, "--size", str(SMALLEST), "--pim", "1",
        "--password-file", secret, "--random-file", key], 0, b"ok\n", "", made, formatted(SMALLEST, PASSWORD, 1, KEY))
    new = written(folder, "new", b"-new horse\r\n")
    with open(made, "rb") as file:
        image = file.read()
    left = changed(image, 0, PASSWORD, 1, KEY, "sha512", "aes", new_password="-new horse", new_pim=1, new_prf="sha512")
    run(rows, "secret file: a new password", ["passwd", made, "--password-file", secret, "--pim", "1", "--new-file", new,
        "--new-pim", "1", "--random-file", key], 0, b"ok\n", "", made, left)
    os.remove(made)
    words = ["format", made, "--size", str(SMALLEST), "--pim", "1", "--password-file", secret, "--random-file", "/dev/urandom"]
    images = []
    for _ in range(2):
        done = subprocess.run([rows.program, *words], capture_output=True, stdin=subprocess.DEVNULL, timeout=LIMIT)
        with open(made, "rb") as file:
            images.append(file.read())
        rows.note("secret file: /dev/urandom", differences(done, 0, b"ok\n", ""))
    rows.note("secret file: two keys of /dev/urandom", ["one container"] if images[0] == images[1] else [])
    run(rows, "secret file: its container", ["cat", made, "0", "0", "--password-file", secret, "--pim=1"], 0, b"", "", made)
    os.remove(made)


def pipes(rows, small, folder):
    """A secret from a pipe, a FIFO, the standard input and a terminal."""
    two = bytes(range(256)) * 2
    cat = ["cat", small, "0", "1", "--pim", "1", "--password-file"]
    line = PASSWORD.encode() + b"\n"
    run(rows, "secret from a pipe as the standard input", [*cat, "/dev/stdin"], 0, two, input=line)
    run(rows, "secret from an empty pipe", [*cat, "/dev/stdin"], 2, b"", LINE, input=b"")
    reader, writer = os.pipe()
    os.write(writer, line)
    os.close(writer)
    run(rows, "secret from a pipe of the shell", [*cat, f"/dev/fd/{reader}"], 0, two, pass_fds=[reader])
    os.close(reader)
    fifo = os.path.join(folder, "fifo")
    os.mkfifo(fifo)

    def write_slowly():
        with open(fifo, "wb", buffering=0) as file:
            for at in range(0, len(line), 4):
                file.write(line[at:at + 4])
                time.sleep(0.02)

    thread = threading.Thread(target=write_slowly)
    thread.start()
    run(rows, "secret from a FIFO, in pieces", [*cat, fifo], 0, two)
    thread.join()
    why = why_no_terminal()
    if why:
        return rows.leave_out("secret from a terminal", why)
    parent, child = pty.openpty()
    for path, how in [(os.ttyname(child), {}), ("/dev/stdin", {"stdin": child})]:
        os.write(parent, line)
        run(rows, f"secret from a terminal: {path}", [*cat, path], 0, two, start_new_session=True, **how)
        os.write(parent, b"a" * 129 + b"\n")
        run(rows, f"secret that is too long, from a terminal: {path}", [*cat, path], 2, b"", LINE, start_new_session=True, **how)
    os.close(child)
    os.close(parent)


def not_seen(rows, folder):
    """While the program runs, neither its arguments nor its environment have the secret."""
    secret, digits = "zebra in the list", "5a" * 32
    path, key = written(folder, "zebra", secret.encode()), written(folder, "zebra_key", bytes.fromhex(digits))
    made = os.path.join(folder, "seen.vc")
    words = ["format", made, "--size", str(64 << 20), "--password-file", path, "--random-file", key]
    running = subprocess.Popen([rows.program, *words], stdin=subprocess.DEVNULL, stdout=subprocess.DEVNULL)
    found, looks = [], 0
    while running.poll() is None:
        for name in ("cmdline", "environ"):
            try:
                with open(f"/proc/{running.pid}/{name}", "rb") as file:
                    text = file.read()
            except OSError:
                continue
            looks += name == "cmdline" and b"--password-file" in text
            if secret.encode() in text or digits.encode() in text:
                found.append(f"the secret is in {name}")
        time.sleep(0.01)
    rows.note("secrets in the list of processes", found or ([] if looks else ["nothing was looked at"]))
    os.remove(made)


def check(rows, small, folder):
    place = os.path.join(folder, "secrets")
    os.mkdir(place)
    os.chmod(place, 0o755)
    contents(rows, small, place)
    what_is_taken(rows, small)
    unreadable(rows, small, place)
    places(rows, small, place)
    pipes(rows, small, place)
    not_seen(rows, place)
