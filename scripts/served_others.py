"""A measure of serve_speed.py: other people's servers of an encrypted volume, beside `serve`, by libnbd's client.

qemu-nbd and nbdkit serve a LUKS container with AES-256 and XTS, and vcserve its own with AES and SHA-512. The same client,
libnbd in a Python program, makes the same requests of each, one at a time: of vcserve and nbdkit over the standard
streams of a server that it starts, of qemu-nbd over a Unix socket, since it has no other way. What is missing is told.
"""
import json
import os
import shutil
import subprocess
import sys

from independent_container import GROUP, make
from other_clients import python_of_libnbd
from speed import PASSWORD, best

MIB = 1 << 20
SMALL = 4096

# Connects to the server, waits until it has opened its container, and prints the seconds that the requests took.
CLIENT = r"""
import json, sys, time, nbd
how, words, kind, length, offsets = json.load(sys.stdin)
handle = nbd.NBD()
(handle.connect_command if how == "command" else handle.connect_systemd_socket_activation)(words)
data = bytes(length)
handle.pread(length, 0)
begun = time.perf_counter()
if kind == "read":
    for offset in offsets:
        handle.pread(length, offset)
else:
    for offset in offsets:
        handle.pwrite(data, offset)
print(time.perf_counter() - begun)
handle.shutdown()
"""


def seconds(server, kind, length, offsets):
    how, words = server
    asked = json.dumps([how, words, kind, length, offsets])
    run = subprocess.run([python_of_libnbd(), "-c", CLIENT], input=asked, capture_output=True, text=True, timeout=300,
                         check=False)
    if run.returncode != 0:
        sys.exit(f"a session with {words[0]} went wrong: {run.stderr.strip()}")
    return float(run.stdout)


def servers(program, container, luks, size):
    """Ours first, then those of others that are installed, each with how a client starts it."""
    found = {"vcserve": ("command", [program, "serve", container, "--password", PASSWORD, "--pim", "1", "--kind", "standard",
                                     "--handshake", "--", "-", "-"])}
    make(container, 2 * GROUP + size, PASSWORD, 1)
    if shutil.which("qemu-img") is None:
        print("skipped: qemu-img is missing, so there is no LUKS container")
        return found
    secret = ["--object", f"secret,id=key,data={PASSWORD}"]
    subprocess.run(["qemu-img", "create", "-q", "-f", "luks", *secret, "-o",
                    "key-secret=key,iter-time=10,cipher-alg=aes-256,cipher-mode=xts", luks, str(size)], check=True)
    others = {"qemu-nbd": ("socket", ["qemu-nbd", *secret, "--image-opts", f"driver=luks,key-secret=key,file.filename={luks}"]),
              "nbdkit": ("command", ["nbdkit", "-s", "--filter=luks", "file", luks, f"passphrase={PASSWORD}"])}
    for name, server in others.items():
        if shutil.which(name) is None:
            print(f"skipped: {name} is missing")
        else:
            found[name] = server
    return found


def measure(program, folder, size, turns):
    if python_of_libnbd() is None:
        print("skipped: no Python here has the module nbd (package python3-libnbd)")
        return
    all_servers = servers(program, os.path.join(folder, "others.vc"), os.path.join(folder, "others.luks"), size)
    places = size // SMALL
    rows = [("1 MiB after 1 MiB", MIB, [MIB * at for at in range(size // MIB)], "at least 3 times qemu-nbd's"),
            ("4 KiB at random", SMALL, [SMALL * (at * 2654435761 % places) for at in range(5000)],
             "at least 1.2 times qemu-nbd's")]
    for name, length, offsets, goal in rows:
        for kind in ("read", "write"):
            times = best(turns, *[lambda server=server: seconds(server, kind, length, offsets)
                                  for server in all_servers.values()])
            for server, time in zip(all_servers, times):
                print(f"others: {kind}s of {name}: {server} {len(offsets) / time:.0f} a second")
                if server != "vcserve":
                    print(f"  vcserve {time / times[0]:.2f} times as many{f' ({goal})' if server == 'qemu-nbd' else ''}")
