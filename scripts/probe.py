"""Programs of the scripts' own over crates of the repository.

A copy of the crates is made in a temporary folder, with the program beside them, and `rt run` proves
and builds it.
"""
import os
import shutil
import subprocess
import sys

ROOT = os.path.dirname(os.path.dirname(os.path.abspath(__file__)))


def below(needed):
    """These crates and those that they need, by crates.txt, each with its dependencies."""
    lines = {}
    with open(os.path.join(ROOT, "crates.txt"), encoding="utf-8") as file:
        for line in file:
            if ":" in line and not line.startswith("#"):
                name, deps = line.strip().split(":")
                lines[name.split()[0]] = deps.split()
    found, waiting = {}, list(needed)
    while waiting:
        name = waiting.pop()
        if name in lines and name not in found:
            found[name] = lines[name]
            waiting += lines[name]
    return found


def build(folder, needed, name, source, proofs=None):
    """The path of the program of this name and source over these crates, built in a folder. `proofs`
    has the texts of its proof files, by their paths below `proofs`, if it needs any."""
    crates = below(needed)
    for crate in crates:
        shutil.copytree(
            os.path.join(ROOT, "crates", crate),
            os.path.join(folder, "crates", crate),
            ignore=shutil.ignore_patterns("out", "must-fail"),
        )
    with open(os.path.join(folder, "crates.txt"), "w", encoding="utf-8") as file:
        for crate, deps in crates.items():
            file.write(f"{crate}: {' '.join(deps)}\n")
        file.write(f"{name}: {' '.join(crates)}\n")
    place = os.path.join(folder, "crates", name)
    files = {os.path.join("proofs", path): text for path, text in (proofs or {}).items()}
    files[os.path.join("src", "main.rt")] = source
    for path, text in files.items():
        path = os.path.join(place, path)
        os.makedirs(os.path.dirname(path), exist_ok=True)
        with open(path, "w", encoding="utf-8") as file:
            file.write(text)
    built = subprocess.run(["rt", "run"], cwd=place, capture_output=True, input=b"")
    program = os.path.join(place, "out", name)
    if not os.path.exists(program):
        sys.exit("the program was not built:\n" + built.stdout.decode() + built.stderr.decode())
    return program
