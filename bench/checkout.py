"""A copy of the checkout for a program that times some of its crates: what the scripts of this folder share."""
import os
import shutil
import subprocess

HERE = os.path.dirname(os.path.realpath(__file__))
ROOT = os.path.dirname(HERE)


def crates_below(name, lines):
    """The crates of this repository that a crate stands on, and the crate itself."""
    found = {name}
    for low in lines[name].split():
        if low in lines:
            found |= crates_below(low, lines)
    return found


def copy_crates(folder, names, program):
    """Copies these crates and what they stand on, with what is built of them, so that little is proved anew. `program` is the further line of crates.txt."""
    lines = {}
    with open(f"{ROOT}/crates.txt", encoding="utf-8") as listed:
        for line in listed:
            name, colon, below = line.partition(":")
            if colon and not line.startswith("#"):
                lines[name.strip()] = below
    needed = set().union(*(crates_below(name, lines) for name in names))
    for name in needed:
        shutil.copytree(
            f"{ROOT}/crates/{name}",
            f"{folder}/crates/{name}",
            ignore=shutil.ignore_patterns("must-fail", "*_tests", "*_tests.o"),
        )
    with open(f"{folder}/crates.txt", "w", encoding="utf-8") as out:
        for name in lines:
            if name in needed:
                out.write(f"{name}:{lines[name].rstrip()}\n")
        out.write(f"{program}\n")
    shutil.copy(f"{ROOT}/HANDLES", folder)


def build(folder, crate, source, words):
    """Proves and builds a program of this folder and runs it on these words. Answers its path, the status of that run, and what rt wrote."""
    at = f"{folder}/crates/{crate}"
    os.makedirs(f"{at}/src")
    # A .rt file outside crates/ would be refused by the gate, hence the other name in the checkout.
    shutil.copy(f"{HERE}/{source}", f"{at}/src/main.rt")
    done = subprocess.run(
        ["rt", "run", "--jobs", "1", "--backend", "llvm", "--", *words],
        cwd=at,
        stdin=subprocess.DEVNULL,
        stdout=subprocess.PIPE,
        stderr=subprocess.STDOUT,
        text=True,
    )
    return f"{at}/out/{crate}", done.returncode, done.stdout
