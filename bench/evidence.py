#!/usr/bin/env python3
"""Finds evidence and has it judged: bench/evidence.py [FILE]

Runs tools/evidence on examples/unproved.rules, or on FILE, and `nir_opt check` (crates/nir_opt/out/nir_opt, as the gate left it) over what it wrote.
Prints the seconds and the most memory of both, how many rules there are and how many are accepted. Then tools/evidence is run on
examples/wrong.rules, each rule of which is to be refused. The status is 1 where a rule is not accepted or a wrong one is not refused, and 2 where
there is no program.

bench/evidence.py --judge FILE judges cases and logs of a file by the tools' own check, which shares no code with the program, and prints the lines of
`nir_opt check`. It takes no derivations.
"""
import os
import subprocess
import sys
import tempfile
import time

HERE = os.path.dirname(os.path.realpath(__file__))
ROOT = os.path.dirname(HERE)
PROGRAM = f"{ROOT}/crates/nir_opt/out/nir_opt"
SCRIPT = f"{ROOT}/tools/evidence"
sys.path.insert(0, f"{ROOT}/tools")

import circuits
import hints
from rule_text import read_rules
from typings import SizeFault, typings


def run_once(words, out, told):
    """The status, the seconds on the clock, and the most memory of the process that was called, in MiB."""
    begun = time.monotonic()
    process = subprocess.Popen(words, stdin=subprocess.DEVNULL, stdout=out, stderr=told)
    _, status, usage = os.wait4(process.pid, 0)
    process.returncode = os.waitstatus_to_exitcode(status)
    return process.returncode, time.monotonic() - begun, usage.ru_maxrss / 1024


def row(name, seconds, memory, text):
    print(f"{name:<36} {seconds:>8.2f} {memory:>8.1f}  {text}")


def lines_of(file):
    file.seek(0)
    return file.read().decode().splitlines()


def finds_and_judges(path):
    """Whether all rules of a file have evidence, which the program accepts."""
    with tempfile.TemporaryDirectory() as folder, tempfile.TemporaryFile() as out, tempfile.TemporaryFile() as told:
        written = f"{folder}/proved.rules"
        status, seconds, memory = run_once([SCRIPT, "-o", written, path], subprocess.DEVNULL, told)
        if status != 0:
            print(f"tools/evidence: status {status}: {lines_of(told)}", file=sys.stderr)
            return False
        row("tools/evidence", seconds, memory, f"{os.path.getsize(written) / 1_048_576:.1f} MiB of text")
        status, seconds, memory = run_once([PROGRAM, "check", written], out, told)
        lines = lines_of(out)
        refused = [line for line in lines if not line.endswith(" accepted")]
        row("nir_opt check", seconds, memory, f"{len(lines) - len(refused)} of {len(lines)} rules accepted")
        for line in refused:
            print(line, file=sys.stderr)
        return status == 0 and len(lines) > 0 and not refused


def refuses_wrong():
    """Whether each wrong rule is told."""
    with tempfile.TemporaryFile() as told:
        path = f"{ROOT}/examples/wrong.rules"
        status, seconds, memory = run_once([SCRIPT, "--keep-going", path], subprocess.DEVNULL, told)
        with open(path, encoding="latin-1") as read:
            count = len(read_rules(read.read()))
        lines = lines_of(told)
        row("tools/evidence on wrong rules", seconds, memory, f"{len(lines)} of {count} rules refused")
        return status == 1 and len(lines) == count


def cause_at(rule, number, typed):
    """What is wrong with the evidence of a rule at a typing, or None."""
    chosen = [line for line in rule.lines if line.typing == number] + [line for line in rule.lines if line.typing is None]
    if not chosen:
        return "no evidence"
    if chosen[0].kind == "derive":
        raise SystemExit("a derivation: bench/derivations.py --check takes it")
    if chosen[0].kind == "cases":
        if circuits.free_bits(typed) > circuits.MOST_CASES:
            return "too many cases"
        values = circuits.first_difference(rule, typed)
        return None if values is None else " at ".join(["cases differ"] + [", ".join(map(str, values.values()))] * bool(values))
    try:
        return hints.log_fault(circuits.clauses_of(rule, typed)[0], chosen[0].steps)
    except circuits.NoCircuit as missing:
        return f"no circuit for {missing}"


def judged(rule):
    try:
        for number, typed in enumerate(typings(rule)):
            cause = cause_at(rule, number, typed)
            if cause:
                return f"rule {rule.number} typing {number}: {cause}"
    except SizeFault as fault:
        return f"rule {rule.number}: {fault}"
    return f"rule {rule.number} accepted"


def main():
    if sys.argv[1:2] == ["--judge"]:
        with open(sys.argv[2], encoding="latin-1") as read:
            lines = list(map(judged, read_rules(read.read())))
        print("\n".join(lines))
        sys.exit(0 if all(line.endswith(" accepted") for line in lines) else 6)
    if not os.path.exists(PROGRAM):
        print(f"{PROGRAM} is not there: run rt ci first", file=sys.stderr)
        sys.exit(2)
    print(f"{'run':<36} {'seconds':>8} {'MiB':>8}")
    path = sys.argv[1] if len(sys.argv) > 1 else f"{ROOT}/examples/unproved.rules"
    is_good = finds_and_judges(path)
    sys.exit(0 if refuses_wrong() and is_good else 1)


if __name__ == "__main__":
    main()
