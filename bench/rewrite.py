#!/usr/bin/env python3
"""Times a run of the optimiser with many rewrites: bench/rewrite.py [RUNS]

Takes the program as the gate left it (crates/nir_opt/out/nir_opt, built by LLVM), makes a shader of 16,000 values of which 1,000
are additions of 0, and runs it RUNS times (5 if left out) under the rule that moves them, beside one of a quarter of the size. It
prints the least processor times and the most memory. The status is 1 where a run takes 5 seconds or more, or 64 MiB or more, or has
not rewritten all, and 2 where there is no program.
"""
import os
import subprocess
import sys
import tempfile

HERE = os.path.dirname(os.path.realpath(__file__))
PROGRAM = f"{os.path.dirname(HERE)}/crates/nir_opt/out/nir_opt"
RULE = "[(('iadd', 'a@8', 0), 'a'), by * cases]"
VALUES = 16_000
MATCHES = 1_000
SECONDS = 5.0
MEBIBYTES = 64.0


def shader(values, matches):
    """One block of so many values: each is the sum of the two before it, or, every so often, of the one before it and 0."""
    every = values // matches
    lines = ["%0 = input w8x1 @0", "%1 = const w8x1 (0)", "%2 = ineg w8x1 %0", "%3 = ineg w8x1 %2"]
    for at in range(4, values):
        second = 1 if at % every == every - 1 else at - 2
        lines.append(f"%{at} = iadd w8x1 %{at - 1}, %{second}")
    lines.append(f"output @0, %{values - 1}")
    body = "\n".join(f"    {line}" for line in lines)
    return f"shader\ninputs [w8x1]\noutputs [w8x1]\nbuffers 0\n{{\n  block b0 {{\n{body}\n  }}\n}}\n"


def run_once(rules, text):
    """What the program prints, its seconds of processor time, and the most memory that it held, in MiB."""
    with tempfile.TemporaryFile() as given, tempfile.TemporaryFile() as printed:
        given.write(text.encode())
        given.seek(0)
        process = subprocess.Popen([PROGRAM, rules], stdin=given, stdout=printed)
        _, status, usage = os.wait4(process.pid, 0)
        process.returncode = os.waitstatus_to_exitcode(status)
        printed.seek(0)
        return process.returncode, printed.read().decode(), usage.ru_utime + usage.ru_stime, usage.ru_maxrss / 1024


def timed(rules, values, matches, runs):
    """The least time and the most memory of so many runs, or None where one did not do what it should."""
    text = shader(values, matches)
    best, most = None, 0.0
    for _ in range(runs):
        status, printed, taken, memory = run_once(rules, text)
        if status != 0 or printed.count("mov w8x1") != matches:
            print(f"status {status}, {printed.count('mov w8x1')} of {matches} rewritten", file=sys.stderr)
            return None
        best = taken if best is None else min(best, taken)
        most = max(most, memory)
    return best, most


def main():
    runs = int(sys.argv[1]) if len(sys.argv) > 1 else 5
    if not os.path.exists(PROGRAM):
        print(f"{PROGRAM} is not there: run rt ci first", file=sys.stderr)
        sys.exit(2)
    failed = False
    with tempfile.NamedTemporaryFile("w", suffix=".rules") as rules:
        rules.write(RULE)
        rules.flush()
        print(f"{'values':>8} {'rewrites':>9} {'seconds':>9} {'MiB':>7}")
        for part in (4, 1):
            told = timed(rules.name, VALUES // part, MATCHES // part, runs)
            if told is None:
                failed = True
                continue
            print(f"{VALUES // part:>8} {MATCHES // part:>9} {told[0]:>9.3f} {told[1]:>7.1f}")
            failed |= told[0] >= SECONDS or told[1] >= MEBIBYTES
    sys.exit(1 if failed else 0)


if __name__ == "__main__":
    main()
