#!/usr/bin/env python3
"""Times `nir_opt check` on large rule files: bench/rules.py [RUNS]

Takes the program as the gate left it (crates/nir_opt/out/nir_opt, built by LLVM), makes rule files, runs `check` on each RUNS times
(3 if left out), and prints the least processor times beside the size of the text and, where it has a limit, the most memory. The status
is 1 where a run takes as long as its limit, or ten times the text or more in memory, or does not end with its status, and 2 where there
is no program.
"""
import os
import random
import subprocess
import sys
import tempfile

HERE = os.path.dirname(os.path.realpath(__file__))
PROGRAM = f"{os.path.dirname(HERE)}/crates/nir_opt/out/nir_opt"
MOST = 67_108_864
RULE = "(('iadd', 'a@8', 0), a)"


def with_log(step):
    """One rule with a log of so many equal steps that the text is as large as a rule file may be."""
    front, end = f"[{RULE}, by * log [", "]]"
    count = (MOST - len(front) - len(end)) // (len(step) + 1)
    return front + ",".join([step] * count) + end


def log_step():
    random.seed(1)
    clause = ", ".join(str(random.choice((1, -1)) * random.randint(1, 99_999)) for _ in range(4))
    hints = ", ".join(str(random.randint(1, 99_999)) for _ in range(6))
    return f"([{clause}], [{hints}])"


def many(count, rule):
    return "[" + ",\n".join([rule] * count) + "]"


def deep():
    """16 opcodes of one free size over two variables."""
    side = "a"
    for at in range(16):
        side = f"('{'ineg' if at % 2 else 'inot'}', {side})"
    return f"({side}, a)"


# What is read, the text, the seconds that it may take, whether its memory has a limit, and the status.
PARTS = (
    ("64 MiB of logs", lambda: with_log(log_step()), 5.0, True, 6),
    ("64 MiB of empty clauses", lambda: with_log("([],[])"), 5.0, True, 6),
    ("4,096 rules by cases of 8 bits", lambda: many(4_096, f"{RULE}, by * cases"), 1.0, False, 0),
    ("64 trials of 65,536 tuples", lambda: many(64, "(('iadd', ('ixor', 'a@8', 'b@8'), ('iand', a, b)), ('ior', a, b)), by * cases"), 1.28, False, 0),
    ("1,000 rules of 16 opcodes", lambda: many(1_000, deep()), 1.0, False, 6),
)


def run_once(rules):
    """The status, the seconds of processor time, and the most memory that the program held, in MiB."""
    process = subprocess.Popen([PROGRAM, "check", rules], stdin=subprocess.DEVNULL, stdout=subprocess.DEVNULL, stderr=subprocess.DEVNULL)
    _, status, usage = os.wait4(process.pid, 0)
    process.returncode = os.waitstatus_to_exitcode(status)
    return process.returncode, usage.ru_utime + usage.ru_stime, usage.ru_maxrss / 1024


def timed(text, runs, wanted):
    """The least time and the most memory of so many runs, or None where one ended otherwise."""
    best, most = None, 0.0
    with tempfile.NamedTemporaryFile("w", suffix=".rules") as rules:
        rules.write(text)
        rules.flush()
        for _ in range(runs):
            status, taken, memory = run_once(rules.name)
            if status != wanted:
                print(f"status {status}, not {wanted}", file=sys.stderr)
                return None
            best = taken if best is None else min(best, taken)
            most = max(most, memory)
    return best, most


def main():
    runs = int(sys.argv[1]) if len(sys.argv) > 1 else 3
    if not os.path.exists(PROGRAM):
        print(f"{PROGRAM} is not there: run rt ci first", file=sys.stderr)
        sys.exit(2)
    failed = False
    print(f"{'part':<32} {'MiB of text':>11} {'seconds':>9} {'limit':>6} {'MiB':>7}")
    for name, make, limit, is_small, wanted in PARTS:
        text = make()
        told = timed(text, runs, wanted)
        if told is None:
            failed = True
            continue
        size = len(text) / 1_048_576
        memory = f"{told[1]:.1f}" if is_small else ""
        print(f"{name:<32} {size:>11.1f} {told[0]:>9.3f} {limit:>6.2f} {memory:>7}")
        failed |= told[0] >= limit or (is_small and told[1] >= 10 * size)
    sys.exit(1 if failed else 0)


if __name__ == "__main__":
    main()
