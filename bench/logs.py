#!/usr/bin/env python3
"""Times logs as a solver makes them: bench/logs.py [RUNS]

Has the clauses of a rule with a product refuted by a solver (cadical, as docs/RULES.md tells under "Evidence by a solver"), and makes of the log that
comes of it one of 40,000 steps in about 17 MB of text: its steps stand there time and again, each time with hints to themselves, and only the last
time to the end. Writes the rule with this log, runs `nir_opt check` (crates/nir_opt/out/nir_opt, as the gate left it) on it RUNS times (3 if left
out), and prints the least processor time and the most memory; the same for a log without the steps, which is refused once the clauses are made, and
the hints a second in what lies between the two. Reading is part of it. The status is 1 where a run takes a second or more, or ten times the text or
more in memory, or the log is not accepted, and 2 where there is no program or no solver.

bench/logs.py --write FILE only writes the rule file.
"""
import os
import subprocess
import sys
import tempfile

HERE = os.path.dirname(os.path.realpath(__file__))
ROOT = os.path.dirname(HERE)
PROGRAM = f"{ROOT}/crates/nir_opt/out/nir_opt"
RULE = "(('imul', 'a@16', '#b(is_pos_power_of_two)'), ('ishl', a, ('find_lsb', b)))"
STEPS = 40_000
SECONDS = 1.0
sys.path.insert(0, f"{ROOT}/tools")

import circuits
import hints
import solve
from rule_text import read_rules, spelled_log
from typings import typings


def solved():
    """The clauses of the rule and the log that shows it."""
    (rule,) = read_rules(f"[{RULE}]")
    clauses, last, _ = circuits.clauses_of(rule, typings(rule)[0])
    return clauses, solve.Solver("cadical").solve(clauses, last).steps


def repeated(count, steps, wanted):
    """So many steps behind so many clauses: whole rounds of the steps without their end, the front of one more, and one with its end."""
    found, inner = [], len(steps) - 1
    while len(found) + len(steps) < wanted:
        shift = len(found)
        room = min(inner, wanted - len(steps) - len(found))
        found += [(clause, moved(count, told, shift)) for clause, told in steps[:room]]
    shift = len(found)
    return found + [(clause, moved(count, told, shift)) for clause, told in steps]


def moved(count, told, shift):
    return tuple(hint + shift if hint > count else hint for hint in told)


def with_log(steps):
    return f"[{RULE},\n by * log [\n{spelled_log(steps)}]]\n"


def run_once(path, wanted):
    """The seconds of processor time and the most memory in MiB, or None where the program says another thing than is wanted."""
    with tempfile.TemporaryFile() as out:
        process = subprocess.Popen([PROGRAM, "check", path], stdin=subprocess.DEVNULL, stdout=out, stderr=subprocess.DEVNULL)
        _, status, usage = os.wait4(process.pid, 0)
        process.returncode = os.waitstatus_to_exitcode(status)
        out.seek(0)
        said = out.read().decode().strip()
    if said != wanted:
        print(f"status {process.returncode}: {said}, not {wanted}", file=sys.stderr)
        return None
    return usage.ru_utime + usage.ru_stime, usage.ru_maxrss / 1024


def timed(text, wanted, runs):
    """The least time and the most memory of so many runs, or None."""
    with tempfile.NamedTemporaryFile("w", suffix=".rules") as rules:
        rules.write(text)
        rules.flush()
        told = [run_once(rules.name, wanted) for _ in range(runs)]
    if None in told:
        return None
    return min(seconds for seconds, _ in told), max(memory for _, memory in told)


def made():
    try:
        clauses, steps = solved()
    except solve.SolverFault as fault:
        print(fault, file=sys.stderr)
        sys.exit(2)
    found = repeated(len(clauses), steps, STEPS)
    fault = hints.log_fault(clauses, found)
    if fault:
        print(f"the log that was made is wrong: {fault}", file=sys.stderr)
        sys.exit(1)
    return clauses, found


def main():
    if sys.argv[1:2] == ["--write"]:
        with open(sys.argv[2], "w", encoding="ascii") as out:
            out.write(with_log(made()[1]))
        return
    runs = int(sys.argv[1]) if len(sys.argv) > 1 else 3
    if not os.path.exists(PROGRAM):
        print(f"{PROGRAM} is not there: run rt ci first", file=sys.stderr)
        sys.exit(2)
    clauses, steps = made()
    text = with_log(steps)
    size, named = len(text) / 1_048_576, sum(len(told) for _, told in steps)
    print(f"{len(clauses)} clauses, {len(steps)} steps, {named} hints, {size:.1f} MiB of text")
    whole = timed(text, "rule 0 accepted", runs)
    empty = timed(with_log([]), "rule 0 typing 0: log has no empty clause", runs)
    if not whole or not empty:
        sys.exit(1)
    print(f"{'read and checked':<24} {whole[0]:>7.3f} s, limit {SECONDS:.3f}   {whole[1]:>7.1f} MiB, limit {10 * size:.1f}")
    print(f"{'the clauses alone':<24} {empty[0]:>7.3f} s                {empty[1]:>7.1f} MiB")
    print(f"{'hints a second':<24} {named / max(whole[0] - empty[0], 1e-3) / 1e6:>7.2f} million, reading included")
    sys.exit(1 if whole[0] >= SECONDS or whole[1] >= 10 * size else 0)


if __name__ == "__main__":
    main()
