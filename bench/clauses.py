#!/usr/bin/env python3
"""Compares and times the clauses of rules: bench/clauses.py [--against PROGRAM FILE] [RUNS]

A program is called as `PROGRAM RULES RULE TYPING` and prints the clauses of a rule at a typing in DIMACS form. It is bin/rule_clauses if none is told. For each
rule of FILE, or of examples/unproved.rules, and each of its typings what it prints is compared with what tools/circuits.py makes, clause by clause and in
order; that of an opcode without a circuit is to be refused by name. Then the clauses of a rule with two products of 16 bits are timed, the least processor
time of RUNS runs (5 if left out), printing among it. The status is 1 where clauses differ or the time is past its limit, and 2 where there is no program.
"""
import os
import subprocess
import sys
import tempfile

HERE = os.path.dirname(os.path.realpath(__file__))
ROOT = os.path.dirname(HERE)
PROGRAM = f"{ROOT}/bin/rule_clauses"
EXAMPLES = f"{ROOT}/examples/unproved.rules"
LIMIT = 0.05
TWO_PRODUCTS = "[(('imul', 'a@16', b), ('imul', b, a))]"
sys.path.insert(0, f"{ROOT}/tools")

import circuits
from rule_text import read_rules
from typings import SizeFault, typings


def run_once(words):
    """The status, both outputs, and the seconds of processor time."""
    with tempfile.TemporaryFile() as out, tempfile.TemporaryFile() as told:
        process = subprocess.Popen(words, stdin=subprocess.DEVNULL, stdout=out, stderr=told)
        _, status, usage = os.wait4(process.pid, 0)
        process.returncode = os.waitstatus_to_exitcode(status)
        out.seek(0)
        told.seek(0)
        return process.returncode, out.read().decode(), told.read().decode(), usage.ru_utime + usage.ru_stime


def parsed(text):
    """The two numbers of the head of a DIMACS text, and its clauses."""
    head, numbers = None, []
    for line in text.splitlines():
        words = line.split()
        if words[:2] == ["p", "cnf"]:
            head = tuple(map(int, words[2:]))
        elif words and words[0] != "c":
            numbers += map(int, words)
    clauses, clause = [], []
    for number in numbers:
        if number:
            clause.append(number)
        else:
            clauses.append(tuple(clause))
            clause = []
    return head, clauses + [tuple(clause)] * bool(clause)


def difference(rule, typed, status, out, told):
    """How the answer of the program differs from the clauses of tools/circuits.py, or None."""
    try:
        clauses, last, _ = circuits.clauses_of(rule, typed)
    except circuits.NoCircuit as missing:
        return None if status != 0 and f"no circuit for {missing}" in told else f"no circuit for {missing} wanted, status {status}: {told.strip()}"
    if status != 0:
        return f"status {status}: {told.strip()}"
    head, found = parsed(out)
    for number, (wanted, is_there) in enumerate(zip(clauses, found), 1):
        if wanted != is_there:
            return f"clause {number} is {is_there} and not {wanted}"
    if len(found) != len(clauses):
        return f"{len(found)} clauses and not {len(clauses)}"
    return None if head == (last, len(clauses)) else f"the head says {head} and not {(last, len(clauses))}"


def compare(program, path):
    """How many rules and typings were compared, and how many differ."""
    with open(path, encoding="latin-1") as read:
        rules = read_rules(read.read())
    count = differing = clauses = 0
    for rule in rules:
        try:
            found = typings(rule)
        except SizeFault:
            continue
        for number, typed in enumerate(found):
            status, out, told, _ = run_once([program, path, str(rule.number), str(number)])
            count += 1
            clauses += out.count("\n")
            fault = difference(rule, typed, status, out, told)
            if fault:
                differing += 1
                print(f"rule {rule.number} typing {number}: {fault}", file=sys.stderr)
    print(f"{len(rules)} rules, {count} typings, {clauses} lines compared: {differing} differ")
    return differing == 0 and count > 0


def timed(program, runs):
    """The least time of the clauses of two products, or None where they are wrong."""
    (rule,) = read_rules(TWO_PRODUCTS)
    with tempfile.NamedTemporaryFile("w", suffix=".rules") as rules:
        rules.write(TWO_PRODUCTS)
        rules.flush()
        told = [run_once([program, rules.name, "0", "0"]) for _ in range(runs)]
    fault = difference(rule, typings(rule)[0], *told[0][:3])
    if fault:
        print(f"two products: {fault}", file=sys.stderr)
        return False
    best = min(one[3] for one in told)
    print(f"two products of 16 bits: {best:.3f} seconds, limit {LIMIT:.3f}")
    return best < LIMIT


def main():
    words, program, path = sys.argv[1:], PROGRAM, EXAMPLES
    if words[:1] == ["--against"]:
        program, path, words = words[1], words[2], words[3:]
    if not os.path.exists(program):
        print(f"{program} is not there", file=sys.stderr)
        sys.exit(2)
    is_same = compare(program, path)
    is_quick = timed(program, int(words[0]) if words else 5)
    sys.exit(0 if is_same and is_quick else 1)


if __name__ == "__main__":
    main()
