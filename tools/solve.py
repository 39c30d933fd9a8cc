"""Runs a SAT solver of the user's machine on the clauses of a rule, and has its proof made a log.

Any solver will do that is called as `SOLVER CLAUSES PROOF`, ends with 10 or 20, prints its model in `v` lines and writes a DRAT proof in text; so do cadical
and kissat under `--no-binary`. A cadical that knows `--lrat` tells the hints itself. Where `drat-trim` is on the path, it finds them.
"""
import os
import shutil
import subprocess
import tempfile
from collections import namedtuple

import hints

# Values of the variables at which all clauses are true, by number; or the steps of a log.
Model = namedtuple("Model", "values")
Log = namedtuple("Log", "steps")


class SolverFault(Exception):
    """A solver that is not there, or gave no answer."""


def dimacs(clauses, variables):
    lines = [f"p cnf {variables} {len(clauses)}"]
    lines += [" ".join(map(str, clause + (0,))) for clause in clauses]
    return "\n".join(lines) + "\n"


def flags_of(solver):
    """The words for a proof in text without new variables, and whether it has hints. They go by what the solver says of itself."""
    name = os.path.basename(solver)
    if "cadical" not in name and "kissat" not in name:
        return [], False
    told = subprocess.run([solver, "--help"], stdin=subprocess.DEVNULL, capture_output=True, text=True).stdout
    words = ["-q", "--no-binary"]
    # Lucky guesses cost little to the solver, and much where they leave traces in its proof.
    if "--lucky" in told:
        words.append("--no-lucky")
    # Factoring brings in new variables, whose clauses do not follow by unit propagation.
    if "--factor" in told:
        words.append("--no-factor")
    has_hints = "--lrat" in told
    return words + ["--lrat"] * has_hints, has_hints


class Solver:
    """A solver by name or path."""

    def __init__(self, name, seconds=None, trims=True):
        self.path = shutil.which(name)
        if not self.path:
            raise SolverFault(f"no solver {name}: install it (apt-get install cadical), or name another by --solver")
        self.seconds = seconds
        self.words, self.has_hints = flags_of(self.path)
        self.trimmer = shutil.which("drat-trim") if trims else None

    def solve(self, clauses, variables):
        """A Model or a Log."""
        with tempfile.TemporaryDirectory() as folder:
            problem, proof = f"{folder}/clauses.cnf", f"{folder}/proof"
            with open(problem, "w", encoding="ascii") as out:
                out.write(dimacs(clauses, variables))
            done = self.call([self.path, *self.words, problem, proof])
            if done.returncode == 10:
                return Model(model_of(done.stdout, variables))
            if done.returncode != 20:
                raise SolverFault(f"the solver ended with {done.returncode}: {(done.stderr or done.stdout).strip()[-200:]}")
            if self.has_hints:
                return Log(hints.log_of_lrat(clauses, lines_of(proof)))
            if self.trimmer:
                steps = self.trim(clauses, problem, proof, f"{folder}/hints")
                if steps is not None:
                    return Log(steps)
            return Log(hints.log_of_drat(clauses, variables, lines_of(proof)))

    def call(self, words):
        try:
            return subprocess.run(words, stdin=subprocess.DEVNULL, capture_output=True, text=True, timeout=self.seconds)
        except subprocess.TimeoutExpired:
            raise SolverFault(f"no answer in {self.seconds} seconds") from None

    def trim(self, clauses, problem, proof, told):
        """The log by drat-trim, or None where it tells none."""
        done = self.call([self.trimmer, problem, proof, "-L", told])
        if "s VERIFIED" not in done.stdout or not os.path.exists(told):
            return None
        try:
            return hints.log_of_lrat(clauses, lines_of(told))
        except hints.NoHints:
            return None


def lines_of(path):
    """The lines of a proof in text."""
    with open(path, "rb") as proof:
        front = proof.read(4096)
        if not set(front) <= set(b"0123456789- d\n\rc\t"):
            raise SolverFault("the solver's proof is not in text")
    with open(path, encoding="ascii") as proof:
        return proof.read().split("\n")


def model_of(text, variables):
    """The values of the variables of a model, True where nothing is said."""
    values = [True] * (variables + 1)
    for line in text.splitlines():
        if line.startswith("v "):
            for literal in map(int, line[2:].split()):
                values[abs(literal)] = literal > 0
    return values


def word_of(values, literals):
    """The number that a word of literals is under a model."""
    return sum((values[abs(literal)] == (literal > 0)) << place for place, literal in enumerate(literals))
