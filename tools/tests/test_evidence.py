"""The script: what it writes, and what it refuses. Where there is no cadical, the parts that need a solver are passed over."""
import os
import shutil
import subprocess
import sys
import tempfile
import unittest

import paths
import circuits
import hints
import solve
from rule_text import read_rules
from typings import typings

SCRIPT = f"{paths.TOOLS}/evidence"
HAS_SOLVER = shutil.which("cadical") is not None


def evidence(text, *words):
    """The status, the output and the lines on standard error."""
    with tempfile.NamedTemporaryFile("w", suffix=".rules") as rules:
        rules.write(text)
        rules.flush()
        done = subprocess.run([sys.executable, SCRIPT, rules.name, *words], stdin=subprocess.DEVNULL, capture_output=True, text=True)
    return done.returncode, done.stdout, done.stderr.splitlines()


def judged(text):
    """For each rule whether its evidence shows it at each typing, by a trial and by the check of logs of these tools."""
    return [all(map(lambda one: is_shown(rule, *one), enumerate(typings(rule)))) for rule in read_rules(text)]


def is_shown(rule, number, typed):
    chosen = [line for line in rule.lines if line.typing == number] + [line for line in rule.lines if line.typing is None]
    if not chosen or chosen[0].kind == "derive":
        return False
    if chosen[0].kind == "cases":
        return circuits.free_bits(typed) <= 16 and circuits.first_difference(rule, typed) is None
    return hints.log_fault(circuits.clauses_of(rule, typed)[0], chosen[0].steps) is None


class Writing(unittest.TestCase):
    def test_cases_need_no_solver(self):
        status, out, told = evidence("[(('iadd', 'a@8', 0), a), # here\n (('inot', ('inot', 'a@1')), a)]", "--solver", "no-such-solver")
        self.assertEqual((status, told), (0, []))
        self.assertEqual(out, "[(('iadd', 'a@8', 0), a), by * cases, # here\n (('inot', ('inot', 'a@1')), a), by * cases]")

    def test_evidence_that_is_there_stays(self):
        text = "[weight isub 2, (('isub', 'a@8', b), a), by 7 cases,\n (('udiv', a, 1), a), by * log []]\n# end"
        self.assertEqual(evidence(text), (0, text, []))

    def test_file_is_written(self):
        with tempfile.TemporaryDirectory() as folder:
            self.assertEqual(evidence("[(('ineg', ('ineg', 'a@8')), a)]", "-o", f"{folder}/out"), (0, "", []))
            with open(f"{folder}/out", encoding="utf-8") as out:
                self.assertEqual(out.read(), "[(('ineg', ('ineg', 'a@8')), a), by * cases]")

    @unittest.skipUnless(HAS_SOLVER, "no cadical")
    def test_each_typing_has_its_line(self):
        status, out, _ = evidence("[(('isub', ('iadd', a, b), b), a)]")
        (rule,) = read_rules(out)
        self.assertEqual(status, 0)
        self.assertEqual([(line.typing, line.kind) for line in rule.lines], [(0, "cases"), (1, "log"), (2, "log"), (3, "log")])
        self.assertEqual(judged(out), [True])

    @unittest.skipUnless(HAS_SOLVER, "no cadical")
    def test_written_file_is_written_again_as_it_is(self):
        out = evidence("[(('ior', a, ('iand', a, b)), a), (('iand', '#a@32(is_upper_half_zero)', 0xffff), a)]")[1]
        self.assertEqual(judged(out), [True, True])
        self.assertEqual(evidence(out), (0, out, []))


class Refusing(unittest.TestCase):
    def test_first_difference_by_cases(self):
        text = "[(('isub', 'a@8', 'b'), ('isub', b, a)), (('iadd', 'a@8', 0), a)]"
        self.assertEqual(evidence(text), (1, "", ["rule 0 typing 0: sides differ at a = 0, b = 1"]))

    def test_others_are_written_where_the_script_keeps_going(self):
        text = "[(('isub', 'a@8', 'b'), ('isub', b, a)), (('iadd', 'a@8', 0), a)]"
        told = (1, text[:-1] + ", by * cases]", ["rule 0 typing 0: sides differ at a = 0, b = 1"])
        self.assertEqual(evidence(text, "--keep-going"), told)

    def test_no_variables(self):
        self.assertEqual(evidence("[(('iadd', 1, ('u2u8', 'a@8')), a)]")[2], ["rule 0 typing 0: sides differ at a = 0"])
        self.assertEqual(evidence("[(('ieq@1', ('iadd@8', 1, 1), 3), True)]")[2], ["rule 0 typing 0: sides differ"])

    def test_sizes_of_no_use(self):
        told = evidence("[(('iadd', 'a@8', 0), ('iadd', a, ('u2u8', 0)))]")
        self.assertEqual(told, (1, "", ["rule 0: node 3 has no size"]))

    def test_text_that_is_no_rule_file(self):
        status, out, told = evidence("[(('iadd', a, 0), b)]")
        self.assertEqual((status, out), (2, ""))
        self.assertTrue(told[0].endswith("byte 18: unbound variable"), told)

    def test_solver_that_is_not_there(self):
        status, out, told = evidence("[(('iadd', a, 0), a)]", "--solver", "no-such-solver")
        self.assertEqual((status, out), (2, ""))
        self.assertIn("no solver no-such-solver", told[0])

    @unittest.skipUnless(HAS_SOLVER, "no cadical")
    def test_opcode_without_circuit(self):
        self.assertEqual(evidence("[(('udiv', a, 1), a)]"), (1, "", ["rule 0 typing 2: no circuit for udiv"]))

    @unittest.skipUnless(HAS_SOLVER, "no cadical")
    def test_wrong_examples_are_told(self):
        with open(f"{paths.ROOT}/examples/wrong.rules", encoding="utf-8") as read:
            text = read.read()
        status, out, told = evidence(text, "--keep-going")
        self.assertEqual((status, out, len(told)), (1, text, 6))
        self.assertEqual(told[0], "rule 0 typing 0: sides differ at a = 0, b = 1")
        self.assertEqual(told[2], "rule 2 typing 0: sides differ at a = 9223372036854775808")
        self.assertEqual(told[5], "rule 5 typing 0: no circuit for udiv")
        for number, (rule, line) in enumerate(zip(read_rules(text)[:5], told)):
            front, _, tail = line.partition(": sides differ at ")
            values = {name: int(value) for name, value in (part.split(" = ") for part in tail.split(", "))}
            self.assertEqual(front, f"rule {number} typing 0")
            self.assertTrue(circuits.differs(rule, typings(rule)[0], values), line)


class Solvers(unittest.TestCase):
    CLAUSES = [(1, 2), (1, -2), (-1, 2), (-1, -2)]

    def put(self, folder, name, body):
        """A shell script of this name."""
        with open(f"{folder}/{name}", "w", encoding="utf-8") as out:
            out.write(f"#!/bin/sh\n{body}\n")
        os.chmod(f"{folder}/{name}", 0o755)
        return f"{folder}/{name}"

    def run_fake(self, body, name="fake"):
        """What comes of a solver that is this shell script, on clauses that cannot be met."""
        with tempfile.TemporaryDirectory() as folder:
            return solve.Solver(self.put(folder, name, body), 1, trims=False).solve(self.CLAUSES, 2)

    def test_solver_that_tells_hints(self):
        body = """if [ "$1" = --help ]; then echo "--lrat=bool --factor=bool"; exit 0; fi
            [ "$*" != "${*% --lrat *}" ] && [ "$*" != "${*% --no-factor *}" ] || exit 3
            for last; do :; done; printf '5 1 0 1 2 0\\n6 0 5 3 4 0\\n' > $last; exit 20"""
        self.assertEqual(self.run_fake(body, "cadical").steps, [((1,), (1, 2)), ((), (5, 3, 4))])

    def test_trimmer_that_tells_hints(self):
        with tempfile.TemporaryDirectory() as folder:
            solver = solve.Solver(self.put(folder, "fake", "printf '1 0\\n0\\n' > $2; exit 20"), 1, trims=False)
            solver.trimmer = self.put(folder, "drat-trim", "echo 's VERIFIED'; printf '5 1 0 1 2 0\\n6 0 5 3 4 0\\n' > $4")
            self.assertEqual(solver.solve(self.CLAUSES, 2).steps, [((1,), (1, 2)), ((), (5, 3, 4))])
            # What it tells is of no use here: the script finds the hints itself.
            solver.trimmer = self.put(folder, "drat-trim", "echo 's VERIFIED'; echo '5 3 0 -1 2 0' > $4")
            self.assertIsNone(hints.log_fault(self.CLAUSES, solver.solve(self.CLAUSES, 2).steps))

    def test_answers_of_solvers(self):
        self.assertEqual(self.run_fake("echo 's SATISFIABLE'; echo 'v 1 -2'; echo 'v 0'; exit 10").values[1:], [True, False])
        self.assertEqual(self.run_fake("printf '1 0\\n0\\n' > $2; exit 20").steps[-1][0], ())

    def test_faults_of_solvers(self):
        rows = [
            ("echo broken >&2; exit 3", "the solver ended with 3: broken"),
            ("exec sleep 5", "no answer in 1 seconds"),
            ("printf 'a\\002\\000' > $2; exit 20", "not in text"),
        ]
        for body, cause in rows:
            with self.assertRaisesRegex(solve.SolverFault, cause):
                self.run_fake(body)

    def test_words_of_numbers(self):
        self.assertEqual(solve.dimacs([(1,), (-2, 3), ()], 3), "p cnf 3 3\n1 0\n-2 3 0\n0\n")
        self.assertEqual(solve.word_of([None, True, False, True], [1, 2, -3, 3]), 9)


if __name__ == "__main__":
    unittest.main()
