"""Logs: what is wrong with one, and how proofs become logs."""
import itertools
import random
import unittest

import paths
import hints

BIT_AND_BIT = [(1,), (-3, 2), (-3, 2), (3, -2, -2), (-4, 3, 2), (-4, -3, -2), (4, -3, 2), (4, 3, -2), (4,)]
XOR = [(1,), (-3, 2, 2), (-3, -2, -2), (3, -2, 2), (3, 2, -2), (-4, 3, -1), (-4, -3, 1), (4, -3, -1), (4, 3, 1), (4,)]
# All clauses over two variables.
FOUR = [(1, 2), (1, -2), (-1, 2), (-1, -2)]


def all_clauses(count):
    return [tuple(v if sign else -v for v, sign in enumerate(signs, 1)) for signs in itertools.product((True, False), repeat=count)]


class Checking(unittest.TestCase):
    def test_logs_by_hand(self):
        rows = [
            (XOR, [((), (1, 10, 6, 2, 3))], None),
            (XOR, [((), (2, 1, 10, 6, 2, 3))], "log step 0: not a unit"),
            (XOR, [((), (11,))], "log step 0: bad hint"),
            (XOR, [((), (0,))], "log step 0: bad hint"),
            (XOR, [((), (1, 10, 6, 2, 3, 99))], None),
            (BIT_AND_BIT, [((3,), (9, 5, 4)), ((), (10, 2, 9, 6))], None),
            (BIT_AND_BIT, [((3,), (9, 5)), ((), (10, 2, 9, 6))], "log step 0: not a unit"),
            (BIT_AND_BIT, [((3,), (9, 5, 4)), ((), (11, 2, 9, 6))], "log step 1: bad hint"),
            (BIT_AND_BIT, [], "log has no empty clause"),
            (BIT_AND_BIT, [((3,), (9, 5, 4))], "log has no empty clause"),
            (FOUR, [((1, -1), (1,)), ((), (1,))], "log step 0: not a unit"),
            (FOUR, [((1,), (1, 2)), ((), (5, 3, 4))], None),
            (FOUR, [((1,), (1, 2)), ((), (3, 4))], "log step 1: not a unit"),
            ([()], [((), (1,))], None),
        ]
        for clauses, steps, fault in rows:
            self.assertEqual(hints.log_fault(clauses, steps), fault, steps)


class Making(unittest.TestCase):
    def assert_good(self, clauses, steps):
        self.assertIsNone(hints.log_fault(clauses, steps))

    def test_proof_without_hints(self):
        steps = hints.log_of_drat(FOUR, 2, ["1 0", "d 1 2 0", "0"])
        self.assert_good(FOUR, steps)
        self.assertEqual(steps[-1][0], ())

    def test_clauses_that_propagate_to_the_end(self):
        self.assert_good(XOR, hints.log_of_drat(XOR, 4, []))
        self.assert_good([(1,), (-1,)], hints.log_of_drat([(1,), (-1,)], 1, ["0"]))
        self.assert_good([()], hints.log_of_drat([()], 1, ["0"]))

    def test_unused_clauses_are_cut(self):
        clauses = FOUR + [(3, 4), (-3, 4)]
        steps = hints.log_of_drat(clauses, 4, ["4 0", "1 0", "0"])
        self.assert_good(clauses, steps)
        self.assertNotIn((4,), [clause for clause, _ in steps])

    def test_clause_is_cut_to_what_it_needs(self):
        clauses = all_clauses(2) + [(3, 4, 5)]
        steps = hints.log_of_drat(clauses, 5, ["1 4 5 0", "0"])
        self.assert_good(clauses, steps)
        self.assertEqual(steps[0][0], (1,))

    def test_clauses_with_a_literal_twice_and_with_both(self):
        clauses = [(1, 1, 2), (-2, 2), (-2, -2), (-1, -1)]
        self.assert_good(clauses, hints.log_of_drat(clauses, 2, []))

    def test_deletion_of_a_clause_that_is_not_there(self):
        self.assert_good(FOUR, hints.log_of_drat(FOUR, 2, ["d 1 0", "d 7 8 0", "1 0", "0"]))

    def test_new_variable_is_refused(self):
        clauses = all_clauses(3)
        with self.assertRaisesRegex(hints.NoHints, "clause 1 of the proof .* RAT"):
            hints.log_of_drat(clauses, 4, ["4 1 0", "0"])
        with self.assertRaisesRegex(hints.NoHints, "clause 2 of the proof has a new variable.* RAT"):
            hints.log_of_drat(clauses, 3, ["1 2 0", "-4 1 0", "0"])
        with self.assertRaisesRegex(hints.NoHints, "clause 9 .* RAT"):
            hints.log_of_lrat(clauses, ["9 4 1 0 -1 2 0"])

    def test_proof_without_end_is_refused(self):
        for make in (lambda lines: hints.log_of_drat(all_clauses(3), 3, lines), lambda lines: hints.log_of_lrat(all_clauses(3), lines)):
            with self.assertRaisesRegex(hints.NoHints, "no empty clause"):
                make([])

    def test_proof_with_hints(self):
        steps = hints.log_of_lrat(FOUR, ["7 1 0 1 2 0", "7 d 1 2 0", "9 2 0 3 7 0", "12 0 7 3 4 0"])
        self.assertEqual(steps, [((1,), (1, 2)), ((), (5, 3, 4))])
        self.assert_good(FOUR, steps)

    def test_hints_that_say_nothing_new_are_left_out(self):
        steps = hints.log_of_lrat(FOUR, ["5 1 0 1 2 0", "6 0 5 1 3 4 0"])
        self.assertEqual(steps[-1], ((), (5, 3, 4)))

    def test_hints_that_lead_nowhere_are_refused(self):
        with self.assertRaisesRegex(hints.NoHints, "clause 6 .* does not follow by its hints"):
            hints.log_of_lrat(FOUR, ["5 1 0 1 2 0", "6 0 5 0"])

    def test_hint_that_names_no_clause_is_refused(self):
        with self.assertRaisesRegex(hints.NoHints, "clause 6 .* has a hint that is no clause"):
            hints.log_of_lrat(FOUR, ["6 1 0 1 7 0"])

    def test_proofs_of_a_small_solver(self):
        # A search by splitting writes a proof: the negation of each path that fails, the inner ones first.
        some = random.Random(3)
        made = 0
        while made < 40:
            clauses = [tuple(some.choice((1, -1)) * v for v in some.sample(range(1, 9), 3)) for _ in range(60)]
            lines = split(clauses, [])
            if lines is not None:
                steps = hints.log_of_drat(clauses, 8, lines)
                self.assert_good(clauses, steps)
                made += 1


def split(clauses, path):
    """The lines that refute clauses under these literals, or None where they can be met."""
    if any(all(-literal in path for literal in clause) for clause in clauses):
        return [" ".join(str(-literal) for literal in path) + " 0"]
    if len(path) == 8:
        return None
    found = []
    for literal in (len(path) + 1, -len(path) - 1):
        lines = split(clauses, path + [literal])
        if lines is None:
            return None
        found += lines
    return found + [" ".join([str(-literal) for literal in path] + ["0"])]


if __name__ == "__main__":
    unittest.main()
