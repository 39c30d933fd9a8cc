"""Reading rule files, their faults, and the sizes at which rules stand."""
import unittest

import paths
from rule_text import App, Line, Lit, ReadFault, Var, is_formula, read_rules, variables, with_lines
from typings import SizeFault, typings


def widths(text):
    return [typed.widths for typed in typings(read_rules(f"[{text}]")[0])]


class Reading(unittest.TestCase):
    def test_terms_are_read(self):
        text = """[(('iadd@16(is_used_once)', '#a@16(is_not_const)', 0xfF,), a, "!options->x",), # a comment with a ' in it
               weight iadd 3,]"""
        (rule,) = read_rules(text)
        self.assertEqual(rule.search, App("iadd", 16, True, (Var("a", 16, True, "is_not_const"), Lit(255, False))))
        self.assertEqual(rule.replace, Var("a", None, False, None))
        self.assertEqual(rule.option, "!options->x")

    def test_truth_values_are_words_and_names_in_quotes(self):
        (rule,) = read_rules("[(('iand', 'True', False), 'True')]")
        self.assertEqual(rule.search.args, (Var("True", None, False, None), Lit(0, True)))

    def test_evidence_belongs_to_the_rule_before_it(self):
        text = """[((iand, a, a), a), by 0 cases, by * log [([3], [9, 5, 4]), ([], [10,2,9,6])], ((ior, a, a), a),
            by * derive [(19, [], rev, x = a, rev = ('ior', a, 1)), (calc, [1, 0], 7)]]"""
        first, second = read_rules(text)
        self.assertEqual(first.lines, [Line(0, "cases", None), Line(None, "log", [((3,), (9, 5, 4)), ((), (10, 2, 9, 6))])])
        self.assertEqual([line.kind for line in second.lines], ["derive"])
        self.assertEqual(text[second.end - 1], ")")

    def test_variables_stand_in_order_of_the_search_side(self):
        (rule,) = read_rules("[(('iadd', b, ('iadd', a, b)), a)]")
        self.assertEqual(variables(rule), ["b", "a"])

    def test_faults_have_places(self):
        rows = [
            ("[((iadd, a, 0), b)]", 16, "unbound variable"),
            ("[((iadd, a), a)]", 10, "wrong number of sources"),
            ("[((blub, a), a)]", 3, "unknown opcode"),
            ("[((mov, a), a)]", 3, "left out"),
            ("[(('iadd', 'a@int', 0), a)]", 11, "left out"),
            ("[((iadd, a, 0), 'a@8')]", 16, "unexpected"),
            ("[by * cases]", 1, "unexpected"),
            ("[((iadd, a, 0), a)", 18, "unexpected"),
            ("[((iadd, a, 0), a), by * log [([0], [])]]", 32, "unexpected"),
            ("[((iadd, a, 0), a), by * log [([2147483648], [])]]", 32, "unexpected"),
            ("[((iadd, a, 0), a), by * log [([1], [1 2])]]", 39, "unexpected"),
            ("[((iadd, a, 0), a, 'options')]", 19, "bad condition"),
            ("[weight mov 1]", 8, "bad weight"),
            ("[weight iadd 61]", 13, "bad weight"),
            ("[((iadd, a, 1x), a)]", 12, "bad number"),
            ("[((iadd, a, 18446744073709551616), a)]", 12, "bad number"),
            ("[((iadd, a, !0), a)]", 12, "bad byte"),
        ]
        for text, place, what in rows:
            with self.subTest(text), self.assertRaises(ReadFault) as caught:
                read_rules(text)
            self.assertEqual((caught.exception.place, caught.exception.what), (place, what), text)

    def test_formulas(self):
        for text in ("options->a", " !( options->a||options->b && !options->c ) ", "!!options->_x1"):
            self.assertTrue(is_formula(text), text)
        for text in ("", "options", "options->a options->b", "(options->a", "options->a)", "options->a &&", "options->a & options->b", "options->1"):
            self.assertFalse(is_formula(text), text)

    def test_lines_are_put_in_and_all_else_stays(self):
        self.assertEqual(with_lines("abcd", [(3, "YY"), (1, "X")]), "aXbcYYd")


class Sizes(unittest.TestCase):
    def test_typings_stand_in_order(self):
        self.assertEqual(widths("(('iand', a, a), a)"), [(w,) * 4 for w in (1, 8, 16, 32, 64)])
        self.assertEqual(widths("(('ishl', a, 300), a)"), [(w, w, 32, w) for w in (8, 16, 32, 64)])
        self.assertEqual(widths("(('iadd', a, 300), a)"), [(w,) * 4 for w in (16, 32, 64)])
        self.assertEqual(widths("(('u2u16', a), ('u2u16', ('i2i32', a)))"), [(16, w, 16, 32, w) for w in (8, 16, 32, 64)])
        self.assertEqual(widths("(('ieq', ('b2i8', a), 0), ('inot', a))"), [(1, 8, 1, 8, 1, 1)])

    def test_first_class_counts_slowest(self):
        found = widths("(('ior', ('ieq', 'a@8', b), ('ieq', c, d)), True)")
        self.assertEqual([(row[2], row[5]) for row in found], [(8, w) for w in (1, 8, 16, 32, 64)])

    def test_sizes_of_no_use(self):
        rows = [
            ("(('iadd', 'a@8', 300), a)", "no sizes"),
            ("(('iadd', 'a@8', 0), ('iadd', a, ('u2u8', 0)))", "node 3 has no size"),
            ("(('iand', ('iand', ('ieq', a, b), ('ieq', c, d)), ('ieq', e, f)), True)", "too many sizes"),
        ]
        for text, cause in rows:
            with self.assertRaises(SizeFault) as caught:
                widths(text)
            self.assertEqual(str(caught.exception), cause)


if __name__ == "__main__":
    unittest.main()
