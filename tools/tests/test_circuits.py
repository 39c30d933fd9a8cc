"""The clauses of rules: worked examples, and every circuit against the meaning of its opcode."""
import random
import unittest

import paths
import circuits
from opcodes import CONDITIONS, OPCODES, SIZES, meaning, signed
from rule_text import read_rules
from typings import typings


def clauses(text, typing=0):
    (rule,) = read_rules(f"[{text}]")
    return circuits.clauses_of(rule, typings(rule)[typing])


def propagated(clauses, true):
    """The literals that follow from clauses whose gates stand in order, or None where a clause is false."""
    true = set(true)
    for clause in clauses:
        left = {literal for literal in clause if -literal not in true}
        if not left:
            return None
        if len(left) == 1:
            true.add(left.pop())
    return true


def assigned(word, value):
    return [literal if value >> place & 1 else -literal for place, literal in enumerate(word)]


def number_of(word, true):
    assert all(literal in true or -literal in true for literal in word), "a literal without a value"
    return sum((literal in true) << place for place, literal in enumerate(word))


def words_at(size, some):
    """Corner words and random ones; few bits for many sources."""
    corners = [0, 1, (1 << size) - 1, 1 << (size - 1), (1 << (size - 1)) - 1]
    return [word % (1 << size) for word in corners] + [some.getrandbits(size) for _ in range(5)] + [some.getrandbits(size) & some.getrandbits(size)]


class Worked(unittest.TestCase):
    def test_xor_of_a_bit_with_itself(self):
        wanted = "1 0 -3 2 2 0 -3 -2 -2 0 3 -2 2 0 3 2 -2 0 -4 3 -1 0 -4 -3 1 0 4 -3 -1 0 4 3 1 0 4 0"
        found, last, words = clauses("(('ixor', 'a@1', a), False)")
        self.assertEqual(" ".join(" ".join(map(str, clause + (0,))) for clause in found), wanted)
        self.assertEqual((last, words), (4, {"a": [2]}))

    def test_and_of_a_bit_with_itself(self):
        wanted = [(1,), (-3, 2), (-3, 2), (3, -2, -2), (-4, 3, 2), (-4, -3, -2), (4, -3, 2), (4, 3, -2), (4,)]
        self.assertEqual(clauses("(('iand', 'a@1', a), a)")[0], wanted)

    def test_sum_of_two_bits_by_hand(self):
        # Per place: whether the bits differ (t), the bit of the sum, the carry. The first carry is false.
        circuit = circuits.Circuit()
        total, carry = circuit.add(circuit.word(2), circuit.word(2), circuits.FALSE)
        self.assertEqual((total, carry), ([7, 10], 11))
        self.assertEqual(circuit.clauses[1:5], [(-6, 2, 4), (-6, -2, -4), (6, -2, 4), (6, 2, -4)])
        self.assertEqual(circuit.clauses[5:9], [(-7, 6, -1), (-7, -6, 1), (7, -6, -1), (7, 6, 1)])
        self.assertEqual(circuit.clauses[9:13], [(-6, 1, 8), (-6, -1, -8), (6, -2, 8), (6, 2, -8)])

    def test_variables_conditions_sides_in_this_order(self):
        found, last, words = clauses("(('iand', b, '#a@8(is_upper_half_zero)'), ('iand', a, b))")
        self.assertEqual(words, {"b": list(range(2, 10)), "a": list(range(10, 18))})
        self.assertEqual(found[1:5], [(-14,), (-15,), (-16,), (-17,)])
        self.assertEqual(found[5:8], [(-18, 2), (-18, 10), (18, -2, -10)])
        self.assertEqual(found[29:32], [(-26, 10), (-26, 2), (26, -10, -2)])
        self.assertEqual(found[-1], tuple(range(34, 42)))
        self.assertEqual(last, 41)

    def test_repeated_term_is_built_again(self):
        once, twice = clauses("(('ineg', 'a@8'), a)")[1], clauses("(('iadd', ('ineg', 'a@8'), ('ineg', a)), a)")[1]
        self.assertEqual(twice - once, 24 + 24)

    def test_half_at_one_bit_is_the_empty_clause(self):
        self.assertEqual(clauses("(('iand', '#a@1(is_lower_half_zero)', a), a)")[0][1], ())

    def test_first_opcode_without_circuit(self):
        with self.assertRaises(circuits.NoCircuit) as caught:
            clauses("(('iadd', ('umod', 'a@8', 3), ('udiv', a, 1)), ('idiv', a, a))")
        self.assertEqual(str(caught.exception), "umod")


class Meanings(unittest.TestCase):
    def test_every_circuit_makes_the_word_of_its_opcode(self):
        some = random.Random(1)
        for opcode, make in circuits.CIRCUITS.items():
            row = OPCODES[opcode]
            for size in row.sizes or (None,):
                with self.subTest(opcode=opcode, size=size):
                    self.compare(opcode, make, size, some)

    def compare(self, opcode, make, size, some):
        row = OPCODES[opcode]
        sizes = [want or size for want in row.sources]
        result = row.result or size
        circuit = circuits.Circuit()
        words = [circuit.word(own) for own in sizes]
        made = make(circuit, result, *words)
        self.assertEqual(len(made), result)
        pools = [words_at(own, some) for own in sizes]
        tuples = [[some.choice(pool) for pool in pools] for _ in range(20)] + [[pool[at] for pool in pools] for at in range(5)]
        for values in tuples if opcode != "imul" else tuples[:8]:
            true = propagated(circuit.clauses, [literal for word, value in zip(words, values) for literal in assigned(word, value)])
            self.assertEqual(number_of(made, true), meaning(opcode, size, result, values), (opcode, size, values))

    def test_every_condition_asks_what_it_says(self):
        some = random.Random(2)
        for name, meets in CONDITIONS.items():
            for size in SIZES:
                circuit = circuits.Circuit()
                word = circuit.word(size)
                circuit.condition(name, word)
                powers = [1 << k for k in range(size)] + [-(1 << k) % (1 << size) for k in range(size)]
                for value in range(1 << size) if size < 16 else powers + words_at(size, some):
                    true = propagated(circuit.clauses, assigned(word, value))
                    self.assertEqual(true is not None, meets(size, value), (name, size, value))

    def test_conditions_by_their_words(self):
        for size in SIZES:
            powers = {1 << k for k in range(size - 1)}, {-(1 << k) for k in range(size)}
            for value in range(min(1 << size, 1024)):
                self.assertEqual(CONDITIONS["is_pos_power_of_two"](size, value), signed(value, size) in powers[0])
                self.assertEqual(CONDITIONS["is_neg_power_of_two"](size, value), signed(value, size) in powers[1])

    def test_corner_values_of_opcodes(self):
        rows = [
            ("idiv", 8, 8, (128, 255), 128), ("irem", 8, 8, (128, 255), 0), ("imod", 8, 8, (249, 2), 1), ("imod", 8, 8, (7, 254), 255),
            ("irem", 8, 8, (249, 2), 255), ("udiv", 8, 8, (7, 0), 0), ("ishl", 32, 32, (1, 33), 2), ("ishl", 8, 8, (1, 9), 2), ("ishl", 64, 64, (1, 64), 1),
            ("ishr", 8, 8, (128, 7), 255), ("urol", 8, 8, (0x81, 1), 3), ("uror", 8, 8, (0x81, 1), 0xC0), ("iabs", 8, 8, (128,), 128),
            ("iadd_sat", 8, 8, (127, 1), 127), ("isub_sat", 8, 8, (128, 1), 128), ("ihadd", 8, 8, (255, 0), 255), ("urhadd", 8, 8, (255, 254), 255),
            ("uabs_isub", 8, 8, (127, 128), 255), ("imul_high", 8, 8, (255, 255), 0), ("umul_high", 8, 8, (255, 255), 254),
            ("imul_2x32_64", None, 64, (0xFFFFFFFF, 1), (1 << 64) - 1), ("bit_count", 16, 32, (0xF00F,), 8), ("ufind_msb", 8, 32, (0,), 0xFFFFFFFF),
            ("find_lsb", 8, 32, (0,), 0xFFFFFFFF), ("find_lsb", 8, 32, (24,), 3), ("ifind_msb", None, 32, (0xFFFFFFFF,), 0xFFFFFFFF),
            ("ifind_msb", None, 32, (0xFFFFFFFE,), 0), ("bitfield_reverse", None, 32, (1,), 0x80000000), ("bfm", None, 32, (4, 8), 0xF00),
            ("bfi", None, 32, (0xF0, 3, 0xFFFF), 0xFF3F), ("bfi", None, 32, (0, 3, 7), 7), ("ubfe", None, 32, (0xABCD, 4, 8), 0xBC),
            ("ibfe", None, 32, (0xABCD, 4, 8), 0xFFFFFFBC), ("ibfe", None, 32, (0x80000000, 28, 8), 0xFFFFFFF8), ("ubfe", None, 32, (7, 0, 32), 0),
            ("bitfield_select", 8, 8, (0xF0, 0xAA, 0x55), 0xA5), ("i2i32", 8, 32, (128,), 0xFFFFFF80), ("u2u32", 8, 32, (128,), 128),
            ("extract_u8", 32, 32, (0xAABBCCDD, 2), 0xBB), ("extract_i8", 32, 32, (0xAABBCCDD, 3), 0xFFFFFFAA), ("extract_u8", 32, 32, (5, 4), 0),
            ("extract_i16", 32, 32, (0x80000000, 9), 0xFFFFFFFF), ("extract_u16", 8, 8, (200, 0), 200), ("uadd_carry", 8, 8, (255, 1), 1),
            ("usub_borrow", 8, 8, (1, 2), 1), ("pack_64_2x32_split", None, 64, (1, 2), 0x200000001),
            ("unpack_32_2x16_split_y", None, 16, (0xAABBCCDD,), 0xAABB),
        ]
        for opcode, size, result, values, wanted in rows:
            self.assertEqual(meaning(opcode, size, result, values), wanted, (opcode, values))

    def test_cases_find_the_first_difference(self):
        (rule,) = read_rules("[(('isub', 'a@8', 'b'), ('isub', b, a))]")
        self.assertEqual(circuits.first_difference(rule, typings(rule)[0]), {"a": 0, "b": 1})
        (rule,) = read_rules("[(('imul', 'a@8', '#b(is_pos_power_of_two)'), ('ishl', a, ('find_lsb', b)))]")
        self.assertIsNone(circuits.first_difference(rule, typings(rule)[0]))

    def test_words_at_which_sides_differ(self):
        (rule,) = read_rules("[(('iand', '#a@64(is_unsigned_multiple_of_4)', 7), 0)]")
        (typed,) = typings(rule)
        self.assertEqual([value for value in range(16) if circuits.differs(rule, typed, {"a": value})], [4, 12])


if __name__ == "__main__":
    unittest.main()
