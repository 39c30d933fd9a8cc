"""The numbered clauses of a rule at a typing (docs/RULES.md, "Clauses of a rule"), and the trial of all cases.

A literal is a number: k for variable k, -k for its negation. Variable 1 is true. A word is a list of literals, lowest first. Nothing is simplified, so
the numbers are those of the program.
"""
import itertools

from opcodes import CONDITIONS, meaning
from rule_text import App, Var, in_preorder

TRUE, FALSE = 1, -1
MOST_CASES = 16


class NoCircuit(Exception):
    """An opcode without a circuit."""


def number(value, w):
    return [TRUE if value >> i & 1 else FALSE for i in range(w)]


def negated(word):
    return [-x for x in word]


class Circuit:
    """Clauses so far, and gates and blocks that add to them."""

    def __init__(self):
        self.last = 1
        self.clauses = [(TRUE,)]

    def fresh(self):
        self.last += 1
        return self.last

    def word(self, w):
        return [self.fresh() for _ in range(w)]

    # ---- gates

    def both(self, p, q):
        g = self.fresh()
        self.clauses += [(-g, p), (-g, q), (g, -p, -q)]
        return g

    def xor(self, p, q):
        g = self.fresh()
        self.clauses += [(-g, p, q), (-g, -p, -q), (g, -p, q), (g, p, -q)]
        return g

    def mux(self, s, p, q):
        g = self.fresh()
        self.clauses += [(-s, -p, g), (-s, p, -g), (s, -q, g), (s, q, -g)]
        return g

    # ---- blocks; loops over bits run from bit 0 up

    def and_word(self, x, y):
        return [self.both(p, q) for p, q in zip(x, y)]

    def xor_word(self, x, y):
        return [self.xor(p, q) for p, q in zip(x, y)]

    def mux_word(self, s, x, y):
        return [self.mux(s, p, q) for p, q in zip(x, y)]

    def selection(self, m, x, y):
        return [self.mux(s, p, q) for s, p, q in zip(m, x, y)]

    def add(self, x, y, c):
        """The sum and the last carry."""
        total = []
        for p, q in zip(x, y):
            t = self.xor(p, q)
            total.append(self.xor(t, c))
            c = self.mux(t, c, p)
        return total, c

    def sub(self, x, y):
        return self.add(x, negated(y), TRUE)

    def neg(self, x):
        return self.add(negated(x), number(0, len(x)), TRUE)[0]

    def ult(self, x, y):
        return -self.sub(x, y)[1]

    def ilt(self, x, y):
        return self.ult(x[:-1] + [-x[-1]], y[:-1] + [-y[-1]])

    def eq(self, x, y):
        e = TRUE
        for p, q in zip(x, y):
            e = self.both(e, -self.xor(p, q))
        return e

    def moved(self, x, k, move):
        """The word moved by the number that the low literals of k stand for, one power of two after the other."""
        for j in range(len(x).bit_length() - 1):
            x = self.mux_word(k[j], move(x, 1 << j), x)
        return x

    def up(self, x, k, fill):
        return self.moved(x, k, lambda y, n: ([fill] * n + y)[: len(y)])

    def down(self, x, k, fill):
        return self.moved(x, k, lambda y, n: (y + [fill] * n)[n:])

    def product(self, x, y):
        total = number(0, len(x))
        for i, q in enumerate(y):
            part = [FALSE] * i + [self.both(p, q) for p in x[: len(x) - i]]
            total = self.add(total, part, FALSE)[0]
        return total

    def lowest(self, x):
        place = number(-1, 32)
        for i in reversed(range(len(x))):
            place = self.mux_word(x[i], number(i, 32), place)
        return place

    # ---- conditions

    def condition(self, name, x):
        if name == "is_pos_power_of_two":
            self.clauses += self.single(x, self.sub(x, number(1, len(x)))[0])
            self.clauses += [tuple(x[:-1]), (-x[-1],)]
        elif name == "is_neg_power_of_two":
            n = self.neg(x)
            self.clauses += self.single(n, self.sub(n, number(1, len(x)))[0])
            self.clauses.append(tuple(n))
        elif name == "is_unsigned_multiple_of_4":
            self.clauses += [(-p,) for p in x[:2]]
        elif name in ("is_upper_half_zero", "is_lower_half_zero"):
            half = len(x) // 2
            zero = x[half:] if name == "is_upper_half_zero" else x[:half]
            self.clauses += [(-p,) for p in zero] if half else [()]

    def single(self, x, below):
        """That no bit is 1 both in a word and in the word less 1."""
        return [(-z,) for z in self.and_word(x, below)]


def low_zeros(x, n):
    return (x + [FALSE] * n)[:n]


def low_signs(x, n):
    return (x + [x[-1]] * n)[:n]


def both_ways(least, most, less):
    """The circuits of a minimum and a maximum by one comparison."""
    return {
        least: lambda c, d, x, y: c.mux_word(less(c, x, y), x, y),
        most: lambda c, d, x, y: c.mux_word(less(c, x, y), y, x),
    }


def add_sat(c, d, x, y):
    total, carry = c.add(x, y, FALSE)
    return c.mux_word(carry, [TRUE] * d, total)


def sub_sat(c, d, x, y):
    rest, carry = c.sub(x, y)
    return c.mux_word(carry, rest, number(0, d))


# For each opcode the word that it makes, from a Circuit, the size of the result and the words of its sources.
CIRCUITS = {
    "iadd": lambda c, d, x, y: c.add(x, y, FALSE)[0],
    "isub": lambda c, d, x, y: c.sub(x, y)[0],
    "ineg": lambda c, d, x: c.neg(x),
    "imul": lambda c, d, x, y: c.product(x, y),
    "iabs": lambda c, d, x: c.mux_word(x[-1], c.neg(x), x),
    "ishl": lambda c, d, x, k: c.up(x, k, FALSE),
    "ushr": lambda c, d, x, k: c.down(x, k, FALSE),
    "ishr": lambda c, d, x, k: c.down(x, k, x[-1]),
    "urol": lambda c, d, x, k: c.moved(x, k, lambda y, n: y[-n:] + y[:-n]),
    "uror": lambda c, d, x, k: c.moved(x, k, lambda y, n: y[n:] + y[:n]),
    "inot": lambda c, d, x: negated(x),
    "iand": lambda c, d, x, y: c.and_word(x, y),
    "ior": lambda c, d, x, y: negated(c.and_word(negated(x), negated(y))),
    "ixor": lambda c, d, x, y: c.xor_word(x, y),
    "ilt": lambda c, d, x, y: [c.ilt(x, y)],
    "ige": lambda c, d, x, y: [-c.ilt(x, y)],
    "ult": lambda c, d, x, y: [c.ult(x, y)],
    "uge": lambda c, d, x, y: [-c.ult(x, y)],
    "ieq": lambda c, d, x, y: [c.eq(x, y)],
    "ine": lambda c, d, x, y: [-c.eq(x, y)],
    "bcsel": lambda c, d, b, x, y: c.mux_word(b[0], x, y),
    **both_ways("imin", "imax", Circuit.ilt),
    **both_ways("umin", "umax", Circuit.ult),
    "uadd_carry": lambda c, d, x, y: low_zeros([c.add(x, y, FALSE)[1]], d),
    "usub_borrow": lambda c, d, x, y: low_zeros([c.ult(x, y)], d),
    "uadd_sat": add_sat,
    "usub_sat": sub_sat,
    "find_lsb": lambda c, d, x: c.lowest(x),
    "bitfield_select": lambda c, d, m, x, y: c.selection(m, x, y),
    "pack_64_2x32_split": lambda c, d, x, y: x + y,
    "pack_32_2x16_split": lambda c, d, x, y: x + y,
}
CIRCUITS.update((f"{kind}{bits}", widen) for kind, widen in (("i2i", low_signs), ("u2u", low_zeros), ("b2i", low_zeros)) for bits in (8, 16, 32, 64))
for _name in [name for name in CIRCUITS if name[:3] in ("i2i", "u2u", "b2i")]:
    CIRCUITS[_name] = lambda c, d, x, widen=CIRCUITS[_name]: widen(x, d)
for _name in ("unpack_64_2x32_split", "unpack_32_2x16_split"):
    CIRCUITS[f"{_name}_x"] = lambda c, d, x: x[:d]
    CIRCUITS[f"{_name}_y"] = lambda c, d, x: x[d:]


def without_circuit(rule):
    """The first opcode in preorder, search side first, that has no circuit, or None."""
    for side in (rule.search, rule.replace):
        for node in in_preorder(side):
            if isinstance(node, App) and node.op not in CIRCUITS:
                return node.op
    return None


def clauses_of(rule, typed):
    """The clauses of a rule at a typing, the number of their variables, and the word of each of the rule's variables."""
    missing = without_circuit(rule)
    if missing:
        raise NoCircuit(missing)
    circuit = Circuit()
    words = {name: circuit.word(size) for name, size in typed.sizes.items()}
    for node in in_preorder(rule.search):
        if isinstance(node, Var) and node.cond:
            circuit.condition(node.cond, words[node.name])
    search, replace = built(circuit, typed.search, words), built(circuit, typed.replace, words)
    circuit.clauses.append(tuple(circuit.xor(p, q) for p, q in zip(search, replace)))
    return circuit.clauses, circuit.last, words


def built(circuit, node, words):
    """The word of a node, each after its sources; a repeated term is built again."""
    if node.kind == "lit":
        return number(node.head, node.size)
    if node.kind == "var":
        return words[node.head]
    sources = [built(circuit, source, words) for source in node.args]
    return CIRCUITS[node.head](circuit, node.size, *sources)


# ---- values


def value_of(node, values):
    """The value of a node, where its variables have these."""
    if node.kind == "lit":
        return node.head
    if node.kind == "var":
        return values[node.head]
    return meaning(node.head, node.unsized, node.size, [value_of(source, values) for source in node.args])


def conditions(rule):
    """The conditions of a rule: names of variables and what is asked of them."""
    return [(node.name, CONDITIONS[node.cond]) for node in in_preorder(rule.search) if isinstance(node, Var) and node.cond]


def are_met(rule, typed, values):
    return all(meets(typed.sizes[name], values[name]) for name, meets in conditions(rule))


def differs(rule, typed, values):
    """Whether the sides differ at values that meet the conditions."""
    return are_met(rule, typed, values) and value_of(typed.search, values) != value_of(typed.replace, values)


def free_bits(typed):
    return sum(typed.sizes.values())


def compiled(node):
    """A function from the values of the variables to the value of a node, which is quicker than `value_of` where there are many."""
    if node.kind == "lit":
        return lambda values: node.head
    if node.kind == "var":
        return lambda values: values[node.head]
    sources = [compiled(source) for source in node.args]
    if len(sources) == 1:
        (one,) = sources
        return lambda values: meaning(node.head, node.unsized, node.size, (one(values),))
    return lambda values: meaning(node.head, node.unsized, node.size, [source(values) for source in sources])


def first_difference(rule, typed):
    """The first values at which the sides differ, the first variable counting slowest, or None. There are at most 16 bits of variables."""
    asked = [(name, typed.sizes[name], meets) for name, meets in conditions(rule)]
    search, replace = compiled(typed.search), compiled(typed.replace)
    for tuple_ in itertools.product(*(range(1 << size) for size in typed.sizes.values())):
        values = dict(zip(typed.sizes, tuple_))
        if all(meets(size, values[name]) for name, size, meets in asked) and search(values) != replace(values):
            return values
    return None
