#!/usr/bin/env python3
"""Compares and times derivations: bench/derivations.py [RUNS]

Makes rule files whose evidence are derivations: one that goes through each law, in each direction and at each size at which it stands, and
derivations with a step that does not apply. A checker of its own, which follows docs/RULES.md and no code of the repository, tells what is
to come of each rule; what `nir_opt check` says (crates/nir_opt/out/nir_opt, as the gate left it, built by LLVM) is compared with that.
Then a derivation of 10,000 steps over terms of 33 nodes is timed, the least of RUNS runs (5 if left out). The status is 1 where a line
differs or the time is past its limit, and 2 where there is no program.

bench/derivations.py --rows prints the tables of crates/rule_tests/src/derivation_rows.rt, which hold the same rules.
bench/derivations.py --check FILE tells what is to come of the rules of a file: tuples, `by *` and derivations alone.
"""
import itertools
import os
import re
import subprocess
import sys
import tempfile
from collections import namedtuple

HERE = os.path.dirname(os.path.realpath(__file__))
PROGRAM = f"{os.path.dirname(HERE)}/crates/nir_opt/out/nir_opt"
LIMIT = 0.05
SIZES = (1, 8, 16, 32, 64)

# ---- opcodes: sizes of the unsized, sources, result, and the value at w bits


def signed(x, w):
    return x - (1 << w) if x >> (w - 1) else x


def towards_zero(x, y):
    return 0 if y == 0 else abs(x) // abs(y) * (1 if (x < 0) == (y < 0) else -1)


def by_signs(value):
    return lambda w, x, y: value(signed(x, w), signed(y, w))


OPS = {
    "iadd": ("A", "U U", "U", lambda w, x, y: x + y),
    "isub": ("A", "U U", "U", lambda w, x, y: x - y),
    "imul": ("A", "U U", "U", lambda w, x, y: x * y),
    "ineg": ("A", "U", "U", lambda w, x: -x),
    "idiv": ("A", "U U", "U", by_signs(towards_zero)),
    "irem": ("A", "U U", "U", by_signs(lambda x, y: x - y * towards_zero(x, y) if y else 0)),
    "udiv": ("A", "U U", "U", lambda w, x, y: x // y if y else 0),
    "umod": ("A", "U U", "U", lambda w, x, y: x % y if y else 0),
    "ishl": ("A", "U 32", "U", lambda w, x, y: x << y % w),
    "ushr": ("A", "U 32", "U", lambda w, x, y: x >> y % w),
    "inot": ("B", "U", "U", lambda w, x: ~x),
    "iand": ("B", "U U", "U", lambda w, x, y: x & y),
    "ior": ("B", "U U", "U", lambda w, x, y: x | y),
    "ixor": ("B", "U U", "U", lambda w, x, y: x ^ y),
    "ilt": ("A", "U U", "1", by_signs(lambda x, y: x < y)),
    "ige": ("A", "U U", "1", by_signs(lambda x, y: x >= y)),
    "ult": ("A", "U U", "1", lambda w, x, y: x < y),
    "uge": ("A", "U U", "1", lambda w, x, y: x >= y),
    "ieq": ("B", "U U", "1", lambda w, x, y: x == y),
    "ine": ("B", "U U", "1", lambda w, x, y: x != y),
    "bcsel": ("B", "1 U U", "U", lambda w, c, x, y: x if c else y),
    "imin": ("A", "U U", "U", by_signs(min)),
    "imax": ("A", "U U", "U", by_signs(max)),
    "umin": ("A", "U U", "U", lambda w, x, y: min(x, y)),
    "umax": ("A", "U U", "U", lambda w, x, y: max(x, y)),
    "find_lsb": ("A", "U", "32", lambda w, x: (x & -x).bit_length() - 1),
    "u2u16": ("A", "U", "16", lambda w, x: x),
}

CONDS = {
    "is_pos_power_of_two": lambda w, x: x in [1 << k for k in range(w - 1)],
    "is_neg_power_of_two": lambda w, x: signed(x, w) in [-(1 << k) for k in range(w)],
}

# ---- the laws: sizes, both sides, and the condition on c

LAWS = """
A iadd x y = iadd y x
A iadd (iadd x y) z = iadd x (iadd y z)
A iadd x 0 = x
A iadd x (ineg x) = 0
A isub x y = iadd x (ineg y)
A ineg (ineg x) = x
A ineg x = iadd (inot x) 1
A idiv x 1 = x
A imul x y = imul y x
A imul (imul x y) z = imul x (imul y z)
A imul x 0 = 0
A imul x 1 = x
A imul x (iadd y z) = iadd (imul x y) (imul x z)
A imul x -1 = ineg x
A imul x c = ishl x (find_lsb c) | is_pos_power_of_two
A imul x c = ineg (ishl x (find_lsb c)) | is_neg_power_of_two
B iand x y = iand y x
B iand (iand x y) z = iand x (iand y z)
B iand x x = x
B iand x 0 = 0
B iand x -1 = x
B ior x y = ior y x
B ior (ior x y) z = ior x (ior y z)
B ior x x = x
B ior x 0 = x
B ixor x y = ixor y x
B ixor (ixor x y) z = ixor x (ixor y z)
B ixor x x = 0
B ixor x 0 = x
B inot x = ixor x -1
B inot (iand x y) = ior (inot x) (inot y)
B iand x (ior y z) = ior (iand x y) (iand x z)
B iand x (inot x) = 0
A irem x 1 = 0
B ieq x x = True
B ieq x y = ieq y x
B ine x y = inot (ieq x y)
A ige x y = inot (ilt x y)
A uge x y = inot (ult x y)
A ilt x x = False
A ult x x = False
A ieq (isub x y) 0 = ieq x y
A ult x 0 = False
A ult x 1 = ieq x 0
B bcsel True x y = x
B bcsel False x y = y
B bcsel b x x = x
B bcsel (inot b) x y = bcsel b y x
A imin x y = bcsel (ilt x y) x y
A imax x y = bcsel (ilt x y) y x
A umin x y = bcsel (ult x y) x y
A umax x y = bcsel (ult x y) y x
A udiv x c = ushr x (find_lsb c) | is_pos_power_of_two
A umod x c = iand x (iadd c -1) | is_pos_power_of_two
A ishl x 0 = x
A ushr x 0 = x
"""

# ---- terms as they are written, and as nodes with sizes: (opcode, variable's name with a dollar, or word; size; sources)

Var = namedtuple("Var", "name size cond")
Lit = namedtuple("Lit", "value is_truth")
App = namedtuple("App", "op size args")
Node = namedtuple("Node", "head size args")
Law = namedtuple("Law", "sizes left right cond")
Rule = namedtuple("Rule", "search replace steps")
Step = namedtuple("Step", "law path rev bindings with_term")
TOKEN = re.compile(r"\s*(?:#[^\n]*\n\s*)*(?:(?P<number>-?\d+)|'(?P<quoted>[^']*)'|(?P<word>\w+)|(?P<mark>\S))")


class Tokens:
    """What is left of a text, token by token."""

    def __init__(self, text):
        self.list = [(m.lastgroup, m.group(m.lastgroup)) for m in TOKEN.finditer(text)]

    def sees(self, *texts):
        return len(self.list) >= len(texts) and all(token[1] == text for token, text in zip(self.list, texts))

    def next(self):
        return self.list.pop(0)[1]

    def takes(self, text):
        found = self.sees(text)
        if found:
            self.next()
        return found

    def expect(self, text):
        if not self.takes(text):
            raise ValueError(f"{text} wanted before {self.list[:5]}")

    def listed(self, close, read):
        found = []
        while not self.takes(close):
            found.append(read())
            if not self.sees(close):
                self.expect(",")
        return found

    def sized(self):
        kind, text = self.list.pop(0)
        parts = re.fullmatch(r"#?(\w+)(?:@(\d+))?(?:\((\w+)\))?", text)
        return kind, parts[1], int(parts[2]) if parts[2] else None, parts[3]

    def term(self):
        if self.takes("("):
            _, name, size, _ = self.sized()
            self.takes(",")
            return App(name, size, tuple(self.listed(")", self.term)))
        if self.list[0][0] == "number":
            return Lit(int(self.next()), False)
        kind, name, size, cond = self.sized()
        if kind == "word" and name in ("True", "False"):
            return Lit(int(name == "True"), True)
        return Var(name, size, cond)

    def path(self):
        self.expect("[")
        return self.listed("]", lambda: int(self.next()))

    def binding(self):
        name = self.next()
        self.expect("=")
        return name, self.term()

    def step(self):
        self.expect("(")
        law = self.next()
        self.expect(",")
        path = self.path()
        self.takes(",")
        if law == "calc":
            with_term = self.term()
            self.expect(")")
            return Step(None, path, False, [], with_term)
        rev = self.sees("rev") and not self.sees("rev", "=") and self.takes("rev")
        self.takes(",")
        return Step(int(law), path, bool(rev), self.listed(")", self.binding), None)

    def rule(self):
        self.expect("(")
        search = self.term()
        self.expect(",")
        replace = self.term()
        self.expect(")")
        for text in (",", "by", "*", "derive", "["):
            self.expect(text)
        return Rule(search, replace, self.listed("]", self.step))


def read_file(text):
    tokens = Tokens(text)
    tokens.expect("[")
    return tokens.listed("]", tokens.rule)


def side(words):
    """A side of a law, whose opcodes have as many sources as their rows say."""
    word = words.pop(0)
    if word in OPS:
        return App(word, None, tuple(side(words) for _ in OPS[word][1].split()))
    if word in ("True", "False"):
        return Lit(int(word == "True"), True)
    return Lit(int(word), False) if re.fullmatch(r"-?\d+", word) else Var(word, None, None)


def read_laws():
    laws = []
    for line in LAWS.strip().splitlines():
        text, _, cond = line.partition(" | ")
        sizes, _, sides = text.partition(" ")
        left, right = (side(re.sub(r"[()]", "", part).split()) for part in sides.split(" = "))
        laws.append(Law(SIZES if sizes == "B" else SIZES[1:], left, right, cond or None))
    return laws


TABLE = read_laws()

# ---- sizes and values


def fits(row, size, sources):
    """The size of the result, where these sources go together."""
    allowed, wanted, result, _ = row
    unsized = {source.size for want, source in zip(wanted.split(), sources) if want == "U"}
    if any(want != "U" and int(want) != source.size for want, source in zip(wanted.split(), sources)) or len(unsized) != 1:
        return None
    (own,) = unsized
    if own not in (SIZES if allowed == "B" else SIZES[1:]):
        return None
    result = own if result == "U" else int(result)
    return result if size in (None, result) else None


def typed(term, sizes):
    """The term with each list of sizes that obeys, where its variables have these sizes."""
    if isinstance(term, Var):
        own = sizes.get(term.name)
        return [Node("$" + term.name, own, ())] if own and term.size in (None, own) else []
    if isinstance(term, Lit):
        stands = (1,) if term.is_truth else [w for w in SIZES if -(1 << (w - 1)) <= term.value < 1 << w]
        return [Node(term.value % (1 << w), w, ()) for w in stands]
    found = []
    for sources in itertools.product(*(typed(source, sizes) for source in term.args)):
        size = fits(OPS[term.op], term.size, sources)
        if size:
            found.append(Node(term.op, size, sources))
    return found


def word(node):
    """The value of nodes without variables."""
    if isinstance(node.head, int):
        return node.head
    row = OPS[node.head]
    own = [source.size for want, source in zip(row[1].split(), node.args) if want == "U"][0]
    return int(row[3](own, *map(word, node.args))) % (1 << node.size)


def is_var(node):
    return isinstance(node.head, str) and node.head[0] == "$"


def has_var(node):
    return is_var(node) or any(map(has_var, node.args))


def parts(term):
    yield term
    for source in getattr(term, "args", ()):
        yield from parts(source)


def names(term):
    return {part.name for part in parts(term) if isinstance(part, Var)}


# ---- checking


class Wrong(Exception):
    """A step does not apply."""


def only(found):
    return found[0] if len(found) == 1 else None


def expression(term, sizes, wanted):
    """The nodes of an expression of the size that is asked for, if one is."""
    return only([node for node in typed(term, sizes) if wanted in (None, node.size)])


def sides(law, size, rev):
    letters = {"x": size, "y": size, "z": size, "c": size, "b": 1}
    left = only(typed(law.left, letters))
    right = only([node for node in typed(law.right, letters) if node.size == left.size])
    return (right, left) if rev else (left, right)


def matches(pattern, node, filling):
    if pattern.size != node.size:
        return False
    if is_var(pattern):
        return filling.setdefault(pattern.head[1:], node) == node
    return pattern.head == node.head and all(matches(p, n, filling) for p, n in zip(pattern.args, node.args))


def filled(node, filling):
    if is_var(node):
        return filling[node.head[1:]]
    return Node(node.head, node.size, tuple(filled(source, filling) for source in node.args))


def size_read(law, rev, bindings, part, sizes):
    """The size at which a law is read: a truth value alone fixes none, so the binding does."""
    if getattr(law.left if rev is False else law.right, "is_truth", False):
        bound = expression(bindings[0][1], sizes, None) if len(bindings) == 1 else None
        return bound.size if bound and bound.size in law.sizes else None
    found = [size for size in law.sizes if matches(sides(law, size, rev)[0], part, {})]
    return found[0] if found else None


def by_law(rule, sizes, step, part):
    law = TABLE[step.law - 1]
    size = size_read(law, step.rev, step.bindings, part, sizes)
    if size is None:
        raise Wrong("no match")
    pattern, target = sides(law, size, step.rev)
    filling = {}
    if not matches(pattern, part, filling):
        raise Wrong("no match")
    for name, term in step.bindings:
        own = expression(term, sizes, 1 if name == "b" else size)
        if name not in names(law.left) | names(law.right) or name in filling or own is None:
            raise Wrong("no match")
        filling[name] = own
    if not names(law.right if step.rev is False else law.left) <= set(filling):
        raise Wrong("no match")
    if law.cond and not is_met(rule, law.cond, filling["c"]):
        raise Wrong("condition missing")
    return filled(target, filling)


def is_met(rule, cond, node):
    if isinstance(node.head, int):
        return CONDS[cond](node.size, node.head)
    return any(isinstance(part, Var) and "$" + part.name == node.head and part.cond == cond for part in parts(rule.search))


def by_calc(sizes, step, part):
    own = expression(step.with_term, sizes, part.size)
    if own is None or has_var(part) or has_var(own) or word(part) != word(own):
        raise Wrong("no match")
    return own


def stepped(rule, sizes, step, node, path):
    """The node with what the step makes of its part at the path."""
    if path:
        if path[0] >= len(node.args):
            raise Wrong("bad path")
        changed = stepped(rule, sizes, step, node.args[path[0]], path[1:])
        return Node(node.head, node.size, node.args[: path[0]] + (changed,) + node.args[path[0] + 1 :])
    return by_calc(sizes, step, node) if step.law is None else by_law(rule, sizes, step, node)


def fault_at(rule, sizes, search, replace):
    node = search
    for number, step in enumerate(rule.steps):
        try:
            if step.law is not None and not 1 <= step.law <= len(TABLE):
                raise Wrong("no law")
            node = stepped(rule, sizes, step, node, step.path)
        except Wrong as wrong:
            return f"derivation step {number}: {wrong}"
    return None if node == replace else "derivation ends elsewhere"


def in_preorder(node):
    return (node.size,) + tuple(size for source in node.args for size in in_preorder(source))


def typings(rule):
    """All lists of sizes of a rule, in order: those of its variables, and both sides."""
    found = []
    written = {part.name: part.size for part in parts(rule.search) if isinstance(part, Var) and part.size}
    letters = sorted(names(rule.search))
    for chosen in itertools.product(*((written[name],) if name in written else SIZES for name in letters)):
        sizes = dict(zip(letters, chosen))
        for search in typed(rule.search, sizes):
            for replace in typed(rule.replace, sizes):
                if search.size == replace.size:
                    found.append((in_preorder(search) + in_preorder(replace), sizes, search, replace))
    return sorted(found, key=lambda one: one[0])


def told(rule):
    """What is to come of a rule, which has sizes."""
    found = typings(rule)
    assert found, "a rule without sizes"
    for number, (_, sizes, search, replace) in enumerate(found):
        fault = fault_at(rule, sizes, search, replace)
        if fault:
            return f"typing {number}: {fault}"
    return "accepted"


def lines(text):
    return [f"rule {number} accepted" if line == "accepted" else f"rule {number} {line}" for number, line in enumerate(map(told, read_file(text)))]


# ---- rows: rules through each law, with N in the place of the size


def spelled(term, cond=None, is_search=False):
    if isinstance(term, App):
        return f"({term.op}, {', '.join(spelled(source, cond, is_search) for source in term.args)})"
    if isinstance(term, Lit):
        return str(bool(term.value)) if term.is_truth else str(term.value)
    if not is_search:
        return term.name
    front, end = ("#", f"({cond})") if term.name == "c" and cond else ("", "")
    return f"'{front}{term.name}@{1 if term.name == 'b' else 'N'}{end}'"


def spelled_search(term, cond):
    """A search side, in which the first occurrence of each variable has its size."""
    seen = set()

    def first(found):
        name = found[1]
        if name in seen:
            return name
        seen.add(name)
        return found[0]

    return re.sub(r"'#?(\w+)@[^']*'", first, spelled(term, cond, True))


def replaced(term, name, with_term):
    if isinstance(term, App):
        return App(term.op, None, tuple(replaced(source, name, with_term) for source in term.args))
    return with_term if isinstance(term, Var) and term.name == name else term


def framed(source, unbound):
    """A search side that holds a side of a law, and what is put round the other: the path to it, and a function."""
    x = Var("x", None, None)
    if isinstance(source, App) and not unbound:
        return [], lambda term: term
    if isinstance(source, Lit) and source.is_truth:
        return [0], lambda term: App("bcsel", None, (term, x, x))
    if unbound == {"b"}:
        return [1], lambda term: App("bcsel", None, (Var("b", None, None), term, x))
    other = Var(next(iter(unbound)), None, None) if unbound else x
    return [0], lambda term: App("ixor", None, (term, other))


Row = namedtuple("Row", "law rev sizes search replace before step path after")


def spell_step(law, path, rev, bound=""):
    return f"({law}, {path}{', rev' if rev else ''}{bound})"


def rows():
    """Each law from left to right and from right to left, with letters that are left open bound by a variable and by an opcode."""
    for number, law in enumerate(TABLE, 1):
        for rev in (False, True):
            source, target = (law.right, law.left) if rev else (law.left, law.right)
            unbound = names(target) - names(source)
            path, frame = framed(source, unbound)
            search = spelled_search(frame(source), law.cond)
            for deep in (False, True)[: 1 + len(unbound)]:
                made, bound = target, ""
                for name in unbound:
                    value = App("inot", None, (Var(name, None, None),)) if deep else Var(name, None, None)
                    made, bound = replaced(made, name, value), f", {name} = {spelled(value)}"
                yield Row(number, rev, law.sizes, search, spelled(frame(made)), [], spell_step(number, path, rev, bound), path, [])
            if law.cond:
                yield with_number(number, law, rev)


def with_number(number, law, rev):
    """A law under a condition, where a number stands for c."""
    value = -4 if "neg" in law.cond else 4
    source, target = (replaced(one, "c", Lit(value, False)) for one in ((law.right, law.left) if rev else (law.left, law.right)))
    there = [1] if number in (15, 53) else [0, 1]
    before, after = [], []
    step = spell_step(number, [], rev)
    if number != 54:
        # Where `find_lsb` has a number it is calculated: its size is not known.
        source, target = (shift_calculated(one) for one in (source, target))
        if rev:
            before = [f"(calc, {there}, (find_lsb, ('iadd@N', {value}, 0)))", f"(calc, {there + [0]}, {value})"]
        else:
            after = [f"(calc, {there}, 2)"]
    return Row(number, rev, law.sizes, spelled_search(source, None), spelled(target), before, step, [], after)


def shift_calculated(term):
    if isinstance(term, App):
        return Lit(2, False) if term.op == "find_lsb" else App(term.op, None, tuple(map(shift_calculated, term.args)))
    return term


def spell_row(row, steps):
    return f"[({row.search}, {row.replace}), by * derive [{', '.join(steps)}]]"


def right_rows():
    return [(row.sizes, spell_row(row, row.before + [row.step] + row.after)) for row in rows()]


# Two steps that change nothing, wherever they stand.
THERE, BACK = "(29, [], rev)", "(29, [])"


def wrong_rows():
    """For each law and direction steps that do not apply, as the first of the steps, in their middle, and as the last."""
    found = []
    for number, row in enumerate(rows()):
        steps = [row.step[:-1] + f", {name} = x)" for name in ("z", "w")]
        steps.append(spell_step(row.law, row.path, not row.rev))
        steps.append(spell_step(row.law, row.path + [0, 3], row.rev))
        steps.append(spell_step(57 if number % 2 else 0, row.path, row.rev))
        wrong = steps[number % len(steps)]
        before, after = ([], [THERE, BACK]) if number % 3 == 0 else ([THERE, BACK], [THERE, BACK] if number % 3 == 1 else [])
        found.append((row.sizes, spell_row(row, row.before + before + [wrong] + row.after + after)))
        if "(is_" in row.search:
            bare = row._replace(search=re.sub(r"#c@N\(\w+\)", "c@N", row.search))
            for front, end in (([], [THERE, BACK]), ([THERE, BACK], [THERE, BACK]), ([THERE, BACK], [])):
                found.append((row.sizes, spell_row(bare, front + [row.step] + end)))
        if number % 5 == 0:
            found.append((row.sizes, spell_row(row, row.before + [row.step] + row.after + [THERE])))
    # A law that reads the same from both sides goes through with the other mark too.
    return [row for row in found if lines(at_size(row[1], 8)) != ["rule 0 accepted"]]


def at_size(text, size):
    return text.replace("@N", f"@{size}")


def expanded(table):
    """The rules of a table at all sizes, as one file."""
    return "[" + ",\n ".join(at_size(text, size)[1:-1] for sizes, text in table for size in sizes) + "]"


def with_ends(table):
    """The rows with what is to come of each, which is one thing at all its sizes."""
    found = []
    for sizes, text in table:
        (end,) = {lines(at_size(text, size))[0] for size in sizes}
        found.append(f"{'B' if 1 in sizes else 'A'}|{end}|{text}")
    return found


def long_file(steps=10_000):
    """One rule of 33 nodes on each side, and so many steps to and fro, up and down its sums."""
    letters = [f"v{k}" for k in range(16)]
    search = f"(iadd, '{letters[0]}@32', {letters[0]})"
    for letter in letters[1:]:
        inner, search = search, f"(iadd, {search}, '{letter}@32')"
    replace = re.sub(r"'(\w+)@32'", r"\1", f"(iadd, v15, {inner})")
    pairs = [f"(1, {[0] * (k % 16)})" for k in range(1, steps // 2)]
    there = ", ".join(f"{step}, {step}" for step in pairs)
    return f"[({search}, {replace}),\n by * derive [{there}, (1, {[0] * 15}), (1, [])]]"


# ---- the program


def run_once(path):
    """The lines of the program, its status and the seconds of processor time."""
    process = subprocess.Popen([PROGRAM, "check", path], stdin=subprocess.DEVNULL, stdout=subprocess.PIPE, stderr=subprocess.DEVNULL, text=True)
    out = process.stdout.read()
    process.stdout.close()
    _, status, usage = os.wait4(process.pid, 0)
    process.returncode = os.waitstatus_to_exitcode(status)
    return out.splitlines(), process.returncode, usage.ru_utime + usage.ru_stime


def run_text(text, runs=1):
    with tempfile.NamedTemporaryFile("w", suffix=".rules") as rules:
        rules.write(text)
        rules.flush()
        ran = [run_once(rules.name) for _ in range(runs)]
    return ran[0][0], ran[0][1], min(one[2] for one in ran)


def compared(name, text):
    """Whether the program says of these rules what is to come of them."""
    wanted = lines(text)
    found, status, _ = run_text(text)
    accepted = sum(line.endswith(" accepted") for line in wanted)
    other = [pair for pair in itertools.zip_longest(wanted, found) if pair[0] != pair[1]]
    print(f"{name:<24} {len(wanted):>6} rules {accepted:>6} accepted {len(other):>6} differ")
    for pair in other[:10]:
        print(f"  wanted {pair[0]}, found {pair[1]}", file=sys.stderr)
    return not other and status == (0 if accepted == len(wanted) else 6)


ROWS = """//! Rules that are derived by each law, and derivations with a step that does not apply. bench/derivations.py writes this file, and tells
//! what is to come of each rule by a checker of its own. A line has the sizes, A from 8 bits on and B of 1 bit too, the line of the
//! command `check`, and a rule file in which N stands for the size.
"""


def print_rows():
    print(ROWS, end="")
    for comment, name, table in (("Derivations through each law.", "RIGHT", right_rows()), ("Derivations that fail.", "WRONG", wrong_rows())):
        print(f'\n/// {comment}\npub(crate) const {name}: &str = r"')
        print("\n".join(with_ends(table)) + '";')


def main():
    if sys.argv[1:2] == ["--rows"]:
        print_rows()
        return
    if sys.argv[1:2] == ["--check"]:
        with open(sys.argv[2]) as file:
            print("\n".join(lines(file.read())))
        return
    runs = int(sys.argv[1]) if len(sys.argv) > 1 else 5
    if not os.path.exists(PROGRAM):
        print(f"{PROGRAM} is not there: run rt ci first", file=sys.stderr)
        sys.exit(2)
    same = [compared(name, expanded(table())) for name, table in (("through each law", right_rows), ("steps that do not apply", wrong_rows))]
    same.append(compared("10,000 steps", long_file()))
    seconds = run_text(long_file(), runs)[2] - run_text("[]", runs)[2]
    print(f"10,000 steps over 33 nodes take {seconds:.4f} seconds, limit {LIMIT}")
    sys.exit(0 if all(same) and seconds < LIMIT else 1)


if __name__ == "__main__":
    main()
