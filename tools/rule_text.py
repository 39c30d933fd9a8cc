"""Reads rule files by the grammar of docs/RULES.md, with the places at which evidence may be written.

What is read is data: sides as terms, evidence as lines. Whether a rule has sizes, and whether it holds, is judged elsewhere.
"""
import re
from collections import namedtuple

from opcodes import CONDITIONS, LEFT_OUT, OPCODES, SIZES

Var = namedtuple("Var", "name size constant cond")
Lit = namedtuple("Lit", "value is_truth")
App = namedtuple("App", "op size once args")

# A rule, its lines of evidence, and the place behind its `)`.
Rule = namedtuple("Rule", "number search replace option lines end")
# The typing, None for all; the kind, which is `cases`, `derive` or `log`; the steps of a log, pairs of a clause and hints.
Line = namedtuple("Line", "typing kind steps")

TOKEN = re.compile(
    r"(?:[ \t\r\n]|\#[^\n]*)*"
    r"(?:(?P<number>0[xX][0-9A-Fa-f]+|-?[0-9]+)|(?P<word>[A-Za-z_][A-Za-z0-9_]*)"
    r"|(?P<quoted>'[\x20-\x26\x28-\x7e]*'|\"[\x20\x21\x23-\x7e]*\")|(?P<name>%[A-Za-z0-9_]+)|(?P<mark>[()\[\]{},:;=@.*])|(?P<end>\Z))"
)
BLANK = re.compile(r"(?:[ \t\r\n]|#[^\n]*)*")
INTS = re.compile(r"\[([ \t\r\n0-9,-]*)\]")
PLAIN = re.compile(r"[ \t\r\n]*-?[0-9]+[ \t\r\n]*", re.ASCII)
ANNOTATED = re.compile(r"(#?)([A-Za-z_]\w*)(?:@([0-9]+))?(?:\((\w+)\))?", re.ASCII)
FORMULA = re.compile(r"\s*(\|\||&&|[!()]|options->[A-Za-z_]\w*)", re.ASCII)


class ReadFault(Exception):
    """A text that is no rule file: the place of a fault, and which it is."""

    def __init__(self, place, what):
        super().__init__(f"byte {place}: {what}")
        self.place = place
        self.what = what


class Reader:
    """A text and the token ahead."""

    def __init__(self, text):
        self.text = text
        self.behind = 0
        self.advance()

    def advance(self):
        """Takes the token ahead. What stands behind it is looked at only then, so a text of many megabytes makes no list of tokens."""
        found = TOKEN.match(self.text, self.behind)
        if not found:
            raise ReadFault(BLANK.match(self.text, self.behind).end(), "bad byte")
        self.kind = found.lastgroup
        self.word = found.group(self.kind)
        self.place = found.start(self.kind)
        self.end_of_last, self.behind = self.behind, found.end()
        if self.kind == "number":
            self.check_number()

    def check_number(self):
        follows = self.text[self.behind : self.behind + 1]
        if not -(1 << 63) <= int(self.word, 0 if self.word[:2] in ("0x", "0X") else 10) < 1 << 64 or follows == "_" or follows.isalpha():
            raise ReadFault(self.place, "bad number")

    def fault(self, what="unexpected"):
        return ReadFault(self.place, what)

    def sees(self, kind, word=None):
        return self.kind == kind and word in (None, self.word)

    def takes(self, kind, word=None):
        """The token ahead where it is this one; it is taken."""
        if not self.sees(kind, word):
            return None
        taken = self.word
        self.advance()
        return taken

    def expect(self, kind, word=None):
        if not self.sees(kind, word):
            raise self.fault()
        return self.takes(kind, word)

    def number(self, least=0, most=(1 << 32) - 1, without=()):
        if self.kind != "number" or not least <= self.value() <= most or self.value() in without:
            raise self.fault()
        found = self.value()
        self.advance()
        return found

    def value(self):
        return int(self.word, 0 if self.word[:2] in ("0x", "0X") else 10)

    def listed(self, read, trailing=False):
        """What stands between `[` and `]`."""
        self.expect("mark", "[")
        found = []
        while not self.sees("mark", "]"):
            found.append(read())
            if not self.takes("mark", ","):
                break
            if not trailing and self.sees("mark", "]"):
                raise self.fault()
        self.expect("mark", "]")
        return found

    # ---- terms

    def annotated(self, is_search):
        """A word or a quoted text in the place of an opcode or a variable: `#`, name, size, and what is in parentheses."""
        if self.kind == "word":
            return "", self.word, None, None
        if self.kind != "quoted":
            raise self.fault()
        inner = self.word[1:-1]
        if "~" in inner or "!" in inner or re.search("@[A-Za-z]", inner):
            raise self.fault("left out")
        found = ANNOTATED.fullmatch(inner)
        if not found or (found[3] and int(found[3]) not in SIZES) or (found[1] and not is_search) or (found[4] and not is_search):
            raise self.fault()
        return found[1], found[2], int(found[3]) if found[3] else None, found[4]

    def app(self, names, is_search):
        self.expect("mark", "(")
        constant, op, size, cond = self.annotated(is_search)
        if op in LEFT_OUT:
            raise self.fault("left out")
        if constant or cond not in (None, "is_used_once"):
            raise self.fault()
        if op not in OPCODES:
            raise self.fault("unknown opcode")
        self.advance()
        args = []
        while self.takes("mark", ",") and not self.sees("mark", ")"):
            args.append(self.expr(names, is_search))
        if not self.sees("mark", ")"):
            raise self.fault()
        if len(args) != len(OPCODES[op].sources):
            raise self.fault("wrong number of sources")
        self.advance()
        return App(op, size, cond is not None, tuple(args))

    def expr(self, names, is_search):
        """A term; `names` are the variables that stand on the search side, to which a search side adds."""
        if self.sees("mark", "("):
            return self.app(names, is_search)
        if self.kind == "number":
            return Lit(self.number(-(1 << 63), (1 << 64) - 1), False)
        if self.kind == "word" and self.word in ("True", "False"):
            return Lit(int(self.takes("word") == "True"), True)
        constant, name, size, cond = self.annotated(is_search)
        if (cond and cond not in CONDITIONS) or (size and not is_search):
            raise self.fault()
        if is_search and name not in names:
            names.append(name)
        if name not in names:
            raise self.fault("unbound variable")
        self.advance()
        return Var(name, size, bool(constant), cond)

    # ---- rules and evidence

    def rule(self, number):
        names = []
        self.expect("mark", "(")
        search = self.app(names, True)
        self.expect("mark", ",")
        replace = self.expr(names, False)
        option = None
        if self.takes("mark", ",") and self.kind == "quoted":
            option = self.word[1:-1]
            if not is_formula(option):
                raise self.fault("bad condition")
            self.advance()
            self.takes("mark", ",")
        end = self.place + 1
        self.expect("mark", ")")
        return Rule(number, search, replace, option, [], end), names

    def line(self, names):
        typing = None if self.takes("mark", "*") else self.number()
        if self.takes("word", "cases"):
            return Line(typing, "cases", None)
        if self.takes("word", "derive"):
            self.listed(lambda: self.law_step(names))
            return Line(typing, "derive", None)
        self.expect("word", "log")
        return Line(typing, "log", self.listed(self.log_step))

    def law_step(self, names):
        self.expect("mark", "(")
        if self.takes("word", "calc"):
            self.expect("mark", ",")
            self.listed(self.number)
            self.expect("mark", ",")
            self.expr(names, False)
            self.expect("mark", ")")
            return
        self.number()
        self.expect("mark", ",")
        self.listed(self.number)
        while self.takes("mark", ","):
            word = self.expect("word")
            if word != "rev" or self.sees("mark", "="):
                self.expect("mark", "=")
                self.expr(names, False)
        self.expect("mark", ")")

    def log_step(self):
        self.expect("mark", "(")
        clause = self.ints(-(1 << 31), (1 << 31) - 1, (0,))
        self.expect("mark", ",")
        hints = self.ints(0, (1 << 32) - 1)
        self.expect("mark", ")")
        return tuple(clause), tuple(hints)

    def ints(self, least, most, without=()):
        """A list of numbers. Where it is plain, as nearly all are, it is read at once; else number by number, so that a fault has its place."""
        found = INTS.match(self.text, self.place) if self.sees("mark", "[") else None
        if found:
            numbers = plain_numbers(found[1])
            if numbers is not None and all(least <= number <= most and number not in without for number in numbers):
                self.behind = found.end()
                self.advance()
                return numbers
        return self.listed(lambda: self.number(least, most, without))

    def file(self):
        rules, names, weighed = [], [], {"mov"}

        def item():
            nonlocal names
            if self.takes("word", "weight"):
                self.weight(weighed)
            elif self.sees("mark", "("):
                rule, names = self.rule(len(rules))
                rules.append(rule)
            elif rules and self.takes("word", "by"):
                rules[-1].lines.append(self.line(names))
            else:
                raise self.fault()

        self.listed(item, trailing=True)
        self.expect("end")
        return rules

    def weight(self, weighed):
        if self.kind == "word" and self.word not in OPCODES and self.word not in LEFT_OUT:
            raise self.fault("unknown opcode")
        if self.word in weighed:
            raise self.fault("bad weight")
        weighed.add(self.expect("word"))
        if self.kind == "number" and not 0 <= self.value() <= 60:
            raise self.fault("bad weight")
        self.number()


def plain_numbers(text):
    """Decimal numbers between commas, or None where there is anything else."""
    if not text.strip():
        return []
    parts = text.split(",")
    return [int(part) for part in parts] if all(map(PLAIN.fullmatch, parts)) else None


def is_formula(text):
    """Whether a third part is a formula over options: words and `!` before a part, `&&` and `||` between parts."""
    if len(text) > 256:
        return False
    at, depth, wants_part = 0, 0, True
    text = text.rstrip(" ")
    while at < len(text):
        found = FORMULA.match(text, at)
        if not found:
            return False
        token, at = found[1], found.end()
        if wants_part != (token in ("!", "(") or token.startswith("options->")):
            return False
        depth += (token == "(") - (token == ")")
        if depth < 0:
            return False
        wants_part = token in ("!", "(", "&&", "||")
    return depth == 0 and not wants_part


def read_rules(text):
    """The rules of a text, or a ReadFault. The limits on sizes are left to the program."""
    return Reader(text).file()


def in_preorder(term):
    """The nodes of a term, each before its sources."""
    yield term
    for source in term.args if isinstance(term, App) else ():
        yield from in_preorder(source)


def variables(rule):
    """The names of the variables in the order in which they first stand on the search side."""
    return list(dict.fromkeys(part.name for part in in_preorder(rule.search) if isinstance(part, Var)))


def spelled_log(steps):
    """The steps of a log as text, a line for each."""
    return ",\n".join(f"  ([{','.join(map(str, clause))}],[{','.join(map(str, hints))}])" for clause, hints in steps)


def with_lines(text, added):
    """The text with these texts put in behind rules: pairs of a place and a text."""
    parts, at = [], 0
    for place, piece in sorted(added):
        parts += [text[at:place], piece]
        at = place
    return "".join(parts + [text[at:]])
