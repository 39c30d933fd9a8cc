"""The sizes at which a rule can stand (docs/RULES.md, "Sizes"), and its sides as nodes with sizes.

All that is asked is that two nodes have one size, or that the size of a node is in a set. So the nodes fall into classes of one size each, and the
typings are all choices of a size for each class, in the order of the classes' first nodes.
"""
import itertools
from collections import namedtuple

from opcodes import OPCODES, SIZES, size_of_unsized
from rule_text import App, Lit, Var, in_preorder, variables

MOST_TYPINGS = 64

# A node at a typing: an opcode, a variable's name or a word as its head, of the kind `app`, `var` or `lit`.
Node = namedtuple("Node", "kind head size unsized args")
# The sizes of the nodes in preorder, search side first; those of the variables; both sides.
Typed = namedtuple("Typed", "widths sizes search replace")


class SizeFault(Exception):
    """A rule whose sizes are of no use."""


class Classes:
    """The nodes of a rule in preorder, those of the search side first, joined into classes."""

    def __init__(self, rule):
        self.nodes = list(in_preorder(rule.search)) + list(in_preorder(rule.replace))
        self.search = sum(1 for _ in in_preorder(rule.search))
        self.first = list(range(len(self.nodes)))
        self.may = [set(SIZES) for _ in self.nodes]
        self.by_name = {}
        self.join(self.ask(0), self.ask(self.search))

    def ask(self, at):
        """What the nodes of a term ask, whose first is at this place. Answers that place."""
        node = self.nodes[at]
        if isinstance(node, Lit):
            self.may[at] &= {1} if node.is_truth else {w for w in SIZES if -(1 << (w - 1)) <= node.value < 1 << w}
            return at
        if node.size:
            self.may[at] &= {node.size}
        if isinstance(node, Var):
            self.join(self.by_name.setdefault(node.name, at), at)
            return at
        its, unsized, source = OPCODES[node.op], [], at + 1
        for want, term in zip(its.sources, node.args):
            self.want(source, want, unsized)
            self.ask(source)
            source += sum(1 for _ in in_preorder(term))
        self.want(at, its.result, unsized)
        for other in unsized:
            self.may[other] &= set(its.sizes)
            self.join(unsized[0], other)
        return at

    def want(self, at, size, unsized):
        if size is None:
            unsized.append(at)
        else:
            self.may[at] &= {size}

    def root(self, at):
        while self.first[at] != at:
            at = self.first[at]
        return at

    def join(self, one, other):
        """One size for two nodes; a class is named by its first node."""
        one, other = sorted((self.root(one), self.root(other)))
        self.first[other] = one

    def choices(self):
        """The sizes that each class may have, by its first node, in order."""
        found = {}
        for at, may in enumerate(self.may):
            root = self.root(at)
            found[root] = found[root] & may if root in found else set(may)
        return found


def typings(rule):
    """All typings of a rule in order, each a Typed, or a SizeFault."""
    classes = Classes(rule)
    choices = classes.choices()
    if not all(choices.values()):
        raise SizeFault("no sizes")
    for first, sizes in choices.items():
        if first >= classes.search and len(sizes) > 1:
            raise SizeFault(f"node {first - classes.search} has no size")
    count = 1
    for sizes in choices.values():
        count *= len(sizes)
    if count > MOST_TYPINGS:
        raise SizeFault("too many sizes")
    found = []
    for chosen in itertools.product(*(sorted(sizes) for sizes in choices.values())):
        of_class = dict(zip(choices, chosen))
        found.append(typed(rule, [of_class[classes.root(at)] for at in range(len(classes.nodes))]))
    return found


def typed(rule, widths):
    """Both sides of a rule with these sizes of their nodes in preorder."""
    left = iter(widths)
    search, replace = sized(rule.search, left), sized(rule.replace, left)
    sizes = dict.fromkeys(variables(rule))
    for node, width in zip(in_preorder(rule.search), widths):
        if isinstance(node, Var):
            sizes[node.name] = width
    return Typed(tuple(widths), sizes, search, replace)


def sized(term, widths):
    width = next(widths)
    if isinstance(term, Lit):
        return Node("lit", term.value % (1 << width), width, None, ())
    if isinstance(term, Var):
        return Node("var", term.name, width, None, ())
    args = tuple(sized(source, widths) for source in term.args)
    return Node("app", term.op, width, size_of_unsized(term.op, [source.size for source in args], width), args)
