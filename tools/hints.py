"""Logs of clauses (docs/RULES.md, "Logs"): what is wrong with one, and how one is made of a solver's proof.

A log is a list of steps, pairs of a clause and of hints. Clauses have the numbers from 1 on, those of the steps behind the given ones.
"""

MOST_STEPS = 4_194_304


class NoHints(Exception):
    """A proof of which no log can be made."""


# ---- checking


def log_fault(clauses, steps):
    """What is wrong with a log, in the words of `nir_opt check`, or None."""
    if len(steps) > MOST_STEPS:
        return "log too long"
    known = [None] + [tuple(clause) for clause in clauses]
    for number, (clause, hints) in enumerate(steps):
        fault = step_fault(known, clause, hints)
        if fault:
            return f"log step {number}: {fault}"
        known.append(tuple(clause))
    return None if any(len(clause) == 0 for clause, _ in steps) else "log has no empty clause"


def step_fault(known, clause, hints):
    false = set(clause)
    if any(-literal in false for literal in false):
        return "not a unit"
    for hint in hints:
        if not 0 < hint < len(known):
            return "bad hint"
        left = {literal for literal in known[hint] if literal not in false}
        if not left:
            return None
        if len(left) > 1:
            return "not a unit"
        false.add(-left.pop())
    return "not a unit"


# ---- cutting


def trimmed(count, steps):
    """The steps that the first empty clause needs, numbered anew, where there are so many clauses before them."""
    last = next(number for number, (clause, _) in enumerate(steps) if not clause)
    needed = [False] * (last + 1)
    needed[last] = True
    for number in range(last, -1, -1):
        if needed[number]:
            for hint in steps[number][1]:
                if hint > count:
                    needed[hint - count - 1] = True
    renumbered, kept = {}, []
    for number in range(last + 1):
        if needed[number]:
            clause, hints = steps[number]
            kept.append((clause, tuple(renumbered.get(hint, hint) for hint in hints)))
            renumbered[count + 1 + number] = count + len(kept)
    return kept


# ---- from LRAT, whose lines have hints


def log_of_lrat(clauses, lines):
    """The log of an LRAT proof in text: its numbers become those of the steps, and hints that say nothing new are left out."""
    known, steps, place = [None] + [tuple(clause) for clause in clauses], [], {}
    for line in lines:
        words = line.split()
        if not words or words[0] == "c" or words[1] == "d":
            continue
        numbers = list(map(int, words))
        end = numbers.index(0, 1)
        clause, hints = tuple(numbers[1:end]), numbers[end + 1 : -1]
        if any(hint < 0 for hint in hints):
            raise NoHints(f"clause {numbers[0]} of the proof is a RAT step, which is no unit propagation")
        if any(hint > len(clauses) and hint not in place for hint in hints):
            raise NoHints(f"clause {numbers[0]} of the proof has a hint that is no clause before it")
        told = [place.get(hint, hint) for hint in hints]
        steps.append((clause, useful(known, clause, told, numbers[0])))
        known.append(clause)
        place[numbers[0]] = len(known) - 1
        if not clause:
            return trimmed(len(clauses), steps)
    raise NoHints("the proof has no empty clause")


def useful(known, clause, hints, name):
    """The hints up to the one that ends the step, without those whose clause has a true literal."""
    false, kept = set(clause), []
    for hint in hints:
        left = {literal for literal in known[hint] if literal not in false}
        if any(-literal in false for literal in left):
            continue
        kept.append(hint)
        if not left:
            return tuple(kept)
        if len(left) > 1:
            break
        false.add(-left.pop())
    raise NoHints(f"clause {name} of the proof does not follow by its hints")


# ---- from DRAT, whose lines have none


class Propagation:
    """Clauses of which two literals are watched, and what follows from them alone.

    What follows from the clauses alone is kept as unit clauses, each with a step of its own. So a later step names such a clause by one hint, and clauses that
    hold such a literal are not needed. A clause added is cut down to the literals that its contradiction needs.
    """

    def __init__(self, clauses, variables):
        self.count = len(clauses)
        self.values = [0] * (2 * variables + 1)
        self.watches = [[] for _ in range(2 * variables + 1)]
        self.reasons = [0] * (variables + 1)
        self.trail = []
        # The clause of each number, None where it is not watched; the number of the unit clause of a variable; what deletions go by.
        self.clauses = [None] * (self.count + 1)
        self.units = {}
        self.by_literals = {}
        self.steps = []
        self.is_done = False
        self.settle([self.take(number, clause) for number, clause in enumerate(clauses, 1)])

    def take(self, number, clause):
        """Watches one of the given clauses. Answers its number where it is a unit or empty."""
        literals = list(dict.fromkeys(clause))
        if any(-literal in literals for literal in literals):
            return None
        self.clauses[number] = literals
        if len(literals) > 1:
            self.watch(number, literals, clause)
            return None
        return number

    def watch(self, number, literals, spelled):
        self.watches[literals[0]].append(number)
        self.watches[literals[1]].append(number)
        self.by_literals.setdefault(spelling(spelled), []).append(number)

    def settle(self, numbers):
        """Makes the literals of these unit clauses true, and all that follows."""
        for number in numbers:
            if number is None or self.is_done:
                continue
            literals = self.clauses[number]
            if not literals or self.values[literals[0]] < 0:
                self.finish(number)
            elif self.values[literals[0]] == 0:
                self.units[abs(literals[0])] = number
                self.assign(literals[0], number)
        if self.is_done:
            return
        conflict = self.propagate(0)
        for literal in self.trail:
            if abs(literal) not in self.units:
                reason = self.reasons[abs(literal)]
                self.units[abs(literal)] = self.add((literal,), self.unit_hints(reason, literal))
        if conflict:
            self.finish(conflict)
        self.trail.clear()

    def unit_hints(self, number, but=0):
        return [self.units[abs(other)] for other in self.clauses[number] if other != but] + [number]

    def finish(self, number):
        """The empty clause, where all literals of this clause are false."""
        self.add((), self.unit_hints(number))
        self.is_done = True

    def add(self, clause, hints):
        self.steps.append((tuple(clause), tuple(hints)))
        self.clauses.append(None)
        return self.count + len(self.steps)

    def assign(self, literal, reason):
        self.values[literal], self.values[-literal] = 1, -1
        self.reasons[abs(literal)] = reason
        self.trail.append(literal)

    def propagate(self, head):
        """Makes true what follows from the trail from this place on. Answers the number of a clause that is false, or 0."""
        values, watches, clauses, trail, reasons = self.values, self.watches, self.clauses, self.trail, self.reasons
        while head < len(trail):
            false = -trail[head]
            head += 1
            watching, kept = watches[false], []
            for place, number in enumerate(watching):
                literals = clauses[number]
                if literals is None:
                    continue
                other = literals[0]
                if other == false:
                    other = literals[0] = literals[1]
                    literals[1] = false
                if values[other] > 0:
                    kept.append(number)
                    continue
                for at in range(2, len(literals)):
                    if values[literals[at]] >= 0:
                        literals[1], literals[at] = literals[at], false
                        watches[literals[1]].append(number)
                        break
                else:
                    kept.append(number)
                    if values[other] < 0:
                        kept += watching[place + 1 :]
                        watches[false] = kept
                        return number
                    values[other], values[-other] = 1, -1
                    reasons[abs(other)] = number
                    trail.append(other)
            watches[false] = kept
        return 0

    def learn(self, clause, name):
        """A clause of the proof. It is to follow by unit propagation."""
        literals = list(dict.fromkeys(clause))
        if any(abs(literal) >= len(self.reasons) for literal in literals):
            raise NoHints(f"clause {name} of the proof has a new variable: it may be a RAT step")
        if any(self.values[literal] > 0 or -literal in literals for literal in literals):
            return
        literals = [literal for literal in literals if self.values[literal] == 0]
        for literal in literals:
            self.assign(-literal, 0)
        conflict = self.propagate(0)
        if not conflict:
            raise NoHints(f"clause {name} of the proof does not follow by unit propagation: it may be a RAT step")
        needed, hints = self.contradiction(conflict)
        for literal in self.trail:
            self.values[literal] = self.values[-literal] = 0
        self.trail.clear()
        literals = [literal for literal in literals if abs(literal) in needed]
        number = self.add(literals, hints)
        self.clauses[number] = literals
        if len(literals) > 1:
            self.watch(number, literals, clause)
        elif literals:
            self.settle([number])
        else:
            self.is_done = True

    def contradiction(self, conflict):
        """The variables that a false clause rests on, and the hints that lead to it: unit clauses first, then reasons in the order of the trail."""
        needed, reasons = {abs(literal) for literal in self.clauses[conflict]}, [conflict]
        for literal in reversed(self.trail):
            reason = self.reasons[abs(literal)]
            if reason and abs(literal) in needed:
                reasons.append(reason)
                needed.update(map(abs, self.clauses[reason]))
        return needed, [self.units[variable] for variable in needed if variable in self.units] + reasons[::-1]

    def forget(self, clause):
        """Takes one clause with these literals off the watches, where there is one."""
        numbers = self.by_literals.get(spelling(clause))
        if numbers:
            self.clauses[numbers.pop()] = None


def spelling(clause):
    """What clauses with the same literals have in common."""
    return tuple(sorted(set(clause)))


def log_of_drat(clauses, variables, lines):
    """The log of a DRAT proof in text, by unit propagation. Deletions only keep the search short: in a log nothing is deleted."""
    state = Propagation(clauses, variables)
    for name, line in enumerate(lines, 1):
        if state.is_done:
            break
        words = line.split()
        if not words or words[0] == "c":
            continue
        if words[0] == "d":
            state.forget(map(int, words[1:-1]))
        else:
            state.learn(map(int, words[:-1]), name)
    if not state.is_done:
        raise NoHints("the proof has no empty clause")
    return trimmed(len(clauses), state.steps)
