"""A book of several seats by plain scans over plain lists, from the definitions alone: what the commands of a script have to
answer, and what `show` has to print. A clause is a set of numbers; a lemma is the list of its literals as they are written,
its pivot first. Clauses that have a number, and steps, are in joint variables; lines, receipts and calls in those of their seats."""

MAX_VARIABLE = 134_217_727


def in_order(literals):
    """Each literal once, by variable, the positive one first."""
    return sorted(set(literals), key=lambda literal: (abs(literal), -literal))


def words(*parts):
    """Numbers, words and lists of them, with blanks between."""
    flat = []
    for part in parts:
        flat += part if isinstance(part, (list, tuple)) else [part]
    return " ".join(map(str, flat))


def lemma_words(lemma):
    """The pivot, and then the other literals in order."""
    return lemma[:1] + [literal for literal in in_order(lemma) if literal != lemma[0]]


def addition_tokens(number, lemma, hints, groups):
    """The text of an addition."""
    listed = [word for candidate, own in groups for word in (-candidate, *own)]
    return words(number, lemma_words(lemma), 0, hints, listed, 0)


def hints_and_groups(numbers):
    """The hints and the groups of the numbers that stand behind a lemma."""
    hints, groups = [], []
    for number in numbers:
        if number < 0:
            groups.append((-number, []))
        else:
            (groups[-1][1] if groups else hints).append(number)
    return hints, groups


def propagate(held, hints, clause_of):
    """The propagation of a set of literals over hints: Closed and how many hints it read, Open and the set, or Stuck and the place."""
    held = set(held)
    if any(-literal in held for literal in held):
        return "Closed", 0
    for place, hint in enumerate(hints, 1):
        clause = clause_of(hint)
        left = [] if clause is None else [literal for literal in clause if -literal not in held]
        if clause is None or len(left) > 1:
            return "Stuck", place
        if not left:
            return "Closed", place
        held.add(left[0])
    return "Open", held


def rat(held, pivot, live, groups):
    """The groups that cover the candidates of a pivot, or else the first refusal. `live` has the live clauses by number."""
    covered = []
    for number in sorted(number for number, clause in live.items() if -pivot in clause):
        own = next((hints for candidate, hints in groups if candidate == number), None)
        others = {-literal for literal in live[number] if literal != -pivot}
        how, place = propagate(held | others, own or [], live.get)
        if how == "Closed":
            covered.append((number, (own or [])[:place]))
        elif own is None:
            return None, f"MissingGroup({number})"
        else:
            return None, f"GroupStuck({number}, {place})" if how == "Stuck" else f"GroupOpen({number})"
    return covered, None


def renamed(literals, names):
    """The literals with each variable that has another name by that one."""
    return [names.get(abs(literal), abs(literal)) * (1 if literal > 0 else -1) for literal in literals]


class Refused(Exception):
    """A call that is refused, and why."""


class Book:
    """The clauses that were given a number, the own numbers of each seat and its names of joint variables, and the entries."""

    def __init__(self, variables, clauses, seats, limit):
        self.top, self.names, self.next = variables, [{} for _ in range(seats)], variables + 1
        self.given = {number: frozenset(clause) for number, clause in enumerate(clauses, 1)}
        self.formula, self.limit = len(self.given), limit
        self.tables = [{number: number for number in self.given} for _ in range(seats)]
        self.pending = [None] * seats
        self.entries, self.steps, self.verdict = [], [], None

    def live(self):
        held = {joint for table in self.tables if table is not None for joint in table.values()}
        return {joint: clause for joint, clause in self.given.items() if joint in held}

    def candidates(self, literal):
        return [number for number, clause in sorted(self.live().items()) if literal in clause]

    def joint(self, seat, own):
        table = self.tables[seat] if seat < len(self.tables) else None
        return None if table is None else table.get(own)

    def variable(self, seat, own):
        return self.names[seat].get(own) if seat < len(self.names) else None

    def names_with(self, seat, lemma):
        """The seat's names once the lemma has entered."""
        new = sorted({abs(literal) for literal in lemma if abs(literal) > self.top} - set(self.names[seat]))
        return {**self.names[seat], **{variable: self.next + at for at, variable in enumerate(new)}}

    def in_own(self, seat, number):
        """The clause of a number in the seat's variables."""
        return frozenset(renamed(self.given[number], {joint: own for own, joint in self.names[seat].items()}))

    def is_named(self, literals, names):
        """Whether each variable is the formula's or one of these."""
        return all(abs(literal) <= self.top or abs(literal) in names for literal in literals)

    def table(self, seat, own=None):
        """The seat's table, where the own number is free, if one is named."""
        if seat >= len(self.tables) or self.tables[seat] is None:
            raise Refused("SeatGone")
        if own in self.tables[seat]:
            raise Refused("NumberTaken")
        return self.tables[seat]

    def enter(self, seat, call, step=None):
        """Makes an entry, and answers its place."""
        self.entries.append(f"entry {words(seat, call)}" + (f" : {step}" if step else ""))
        if step:
            self.steps.append(step)
        return len(self.entries) - 1

    def add(self, seat, own, lemma, hints, groups):
        """Enters a lemma that was tested, and gives out its new variables."""
        if len(self.given) - self.formula == self.limit:
            raise Refused("Full")
        names, number = self.names_with(seat, lemma), len(self.given) + 1
        if max(names.values(), default=0) > MAX_VARIABLE:
            raise Refused("NoVariableLeft")
        self.next += len(names) - len(self.names[seat])
        self.names[seat], joint = names, renamed(lemma, names)
        place = self.enter(seat, f"add {words(own, lemma_words(lemma), 0)}", addition_tokens(number, joint, hints, groups))
        self.given[number] = frozenset(joint)
        self.tables[seat][own] = number
        if not lemma and self.verdict is None:
            self.verdict = place
        return f"Added({place}, {number})"

    def case(self, seat, own, hints, groups):
        """The hints and the groups in joint numbers."""
        table = self.table(seat, own)
        for named in [*hints, *(number for candidate, more in groups for number in (candidate, *more))]:
            if named not in table:
                raise Refused(f"UnknownNumber({named})")
        seen = set()
        for candidate, _ in groups:
            if table[candidate] in seen:
                raise Refused(f"GroupRepeated({candidate})")
            seen.add(table[candidate])
        return [table[hint] for hint in hints], [(table[candidate], [table[hint] for hint in own]) for candidate, own in groups]

    def take(self, seat, own, lemma, hints, groups=()):
        if seat < len(self.pending):
            self.pending[seat] = None
        joint, _ = self.case(seat, own, hints, groups)
        self.pending[seat] = "case", own, lemma, [(number, self.in_own(seat, number)) for number in joint]
        return "Taken"

    def test(self, seat):
        if not self.pending[seat] or self.pending[seat][0] != "case":
            return "Nothing"
        _, own, lemma, pairs = self.pending[seat]
        how, place = propagate({-literal for literal in lemma}, range(len(pairs)), lambda at: pairs[at][1])
        self.pending[seat] = ("receipt", own, lemma, pairs[:place]) if how == "Closed" else None
        return f"Stuck({place})" if how == "Stuck" else how

    def commit(self, seat):
        if not self.pending[seat] or self.pending[seat][0] != "receipt":
            return "Nothing"
        _, own, lemma, pairs = self.pending[seat]
        self.pending[seat] = None
        self.table(seat, own)
        live = self.live()
        for number, clause in pairs:
            if live.get(number) != frozenset(renamed(clause, self.names[seat])):
                raise Refused(f"Stale({number})")
        return self.add(seat, own, lemma, [number for number, _ in pairs], [])

    def inside(self, seat, own, lemma, hints, groups=()):
        hints, groups = self.case(seat, own, hints, groups)
        live, joint = self.live(), renamed(lemma, self.names_with(seat, lemma))
        how, place = propagate({-literal for literal in joint}, hints, live.get)
        if how == "Stuck":
            raise Refused(f"HintNotUnit({place})")
        if how == "Closed":
            return self.add(seat, own, lemma, hints[:place], [])
        if not lemma:
            raise Refused("EmptyOpen")
        covered, refusal = rat(place, joint[0], live, groups)
        if refusal:
            raise Refused(refusal)
        return self.add(seat, own, lemma, hints, covered)

    def end_of(self, before):
        """The step that deletes what lived before and doesn't any more."""
        dead = sorted(set(before) - set(self.live()))
        return words(len(self.given), "d", dead, 0) if dead else None

    def drop(self, seat, numbers):
        table, before = self.table(seat), self.live()
        lost = [number for number in set(numbers) if table.pop(number, None) is not None]
        return f"Dropped({self.enter(seat, words('drop', numbers, 0), self.end_of(before))}, {len(lost)})"

    def adopt(self, seat, own, joint):
        table = self.table(seat, own)
        if joint not in self.live():
            raise Refused("NoSuchClause")
        if not self.is_named(self.given[joint], self.names[seat].values()):
            raise Refused("PrivateVariable")
        table[own] = joint
        return f"Adopted({self.enter(seat, f'adopt {own} {joint}')})"

    def bind(self, seat, own, literals):
        """An import. Where no live clause is the wanted one, it adds that clause by the least live one that is a part of it."""
        table = self.table(seat, own)
        if not self.is_named(literals, self.names[seat]):
            raise Refused("PrivateVariable")
        wanted, live = frozenset(renamed(literals, self.names[seat])), sorted(self.live().items())
        parts = [number for number, clause in live if clause <= wanted]
        if not parts:
            raise Refused("NoSuchClause")
        number, step = next((number for number in parts if self.given[number] == wanted), None), None
        if number is None:
            if len(self.given) - self.formula == self.limit:
                raise Refused("Full")
            number, is_closed = len(self.given) + 1, any(-literal in wanted for literal in wanted)
            step = addition_tokens(number, in_order(wanted), [] if is_closed else parts[:1], [])
            self.given[number] = wanted
        table[own] = number
        return f"Imported({self.enter(seat, words('import', own, in_order(literals), 0), step)}, {number})"

    def leave(self, seat):
        self.table(seat)
        before, self.tables[seat] = self.live(), None
        return f"Left({self.enter(seat, 'leave', self.end_of(before))})"

    def show(self):
        """What `show` prints."""
        live = [f"live {words(number, in_order(clause), 0)}" for number, clause in sorted(self.live().items())]
        verdict = "no verdict" if self.verdict is None else f"verdict {self.verdict}"
        return [*self.entries, *live, verdict]


def trimmed(formula, steps):
    """Those of the steps that the first addition of the empty clause needs, as they are written; the formula has so many
    clauses."""
    numbers = [[int(word) for word in step.split() if word != "d"] for step in steps]
    adds, kept = {}, []
    for at, (step, (number, *rest)) in enumerate(zip(steps, numbers)):
        if " d " not in step:
            end = rest.index(0)
            adds[at] = number, rest[:end], *hints_and_groups(rest[end + 1 : -1])
    last = min(at for at, (_, lemma, _, _) in adds.items() if not lemma)
    hints_of = {number: [*hints, *(hint for _, own in groups for hint in own)] for number, _, hints, groups in adds.values()}
    needed, wanted = set(), [adds[last][0]]
    while wanted:
        number = wanted.pop()
        if number > formula and number not in needed:
            needed.add(number)
            wanted += hints_of[number]
    greatest = formula
    for at in range(last + 1):
        if at not in adds:
            dead = [number for number in numbers[at][1:-1] if number <= formula or number in needed]
            kept += [words(greatest, "d", dead, 0)] if dead else []
        elif adds[at][0] in needed:
            greatest, lemma, hints, groups = adds[at]
            kept.append(addition_tokens(greatest, lemma, hints, [it for it in groups if it[0] <= formula or it[0] in needed]))
    return kept
