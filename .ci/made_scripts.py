"""Makes scripts with what they have to print, by a fixed generator and plain scans (`plain_book.py`): lists of events that are
played as a book, as a list and as a shared book, propagations and RAT tests over small formulas, imports among many clauses, and
propagations and lines that are long.
`scripts()` gives them, each as its name, its text and its output."""
import plain_book
from plain_book import Book, Refused, in_order, words

# The literals that clauses are made of.
LITERALS = [1, -1, 2, -2, 3, -3, 4, -4]
# Own numbers: those of the formula's clauses, some near and some far beyond them.
OWN = [1, 2, 3, 4, 5, 6, 7, 40, 2100, 100_000_007, 9_000_000_000, 9_223_372_036_854_775_807]
LISTS, LISTS_OF_A_SCRIPT = 2000, 100
# How many events most lists have, and how many each hundredth: enough that a literal's list holds more dead numbers than live
# ones, and that far own numbers come near.
FEW_EVENTS, MANY_EVENTS = 24, 400


class Random:
    """A linear congruential generator."""

    def __init__(self, seed):
        self.state = seed

    def below(self, bound):
        self.state = (self.state * 6_364_136_223_846_793_005 + 1_442_695_040_888_963_407) % 2**64
        return (self.state >> 33) % bound

    def of(self, listed):
        return listed[self.below(len(listed))]

    def literal(self, variables=4):
        return LITERALS[self.below(2 * variables)]

    def literals(self, most, variables=4):
        return [self.literal(variables) for _ in range(self.below(most + 1))]

    def clause(self, variables=4):
        """One to three literals, and seldom none."""
        return [self.literal(variables) for _ in range(1 + self.below(3) if self.below(12) else 0)]

    def own(self):
        at = self.below(20)
        return OWN[at] if at < len(OWN) else self.below(48) + 8


class Script:
    """The lines of a script, and those of its output."""

    def __init__(self):
        self.text, self.out = [], []

    def ask(self, command, *answers):
        self.text.append(command)
        self.out += answers

    def formula(self, variables, clauses):
        self.text += [f"p cnf {variables} {len(clauses)}", *(words(clause, 0) for clause in clauses)]

    def named(self, name):
        return name, "\n".join(self.text) + "\n", "\n".join(self.out) + "\n"


def answer(call, *values):
    """The reply of a call, or its refusal."""
    try:
        return call(*values)
    except Refused as refused:
        return f"Refused({refused})"


# ---- lists of events


def line_of(random, book, seat):
    """A lemma, its hints and its groups: half of them without a hint, where what it leaves is a tautology in each candidate or
    a refusal; the others over numbers that the seat holds, with groups for most candidates, and seldom a number that it doesn't
    hold or a group too many."""
    table = book.tables[seat] or {1: 1}
    held = sorted(table)
    if random.below(2):
        first = random.literal()
        return [random.literal(), *([first, -first] if random.below(2) else [])], [], []

    def numbers(most):
        return [random.own() if random.below(30) == 0 else random.of(held) for _ in range(random.below(most + 1))]

    lemma = random.literals(3)
    named = [own for own in held if lemma and -lemma[0] in book.in_own(seat, table[own]) and random.below(8)]
    groups = [(own, numbers(2)) for own in (named if random.below(2) else reversed(named))]
    if random.below(8) == 0:
        groups.append((random.of(held), numbers(2)))
    return lemma, numbers(4), groups if random.below(4) else []


def line_words(lemma, hints, groups):
    """The line of a lemma as it is written, without its number."""
    return words(lemma, 0, hints, [word for candidate, own in groups for word in (-candidate, *own)], 0)


def listed_numbers(book, seat):
    """The seat's own numbers of the clauses that receipts list, of which some die so, and the receipts are stale."""
    receipts = [pending[3] for pending in book.pending if pending and pending[0] == "receipt"]
    listed = {number for pairs in receipts for number, _ in pairs}
    return [own for own, joint in sorted((book.tables[seat] or {}).items()) if joint in listed]


def event_of(random, book):
    """An event: its words, and a call that gives its reply."""
    seat, own, kind = random.below(len(book.tables)), random.own(), random.below(20)
    if kind > 15:
        state = book.pending[seat][0] if book.pending[seat] else "none"
        step = {"none": "take", "case": "test", "receipt": "commit"}[state]
        kind = {"take": 17, "test": 18, "commit": 19}[step] if random.below(8) else 17 + random.below(3)
    if kind < 7 or kind == 17:
        word, call = ("take", book.take) if kind == 17 else ("inside", book.inside)
        line = line_of(random, book, seat)
        return (word, seat, f"{own} {line_words(*line)}"), lambda: call(seat, own, *line)
    if kind < 11:
        numbers = [own, random.own(), random.own(), own]
        if random.below(3) == 0:
            numbers += listed_numbers(book, seat)
        return ("drop", seat, words(numbers, 0)), lambda: book.drop(seat, numbers)
    if kind < 14:
        literals = random.literals(random.of([3, 3, 5]))
        return ("import", seat, words(own, literals, 0)), lambda: book.bind(seat, own, literals)
    if kind == 15 and random.below(12) == 0:
        seat = len(book.tables) - 1 if random.below(5) else 0
        return ("leave", seat, ""), lambda: book.leave(seat)
    if kind < 16:
        joint = random.below(12)
        return ("adopt", seat, f"{own} {joint}"), lambda: book.adopt(seat, own, joint)
    if kind == 18:
        return ("test", seat, ""), lambda: book.test(seat)
    return ("commit", seat, ""), lambda: book.commit(seat)


class Tokens:
    """What a shared book says of its seats' calls: the tokens of each, and its entries."""

    def __init__(self, script, book):
        self.script, self.book = script, book
        self.told, self.made = ([[] for _ in book.tables] for _ in range(2))

    def play(self, event, call, is_told):
        """Plays an event by the calls of a shared book, lines by `submit` or by `enter`."""
        word, seat, rest = event
        accepted = {"drop": "Dropped", "import": "Imported", "adopt": "Adopted", "leave": "Left"}.get(word, "Added")
        before, pending = len(self.book.entries), self.book.pending[seat]
        reply = answer(call)
        if word == "commit" and reply.startswith("Refused"):
            # A shared book gives a refused receipt back.
            self.book.pending[seat] = pending
        is_line = word in ("inside", "drop", "import")
        # Of an import without a token it isn't known whether it adds, and so not with which number a later deletion is printed.
        is_told = is_told or word == "import" and len(self.book.entries) > before and " : " in self.book.entries[-1]
        if word == "drop":
            rest = f"5 d {rest}"
        elif word == "import":
            rest = rest.replace(" ", " i ", 1)
        if is_line:
            word = "submit" if is_told else "enter"
        if len(self.book.entries) > before:
            entry = self.book.entries[-1]
            self.made[seat].append(entry)
            if is_line and not is_told:
                reply = "Entered"
            else:
                self.told[seat].append(entry)
                reply = f"{accepted} {entry}"
        self.script.ask(words(word, seat, rest).strip(), reply)

    def end(self, random):
        """Asks for all that the shared book says of its seats, lets tokens go or exchanges them now and then, and closes it."""
        verdict = self.book.verdict
        self.script.ask("verdict", "no verdict" if verdict is None else f"verdict {verdict}")
        for seat, told in enumerate(self.told):
            self.script.ask(f"count {seat}", f"count {len(self.made[seat])}")
            self.script.ask(f"told {seat}", *told)
            if len(told) > 1 and random.below(4) == 0:
                told[0], told[1] = told[1], told[0]
                self.script.ask(f"swap {seat}")
            if told and random.below(4) == 0:
                told.pop()
                self.script.ask(f"forget {seat}")
        ends = ["confirmed" if told == made else "not confirmed" for told, made in zip(self.told, self.made)]
        self.script.ask("close", *ends)


def add_list(script, number):
    """A list of events by the generator: each tenth by one call of `play`, each tenth by a shared book, the others by a book
    that is asked for candidates after each event."""
    random = Random(number)
    variables = 1 + random.below(4)
    clauses = [random.clause(variables) for _ in range(5)]
    limit = random.below(4) if number % 7 == 0 else 1000
    seats = 1 if number % 4 == 1 else 2
    book = Book(variables, clauses, seats, limit)
    way = {0: "events", 5: "shared"}.get(number % 10, "open")
    script.formula(variables, clauses)
    script.ask(f"{way} {seats} {limit}")
    tokens, is_told = Tokens(script, book), number // 10 % 3 < 2
    for _ in range(MANY_EVENTS if number % 100 == 99 or number % 500 in (0, 5) else FEW_EVENTS):
        event, call = event_of(random, book)
        if way == "shared":
            tokens.play(event, call, is_told or random.below(8) == 0)
        else:
            script.ask(words(*event).strip(), answer(call))
        if way == "open":
            literal = random.literal()
            script.ask(f"candidates {literal}", words("candidates", book.candidates(literal)))
    if way == "shared":
        tokens.end(random)
    script.ask("show", *book.show())
    for literal in LITERALS:
        script.ask(f"candidates {literal}", words("candidates", book.candidates(literal)))
    for own in OWN:
        joint = book.joint(number % seats, own)
        script.ask(f"joint {number % seats} {own}", f"joint {joint}" if joint else "no joint")
    for seat in range(seats):
        for own in range(1, 6):
            script.ask(f"variable {seat} {own}", f"variable {book.names[seat][own]}" if own in book.names[seat] else "none")
    script.ask("steps", *(f"step {step}" for step in book.steps))


def lists_of_events():
    for first in range(0, LISTS, LISTS_OF_A_SCRIPT):
        script = Script()
        for number in range(first, first + LISTS_OF_A_SCRIPT):
            add_list(script, number)
        yield script.named(f"lists {first} to {first + LISTS_OF_A_SCRIPT - 1}")


# ---- imports


def imports_among_many():
    """Imports of up to many literals among clauses of a few, before and after most of those died, and after new ones came."""
    random, script = Random(11), Script()
    for count in range(16):
        variables = 8 + 3 * count

        def literals(most):
            listed = [1 + random.below(variables) for _ in range(random.below(most + 1))]
            return [variable if random.below(2) else -variable for variable in listed]

        clauses = [literals(4) or [1] for _ in range(250)]
        book = Book(variables, clauses, 1, 60)
        script.formula(variables, clauses)
        script.ask("open 1 60")
        for own in range(1001, 1121):
            if random.below(10) == 0:
                numbers = [random.of([1, 1001]) + random.below(250) for _ in range(90)]
                script.ask(f"drop 0 {words(numbers, 0)}", answer(book.drop, 0, numbers))
            wanted = literals(random.of([3, 9, 2 * variables]))
            script.ask(f"import 0 {own} {words(wanted, 0)}", answer(book.bind, 0, own, wanted))
        script.ask("show", *book.show())
    yield script.named("imports among many")


# ---- propagations and RAT tests


def add_propagation(script, clauses, lemma, hints):
    how, place = plain_book.propagate({-literal for literal in lemma}, hints, lambda hint: frozenset(clauses[hint - 1]))
    told = {"Closed": words("Closed", hints[:place] if how == "Closed" else []), "Open": "Open"}
    script.ask(f"propagate {words(lemma, 0, hints, 0)}", told.get(how, f"Stuck({place})"))


def add_rat(script, clauses, line):
    book = Book(4, clauses, 1, 1)
    told = answer(book.inside, 0, len(clauses) + 1, *line)
    script.ask(f"rat {line_words(*line)}", f"step {book.steps[0]}" if book.steps else told)


def small_propagations():
    """Walks and RAT tests over small formulas, in one room, which is moved around its greatest stamp now and then."""
    random, script = Random(7), Script()
    for count in range(60):
        clauses = [random.clause() for _ in range(1 + random.below(8))]
        script.formula(4, clauses)
        if count % 3 == 0:
            script.ask(f"propagations {2**32 - 1 - random.below(30)}")
        numbers = range(1, len(clauses) + 1)
        for _ in range(40):
            add_propagation(script, clauses, random.literals(3), [random.of(numbers) for _ in range(random.below(6))])
        for _ in range(25):
            groups = [(random.of(numbers), [random.of(numbers) for _ in range(random.below(3))]) for _ in range(random.below(5))]
            hints = [random.of(numbers) for _ in range(random.below(3))]
            add_rat(script, clauses, (random.literals(2), hints, groups))
    yield script.named("small propagations")


def long_propagations():
    """Propagations that assign many literals: near the greatest one, and so often that the list of stamps grows, in some of more
    literals than memory is kept for and some of fewer. No old stamp counts, so a propagation of 1 alone is stuck each time."""
    for name, first, count, times in (
        ("great literals", 134_215_000, 1500, 2),
        ("few great literals", 134_215_000, 300, 9),
        ("a list of stamps that grows", 3_000, 1500, 46),
        ("a list of stamps that stays", 3_000, 500, 46),
    ):
        script, many = Script(), list(range(first, first + count))
        clauses = [[1, 2], many, [-literal for literal in many]]
        script.formula(134_217_727, clauses)
        for _ in range(times):
            add_propagation(script, clauses, many, [2])
            add_propagation(script, clauses, [1], [2])
            add_propagation(script, clauses, many, [3, 2])
            add_propagation(script, clauses, [1], [1, 2])
        yield script.named(name)


# ---- long lines


def long_lines():
    """Lines of many hints, literals, groups and numbers over the four binary clauses, and numbers of many digits."""
    script, clauses = Script(), [[1, 2], [-1, 2], [1, -2], [-1, -2]]
    script.formula(2, clauses)
    book = Book(2, clauses, 1, 1000)
    script.ask("open 1 1000")

    def inside(own, lemma, hints, groups=(), written=None):
        line = f"inside 0 {written or own} {line_words(lemma, hints, groups)}"
        script.ask(line, answer(book.inside, 0, own, lemma, hints, groups))

    inside(5, [2], [1] * 40_000 + [2])
    inside(6, [1] * 100_000, [1, 3])
    inside(7, [3, -1, -2], [], [(candidate, [1] * 10_000) for candidate in (4, 3, 2, 1)])
    inside(8, [-3, 1], [], [(7, [])], written="0" * 10_000 + "8")
    numbers = [1_000_000 + number for number in range(3000)]
    for own in numbers[:40]:
        inside(own, [own], [])
    script.ask(f"drop 0 {words(numbers, 5, 0)}", answer(book.drop, 0, [*numbers, 5]))
    literals = list(range(10, 1500))
    inside(9, [2, *literals], [1, 2])
    inside(10, [2, *reversed(literals), -7], [1, 2])
    wanted = [*reversed(literals), 2]
    script.ask(f"import 0 11 {words(wanted, 0)}", answer(book.bind, 0, 11, wanted))
    for own, more in ((12, [3]), (13, [-7, 3]), (14, [9]), (15, [-12]), (16, [-2])):
        script.ask(f"import 0 {own} {words(more, wanted, 0)}", answer(book.bind, 0, own, [*more, *wanted]))
    wanted = [*more, *literals]
    script.ask(f"import 0 17 {words(wanted, 0)}", answer(book.bind, 0, 17, wanted))
    script.ask("show", *book.show())
    script.ask("candidates 700", words("candidates", book.candidates(700)))
    script.ask(f"inside 0 {'9' * 10_000} 2 0 1 2 0", f"line {len(script.text) + 1}: NumberRange")
    yield script.named("long lines")


def scripts():
    yield from lists_of_events()
    yield from imports_among_many()
    yield from small_propagations()
    yield from long_propagations()
    yield from long_lines()
