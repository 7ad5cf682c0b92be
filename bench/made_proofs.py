"""Makes formulas over few variables, LRAT proofs for them by a small solver, and texts with damage. All by a `random.Random`."""

GREAT = [2**63 - 1, 2**63, 2**64, 2**32, 2**31, 134_217_727, 134_217_728, 10**30]
BYTES = b"0123456789- di\n\t\rcp%+x\0\xff"


def formula(random):
    """The number of variables and the clauses, mostly of two or three literals, and unsatisfiable about as often as not."""
    variables = random.randint(1, 5)
    most, many = min(3, variables), [3, 9, 20, 32, 44][variables - 1]
    clauses = []
    for _ in range(many if random.random() < 0.6 else random.randint(1, many)):
        length = random.randint(0, most) if random.random() < 0.02 else max(1, most - (random.random() < 0.2))
        clause = [random.choice([1, -1]) * variable for variable in random.sample(range(1, variables + 1), length)]
        if clause and random.random() < 0.05:
            clause.append(random.choice(clause) * random.choice([1, -1]))
        clauses.append(clause)
    return variables, clauses


def is_satisfiable(variables, clauses):
    """Whether an assignment satisfies the clauses, by trying each."""
    return any(
        all(any((literal > 0) == bool(assignment >> abs(literal) & 1) for literal in clause) for clause in clauses)
        for assignment in range(0, 2 ** (variables + 1), 2)
    )


class Prover:
    """A prover with own numbers, its clauses, and the lines that it has written."""

    def __init__(self, random, clauses):
        self.random, self.lines = random, []
        self.clauses = {number: list(clause) for number, clause in enumerate(clauses, 1)}
        self.of_formula, self.free, self.greatest = len(clauses), [], len(clauses)
        # The numbers that lines still to be written name.
        self.needed = []

    def number(self):
        """An own number: mostly the next one, at times one that was given up, or one far beyond."""
        if self.free and self.random.random() < 0.3:
            return self.free.pop()
        step = 1 if self.random.random() < 0.9 else self.random.choice([2, 100, 2**20, 2**40])
        self.greatest += step
        return self.greatest

    def add(self, lemma, hints, groups=()):
        """Writes an addition, and returns its number."""
        number = self.number()
        listed = [word for candidate, own in groups for word in (-candidate, *own)]
        self.lines.append(" ".join(map(str, [number, *lemma, 0, *hints, *listed, 0])))
        self.clauses[number] = list(lemma)
        return number

    def delete(self, numbers):
        """Gives numbers up, and now and then one that isn't held."""
        more = [self.greatest + 7] if self.random.random() < 0.1 else []
        self.lines.append(" ".join(map(str, [self.random.choice([0, self.greatest]), "d", *numbers, *more, 0])))
        for number in numbers:
            self.free += [number] if self.clauses.pop(number, None) is not None else []

    def bind(self, literals):
        """Writes an import, and returns its number."""
        number = self.number()
        self.lines.append(" ".join(map(str, [number, "i", *literals, 0])))
        self.clauses[number] = list(literals)
        return number

    def weaken(self, variables):
        """Writes an import of a clause with more literals than one of its own, where no clause of its own is that one."""
        more = [random_literal(self.random, variables) for _ in range(self.random.randint(1, 3))]
        literals = [*self.random.choice([[], *self.clauses.values()]), *more]
        parts = [set(clause) for clause in self.clauses.values() if set(clause) <= set(literals)]
        self.random.shuffle(literals)
        if parts and set(literals) not in parts:
            self.bind(literals)

    def bind_weaker(self, literals, variables):
        """Writes an import, or two of clauses with one more literal each, from which it follows; returns its number."""
        unused = sorted(set(range(1, variables + 1)) - {abs(literal) for literal in literals})
        if not unused or self.random.random() < 0.6:
            return self.bind(literals)
        literal = self.random.choice(unused) * self.random.choice([1, -1])
        return self.add(literals, [self.bind_weaker([half, *literals], variables) for half in (literal, -literal)])

    def define(self, new, first, second):
        """A new variable that stands for a conjunction, by three RAT lines."""
        both = self.add([new, -first, -second], [])
        for literal in (first, second):
            self.add([-new, literal], [], [(both, [])] if self.random.random() < 0.8 else [])

    def add_rat(self, variables):
        """A lemma of one or two literals, maybe of a new variable, where it is RAT."""
        lemma = [random_literal(self.random, variables + 1) for _ in range(self.random.randint(1, 2))]
        true, hints, closing = self.propagated([-literal for literal in lemma])
        groups = []
        for number, clause in self.clauses.items() if closing is None else ():
            if -lemma[0] in clause:
                assumed = true | {-literal for literal in clause if literal != -lemma[0]}
                is_closed = any(-literal in assumed for literal in assumed)
                _, more, closing = (assumed, [], number) if is_closed else self.propagated(assumed)
                if closing is None:
                    return
                groups.append((number, [] if is_closed else [*more, closing]))
        if closing is None or groups:
            self.random.shuffle(groups)
            self.add(lemma, hints, groups)

    def propagated(self, assumed):
        """The hints that make literals true behind these, and the clause that is false then, if there is one."""
        true, hints = set(assumed), []
        while True:
            found = None
            for number, clause in self.clauses.items():
                left = {literal for literal in clause if -literal not in true}
                if not left:
                    return true, hints, number
                if len(left) == 1 and not left & true:
                    found = number, left.pop()
            if not found:
                return true, hints, None
            hints.append(found[0])
            true.add(found[1])

    def refute(self, variables, assumed=()):
        """The number of a clause that these literals make false, lemma by lemma. None where they can be satisfied."""
        true, hints, closing = self.propagated(assumed)
        lemma = [-literal for literal in assumed]
        self.random.shuffle(lemma)
        if closing is None:
            unassigned = [v for v in range(1, variables + 1) if v not in true and -v not in true]
            if not unassigned:
                return None
            literal = self.random.choice(unassigned) * self.random.choice([1, -1])
            before, halves = len(self.needed), []
            self.needed += hints
            for branch in (literal, -literal):
                half = self.refute(variables, (*assumed, branch))
                if half is None:
                    return None
                halves.append(half)
                self.needed.append(half)
            del self.needed[before:]
            number = self.add(lemma, [*hints, *halves])
            used = [half for half in dict.fromkeys(halves) if half > self.of_formula and half not in self.needed]
            if used and self.random.random() < 0.5:
                self.delete(used)
            return number
        if not hints and self.random.random() < 0.7:
            return closing
        return self.add(lemma, [*hints, closing])

    def text(self):
        return "".join(line + "\n" for line in self.lines)


def random_literal(random, variables):
    return random.choice([1, -1]) * random.randint(1, variables)


def add_rats(random, variables, prover):
    """Writes some definitions and RAT lemmas. Returns the number of variables with those that are new."""
    for _ in range(random.choice([0, 0, 1, 2])):
        prover.define(variables + 1, random_literal(random, variables), random_literal(random, variables))
        variables += 1
    for _ in range(random.choice([0, 0, 3, 9])):
        prover.add_rat(variables)
    return variables


def add_imports(random, variables, prover):
    """Writes some imports of clauses that are weaker than the prover's own."""
    for _ in range(random.choice([0, 0, 1, 4])):
        prover.weaken(variables)


def single(random, variables, clauses):
    """A stream that refutes a formula, or that stops where it can be satisfied, with some imports and RAT lines before."""
    prover = Prover(random, clauses)
    add_imports(random, variables, prover)
    closed = prover.refute(add_rats(random, variables, prover))
    if closed is not None and (closed <= prover.of_formula or prover.clauses[closed]):
        prover.add([], [closed])
    return prover.text()


def portfolio(random, variables, clauses, has_rats=False):
    """Two streams, one for each half of the assignments, and a closing stream that joins them. With RAT lines the streams may
    stand in each other's way."""
    cube = random_literal(random, variables)
    streams, ends = [], []
    for literal in (cube, -cube):
        prover = Prover(random, clauses)
        if has_rats:
            add_rats(random, variables, prover)
        add_imports(random, variables, prover)
        ends.append(prover.refute(variables, (literal,)))
        if ends[-1] is not None:
            ends[-1] = prover.clauses[ends[-1]]
        streams.append(prover.text())
    closing = Prover(random, clauses)
    if None not in ends:
        closing.add([], [closing.bind_weaker(end, variables) for end in ends])
    return [*streams, closing.text()]


def padded(random, text):
    """The text with something before one of its lines that does nothing: a comment that ends about where a piece of the program's
    reads does, or deletions of nothing, about as many as it enters at a time."""
    lines = text.splitlines(True)
    at = random.randrange(len(lines) + 1)
    room = 65_536 * random.randint(1, 2) - sum(map(len, lines[:at])) - random.randint(0, 60)
    lines[at:at] = ["c" * room + "\n"] if random.random() < 0.5 else ["0 d 0\n"] * (1024 - random.randint(0, 40))
    return "".join(lines)


# ---- damage


def damaged_line(random, line):
    """A line with one of its words changed, gone, twice, or with blanks or zeros before it."""
    words = line.split(b" ")
    at = random.randrange(len(words))
    kind = random.choice([0, 0, 0, 1, 2, 2, 3, 3, 3, 4, 5, 6])
    if kind == 0:
        words[at] = random.choice(words)
    elif kind == 1:
        words[at] = str(random.choice(GREAT) * random.choice([1, -1])).encode()
    elif kind == 2:
        words[at] = str(random.randint(-9, 60)).encode()
    elif kind == 3:
        del words[at]
    elif kind == 4:
        words.insert(at, words[at])
    elif kind == 5:
        words[at] = b"0" * random.choice([1, 30, 5000]) + words[at]
    else:
        words[at] = random.choice([b"\t", b" ", b"\r", b" " * random.choice([3, 66_000])]) + words[at]
    return b" ".join(words)


def damaged_lines(random, lines, others):
    """Lines of which some are gone, twice, exchanged or changed, or among which others are."""
    for _ in range(random.choice([1, 1, 2, 4])):
        at = random.randrange(len(lines) + 1)
        kind = random.randrange(7) if at < len(lines) else 5
        if kind == 0:
            del lines[at]
        elif kind == 1:
            lines.insert(at, lines[at])
        elif kind == 2:
            other = random.randrange(len(lines))
            lines[at], lines[other] = lines[other], lines[at]
        elif kind in (3, 4):
            lines[at] = damaged_line(random, lines[at])
        elif kind == 5:
            lines[at:at] = others[: random.randint(1, 9)]
        else:
            lines.insert(at, random.choice([b"", b"c x", b" \t\r", b"c" * random.choice([1, 70_000])]))
    return lines


def damaged_bytes(random, text):
    """A text with some bytes changed, put in or gone, or cut off."""
    text = bytearray(text)
    for _ in range(random.choice([1, 1, 3, 9])):
        at = random.randrange(len(text) + 1)
        kind = random.randrange(4)
        if kind == 0:
            text[at : at + 1] = bytes([random.choice(BYTES)])
        elif kind == 1:
            text[at:at] = bytes(random.choice(BYTES) for _ in range(random.randint(1, 4)))
        elif kind == 2:
            del text[at : at + random.randint(1, 4)]
        elif random.random() < 0.3:
            del text[at:]
    return bytes(text)


def damaged(random, text, other):
    """A text of lines with damage; `other` is one whose lines it may get."""
    kind = random.randrange(20)
    if kind == 0:
        return bytes(random.choice(BYTES) for _ in range(random.randint(0, 200)))
    if kind == 1:
        return bytes(random.randrange(256) for _ in range(random.randint(0, 200)))
    if kind < 15:
        others = other.split(b"\n")[:-1]
        first = random.randrange(len(others) + 1)
        lines = damaged_lines(random, text.split(b"\n")[:-1], others[first:] or [b"1 d 1 0"])
        return b"".join(line + b"\n" for line in lines)
    return damaged_bytes(random, text)


def formula_text(random, variables, clauses):
    """The text of a formula, laid out in one of several ways."""
    ends = random.choice(["\n", "\n", " ", "\r\n", "\nc x\n"])
    body = "".join(" ".join(map(str, [*clause, 0])) + ends for clause in clauses)
    before = random.choice(["", "", "c hi\n", "\n \n"])
    return f"{before}p cnf {variables} {len(clauses)}\n{body}".encode() + random.choice([b"", b"", b"%\n0\n"])
