"""Prints runs of a portfolio of cubes whose provers derive stronger clauses than its closing stream asks for. The formula has every
clause over four variables. Each prover has a cube over the first three, and derives a clause with the negations of two of its
literals. The closing stream imports the negations of the whole cubes, and refutes them together. What the joint proof has in turn
is found by plain scans."""
import itertools

VARIABLES = 4


def words(*parts):
    return " ".join(map(str, parts))


def in_order(literals):
    return sorted(literals, key=abs)


class Joint:
    """The joint proof of streams that run in turn: the live clauses and the steps, each the number that it adds, None where it deletes,
    its hints or what it deletes, and its text."""

    def __init__(self, clauses):
        self.formula = self.last = len(clauses)
        self.live, self.steps = {number: set(clause) for number, clause in enumerate(clauses, 1)}, []

    def add(self, literals, hints):
        self.last += 1
        self.live[self.last] = set(literals)
        lemma = [*literals[:1], *in_order(literals[1:])]
        self.steps.append((self.last, hints, words(self.last, *lemma, 0, *hints, 0)))
        return self.last

    def delete(self, numbers):
        for number in numbers:
            del self.live[number]
        self.steps.append((None, numbers, words(self.last, "d", *sorted(numbers), 0)))

    def bind(self, literals):
        parts = [number for number, clause in self.live.items() if clause <= set(literals)]
        equal = [number for number in parts if self.live[number] == set(literals)]
        return min(equal) if equal else self.add(in_order(literals), [min(parts)])

    def text(self):
        return "".join(f"{text}\\n" for _, _, text in self.steps)

    def trimmed(self):
        """The text of the steps that the last one needs."""
        needed, last, lines = {self.steps[-1][0]}, self.formula, []
        for number, hints, _ in reversed(self.steps):
            needed |= set(hints) if number in needed else set()
        for number, named, text in self.steps:
            kept = sorted(set(named) & (needed | set(range(self.formula + 1))))
            if number in needed:
                last = number
                lines.append(text)
            elif number is None and kept:
                lines.append(words(last, "d", *kept, 0))
        return "".join(f"{line}\\n" for line in lines)


class Stream:
    """A stream: its lines, its own numbers with the joint ones, and how many lines it has of each kind."""

    def __init__(self, joint):
        self.joint, self.lines, self.counts = joint, [], [0, 0, 0]
        self.own = {number: number for number in range(1, joint.formula + 1)}

    def say(self, kind, *parts):
        self.lines.append(words(*parts, 0))
        self.counts[kind] += 1

    def bound(self, joint):
        number = len(self.own) + 1
        self.own[number] = joint
        return number

    def add(self, literals, hints):
        number = self.bound(self.joint.add(literals, [self.own[hint] for hint in hints]))
        self.say(0, number, *literals, 0, *hints)
        return number

    def delete(self, numbers):
        self.joint.delete([self.own[number] for number in numbers])
        self.say(1, 0, "d", *numbers)

    def bind(self, literals):
        number = self.bound(self.joint.bind(literals))
        self.say(2, number, "i", *literals)
        return number

    def derive(self, literals):
        """Adds a clause by two with one literal more each, down to those of the formula, and deletes these two."""
        variable = next((it for it in range(VARIABLES, 0, -1) if it not in map(abs, literals)), None)
        if variable is None:
            return CLAUSES.index(in_order(literals)) + 1
        halves = [self.derive([*literals, literal]) for literal in (variable, -variable)]
        number = self.add(literals, halves)
        if halves[0] > len(CLAUSES):
            self.delete(halves)
        return number

    def join(self, literals):
        """Adds a clause by two with one literal more each, down to the imported negations of the cubes."""
        if len(literals) == VARIABLES - 1:
            return self.bind(literals)
        variable = len(literals) + 1
        return self.add(literals, [self.join([*literals, literal]) for literal in (variable, -variable)])

    def report(self, seat, end):
        added, deleted, imported = self.counts
        return f"out: c stream {seat}: {added} added, {deleted} deleted, {imported} imported, {end}"


CLAUSES = [[*clause] for clause in itertools.product(*((variable, -variable) for variable in range(1, VARIABLES + 1)))]
CUBES = list(itertools.product(*((variable, -variable) for variable in range(1, VARIABLES))))
joint = Joint(CLAUSES)
streams = []
for at, cube in enumerate(CUBES):
    streams.append(Stream(joint))
    streams[-1].derive([-literal for place, literal in enumerate(cube) if place != at % len(cube)])
closing = Stream(joint)
closing.bind([-literal for literal in reversed(CUBES[0])])
closing.bind(CLAUSES[-1])
closing.join([])

paths = "cnf " + " ".join(f"cube{at}" for at in range(len(CUBES))) + " --close closing"
print(f"words: {paths}")
print(f"file cnf: p cnf {VARIABLES} {len(CLAUSES)}\\n" + "".join(f"{words(*clause, 0)}\\n" for clause in CLAUSES))
for at, stream in enumerate([*streams, closing]):
    name = f"cube{at}" if at < len(CUBES) else "closing"
    print(f"file {name}: " + "".join(f"{line}\\n" for line in stream.lines))
    print(stream.report(at, "ended" if at < len(CUBES) else "stopped"))
print("out: s VERIFIED UNSAT")
print("\ncase on threads, again and again\ntimes: 100")
print(f"\ncase in turn, with the joint proof\nwords: --in-turn {paths} --proof out\nwrote out: {joint.text()}")
print(f"\ncase in turn, with the trimmed proof\nwords: --in-turn {paths} --proof out --trim\nwrote out: {joint.trimmed()}")
