"""Prints a run of two proofs by extended resolution that name the same variables, and of a stream that joins them. The formula says,
twice, that four pigeons sit in three holes, once unless a switch is on, and once unless it is off. Each prover refutes one half
and so derives one value of the switch. (S. A. Cook, A short proof of the pigeon hole principle using extended resolution, 1976.)"""

HOLES = 3


class Prover:
    """A prover of one half, whose clauses each have the switch's literal."""

    def __init__(self, switch, first, number, top):
        self.switch, self.number, self.top, self.lines, self.added = switch, number, top, [], 0
        self.sits, self.apart, self.p = {}, {}, dict(PLACES)
        for at, (kind, key, _) in enumerate(CLAUSES, first):
            (self.sits if kind == "sits" else self.apart)[key] = at

    def say(self, literals, *hints):
        self.number += 1
        self.added += 1
        self.lines.append(" ".join(map(str, [self.number, *literals, self.switch, 0, *hints, 0])))
        return self.number

    def level(self, n):
        """Pigeons 1 to n + 1 in holes 1 to n become pigeons 1 to n in holes 1 to n - 1: one that sits in hole n takes the hole of
        pigeon n + 1. So q(i, j) stands for p(i, j), or p(i, n) and p(n + 1, j)."""
        p, q, one, sits, apart = self.p, {}, {}, {}, {}
        for i in range(1, n + 1):
            for j in range(1, n):
                self.top += 1
                q[i, j] = self.top
                one[i, j] = self.say([q[i, j], -p[i, j]])
                self.say([q[i, j], -p[i, n], -p[n + 1, j]])
                both = (-one[i, j], -one[i, j] - 1)
                self.say([-q[i, j], p[i, j], p[i, n]], *both)
                self.say([-q[i, j], p[i, j], p[n + 1, j]], *both)
        for i in range(1, n):
            for k in range(i + 1, n + 1):
                for j in range(1, n):
                    pair, near, far = [-q[i, j], -q[k, j]], one[i, j], one[k, j]
                    half = self.say([*pair, -p[i, j]], self.apart[i, k, j], far + 3, self.apart[i, n + 1, j])
                    others = (near + 2, near + 3, self.apart[k, n + 1, j], far + 2, self.apart[i, k, n])
                    apart[i, k, j] = self.say(pair, half, *others)
        for i in range(1, n + 1):
            holes = range(1, n)
            near, far = [one[i, j] for j in holes], [one[i, j] + 1 for j in holes]
            hints = [*near, self.sits[i], *far, self.apart[i, n + 1, n], self.sits[n + 1]]
            sits[i] = self.say([q[i, j] for j in holes], *hints)
        self.p, self.sits, self.apart = q, sits, apart

    def proof(self):
        for n in range(HOLES, 1, -1):
            self.level(n)
        self.say([], self.sits[1], self.sits[2], self.apart[1, 2, 1])
        return "".join(line + "\\n" for line in self.lines)


PLACES = {(i, j): (i - 1) * HOLES + j for i in range(1, HOLES + 2) for j in range(1, HOLES + 1)}
SWITCH = len(PLACES) + 1
CLAUSES = [("sits", i, [PLACES[i, j] for j in range(1, HOLES + 1)]) for i in range(1, HOLES + 2)]
CLAUSES += [
    ("apart", (i, k, j), [-PLACES[i, j], -PLACES[k, j]])
    for i in range(1, HOLES + 1)
    for k in range(i + 1, HOLES + 2)
    for j in range(1, HOLES + 1)
]
HALF = len(CLAUSES)
formula = [f"p cnf {SWITCH} {2 * HALF}"]
for switch in (SWITCH, -SWITCH):
    formula += [" ".join(map(str, [*literals, switch, 0])) for _, _, literals in CLAUSES]
provers = [Prover(SWITCH, 1, 2 * HALF, SWITCH), Prover(-SWITCH, HALF + 1, 2 * HALF, SWITCH)]
number = 2 * HALF + 1
print("words: cnf a b --close join")
print("file cnf: " + "".join(line + "\\n" for line in formula))
print("file a: " + provers[0].proof())
print("file b: " + provers[1].proof())
print(f"file join: {number} i {SWITCH} 0\\n{number + 1} i {-SWITCH} 0\\n{number + 2} 0 {number} {number + 1} 0\\n")
for seat, prover in enumerate(provers):
    print(f"out: c stream {seat}: {prover.added} added, 0 deleted, 0 imported, ended")
print("out: c stream 2: 1 added, 0 deleted, 2 imported, stopped")
print("out: s VERIFIED UNSAT")
print()
print("case two proofs by extended resolution that name the same variables")
print("in turn too")
