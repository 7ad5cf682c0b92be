#!/usr/bin/env python3
"""Stands in for a SAT solver: refutes a small formula and writes LRAT lines.
  prove.py FORMULA PROOF
Prints `s UNSATISFIABLE` (status 20) or `s SATISFIABLE` (status 10). It decides, propagates, and learns from each conflict
which decisions can't stand together. It is for formulas of some hundred clauses."""
import sys

from dimacs import read_formula, words_or_usage


class Prover:
    """The clauses by number, and the LRAT lines so far."""

    def __init__(self, clauses, first_lemma=None):
        self.clauses = dict(enumerate(clauses, 1))
        self.next = first_lemma or len(clauses) + 1
        self.lines = []

    def learn(self, lemma, hints):
        """Adds a lemma, and gives its number."""
        number, self.next = self.next, self.next + 1
        self.clauses[number] = sorted(lemma, key=abs)
        self.lines.append(" ".join(map(str, [number, *self.clauses[number], 0, *hints, 0])))
        return number

    def forget(self, numbers):
        for number in numbers:
            del self.clauses[number]
        self.lines.append(" ".join(map(str, [self.next - 1, "d", *numbers, 0])))

    def propagate(self, decisions):
        """What follows from the decisions: the reason of each true literal, and the number of a false clause or None."""
        reasons, changed = dict.fromkeys(decisions), True
        while changed:
            changed = False
            for number, clause in self.clauses.items():
                left = {literal for literal in clause if -literal not in reasons}
                if not left:
                    return reasons, number
                if len(left) == 1 and not left & reasons.keys():
                    reasons[left.pop()] = number
                    changed = True
        return reasons, None

    def explain(self, reasons, conflict):
        """The lemma that a conflict shows: the decisions it stands on, negated, with the hints in order."""
        hints, needed, lemma = [conflict], {-literal for literal in self.clauses[conflict]}, set()
        for literal, reason in reversed(reasons.items()):
            if literal in needed and reason is None:
                lemma.add(-literal)
            elif literal in needed:
                hints.append(reason)
                needed |= {-other for other in self.clauses[reason] if other != literal}
        return self.learn(lemma, hints[::-1])

    def refute(self, decisions=()):
        """The number of a lemma that is false under the decisions, or None where some assignment satisfies all clauses."""
        reasons, conflict = self.propagate(decisions)
        if conflict:
            return self.explain(reasons, conflict)
        open_clauses = (clause for clause in self.clauses.values() if not reasons.keys() & set(clause))
        clause = min(open_clauses, key=lambda it: sum(-literal not in reasons for literal in it), default=None)
        if clause is None:
            return None
        variable = next(abs(literal) for literal in clause if -literal not in reasons)
        found = []
        for literal in (variable, -variable):
            number = self.refute((*decisions, literal))
            if number is None or -literal not in self.clauses[number]:
                return number
            found.append(number)
        both = {literal for number in found for literal in self.clauses[number]} - {variable, -variable}
        number = self.learn(both, found)
        self.forget(found)
        return number


def main():
    formula, proof = words_or_usage(__doc__, 2)
    prover = Prover(read_formula(formula)[1])
    refuted = prover.refute() is not None
    if refuted:
        with open(proof, "w") as file:
            file.writelines(line + "\n" for line in prover.lines)
    print("s UNSATISFIABLE" if refuted else "s SATISFIABLE")
    sys.exit(20 if refuted else 10)


if __name__ == "__main__":
    main()
