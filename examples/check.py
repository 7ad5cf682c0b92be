#!/usr/bin/env python3
"""A small LRAT checker that shares nothing with lratjoin.
  check.py FORMULA PROOF
Prints `s VERIFIED UNSAT` (status 0), or the number of the first line that is wrong and `s NOT VERIFIED` (status 1)."""
import sys


def read_formula(path):
    words = []
    for line in open(path):
        if not line.lstrip().startswith(("c", "p")):
            words += map(int, line.split())
    clauses, clause = {}, []
    for literal in words:
        if literal:
            clause.append(literal)
        else:
            clauses[len(clauses) + 1] = frozenset(clause)
            clause = []
    return clauses


def propagate(clauses, true, hints):
    """True: a clause is false. None: no hint is left. False: a hint leaves two literals or more."""
    if any(-literal in true for literal in true):
        return True
    for hint in hints:
        left = {literal for literal in clauses[hint] if -literal not in true}
        if not left:
            return True
        if len(left) > 1:
            return False
        true |= left
    return None


def follows(clauses, lemma, hints):
    """Whether the lemma follows by unit propagation, or is RAT on its first literal."""
    first = next((place for place, hint in enumerate(hints) if hint < 0), len(hints))
    groups, group = {}, None
    for hint in hints[first:]:
        if hint < 0:
            group = groups.setdefault(-hint, [])
        else:
            group.append(hint)
    true = {-literal for literal in lemma}
    end = propagate(clauses, true, hints[:first])
    if end is not None or not lemma:
        return end is True
    for number, clause in clauses.items():
        if -lemma[0] in clause:
            others = {-literal for literal in clause if literal != -lemma[0]}
            if not propagate(clauses, true | others, groups.get(number, [])):
                return False
    return True


def take(clauses, line):
    """Carries a line out, and gives the lemma that it adds. Any error says that the line is wrong."""
    words = line.split()
    if words[1] == "d":
        numbers = [int(word) for word in words[2:]]
        if numbers.index(0) < len(numbers) - 1:
            raise ValueError(line)
        for number in numbers[:-1]:
            del clauses[number]
        return None
    number, *rest = map(int, words)
    middle = rest.index(0)
    lemma, hints = rest[:middle], rest[middle + 1:]
    if hints.index(0) < len(hints) - 1 or number in clauses or not follows(clauses, lemma, hints[:-1]):
        raise ValueError(line)
    clauses[number] = frozenset(lemma)
    return lemma


def main():
    if len(sys.argv) != 3:
        print(__doc__, file=sys.stderr)
        sys.exit(2)
    clauses = read_formula(sys.argv[1])
    for place, line in enumerate(open(sys.argv[2]), 1):
        try:
            lemma = take(clauses, line)
        except (IndexError, KeyError, ValueError):
            print(f"c line {place} is wrong")
            break
        if lemma == []:
            print("s VERIFIED UNSAT")
            sys.exit(0)
    print("s NOT VERIFIED")
    sys.exit(1)


main()
