#!/usr/bin/env python3
"""Makes the closing stream of cubes that cover all assignments.
  close.py FORMULA CUBES
It imports the negation of each cube by its literals, under the numbers behind those of FORMULA's clauses, and refutes them
together."""
import sys

from dimacs import read_cubes, read_formula, words_or_usage
from prove import Prover

formula, cubes_file = words_or_usage(__doc__, 2)
count, cubes = len(read_formula(formula)[1]), read_cubes(cubes_file)
negations = [[-literal for literal in cube] for cube in cubes]
prover = Prover([], first_lemma=count + len(cubes) + 1)
prover.clauses = dict(enumerate(negations, count + 1))
if prover.refute() is None:
    sys.exit(f"{cubes_file}: the cubes leave an assignment out")
for number, clause in prover.clauses.items():
    if number <= count + len(cubes):
        print(number, "i", *clause, 0)
print("\n".join(prover.lines))
