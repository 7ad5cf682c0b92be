#!/usr/bin/env python3
"""Splits a formula into the 2^K cubes over its K most frequent variables.
  split.py FORMULA K FOLDER
FOLDER gets a file `cubes`, with a line `a LITERAL .. 0` for each cube, and for cube I a file `cubeI.cnf`: the formula, and
behind its clauses each literal of the cube as a unit clause."""
import collections
import itertools
import pathlib

from dimacs import read_formula, text_of_formula, words_or_usage

formula, count, folder = words_or_usage(__doc__, 3)
count, folder = int(count), pathlib.Path(folder)
variables, clauses = read_formula(formula)
uses = collections.Counter(abs(literal) for clause in clauses for literal in clause)
chosen = sorted(sorted(uses, key=lambda variable: (-uses[variable], variable))[:count])
cubes = [[sign * variable for sign, variable in zip(signs, chosen)] for signs in itertools.product((1, -1), repeat=count)]
folder.mkdir(exist_ok=True)
(folder / "cubes").write_text("".join(" ".join(map(str, ["a", *cube, 0])) + "\n" for cube in cubes))
for number, cube in enumerate(cubes):
    units = [[literal] for literal in cube]
    (folder / f"cube{number}.cnf").write_text(text_of_formula(variables, clauses + units))
print(f"{len(cubes)} cubes over the variables {', '.join(map(str, chosen))}")
