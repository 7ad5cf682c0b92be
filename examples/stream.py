#!/usr/bin/env python3
"""Makes a stream for FORMULA of the LRAT proof of one of its cubes.
  stream.py FORMULA CUBES I PROOF [OFFSET]
PROOF refutes FORMULA with the literals of cube I (from 0) as unit clauses behind its own. Each lemma gets the negation of
the cube. Hints lose the numbers of the units, and deletions all numbers but those of lemmas. OFFSET (0) is added to the
numbers of lemmas, so that one stream can have several cubes. A line with RAT groups is refused: it is right of this cube,
but maybe not beside others."""
import sys

from dimacs import read_cubes, read_formula, words_or_usage

formula, cubes, index, proof, *offset = words_or_usage(__doc__, 4, 5)
offset = int(offset[0]) if offset else 0
count, cube = len(read_formula(formula)[1]), read_cubes(cubes)[int(index)]
first_lemma = count + len(cube) + 1


def renumbered(numbers):
    return [number + offset if number >= first_lemma else number for number in numbers]


with open(proof) as file:
    for line in file:
        words = line.split()
        if not words or words[0].startswith("c"):
            continue
        if words[1] == "d":
            numbers = [number for number in map(int, words[2:-1]) if number >= first_lemma]
            if numbers:
                print(0, "d", *renumbered(numbers), 0)
            continue
        end = words.index("0", 1)
        number, lemma, hints = int(words[0]), [int(word) for word in words[1:end]], [int(word) for word in words[end + 1:-1]]
        if any(hint < 0 for hint in hints):
            sys.exit(f"{proof}: a line with RAT groups: {line.strip()}")
        lemma += [-literal for literal in cube if -literal not in lemma]
        hints = [hint for hint in hints if hint <= count or hint >= first_lemma]
        print(*renumbered([number]), *lemma, 0, *renumbered(hints), 0)
