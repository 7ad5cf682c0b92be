"""Reads and writes DIMACS formulas. The other scripts of this folder import it, all but `check.py`."""
import sys


def words_or_usage(usage, *counts):
    """The words behind the script's name. If there aren't as many as one of `counts`, it prints `usage` and ends with status 2."""
    words = sys.argv[1:]
    if len(words) not in counts:
        print(usage, file=sys.stderr)
        sys.exit(2)
    return words


def read_formula(path):
    """The number of variables of a formula, and its clauses as lists of literals."""
    with open(path) as file:
        lines = [line.split() for line in file if line.strip() and not line.lstrip().startswith("c")]
    variables, clauses, clause = int(lines[0][2]), [], []
    for literal in (int(word) for line in lines[1:] for word in line):
        if literal:
            clause.append(literal)
        else:
            clauses.append(clause)
            clause = []
    return variables, clauses


def read_cubes(path):
    """The cubes of a file that has a line `a LITERAL .. 0` for each."""
    with open(path) as file:
        return [[int(word) for word in line.split()[1:-1]] for line in file if line.startswith("a ")]


def text_of_formula(variables, clauses):
    lines = [f"p cnf {variables} {len(clauses)}", *(" ".join(map(str, [*clause, 0])) for clause in clauses)]
    return "\n".join(lines) + "\n"
