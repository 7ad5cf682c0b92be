"""Prints runs of many clauses, candidates or lines, with what each has to report and its whole joint proof."""


def case(name, formula, lines, told, steps, status=1):
    print(f"case {name}\nfile cnf: " + r"\n".join([*formula, ""]) + "\nfile lrat: " + r"\n".join([*lines, ""]))
    print(f"out: c stream 0: {told}\nout: s {'NOT VERIFIED' if status else 'VERIFIED UNSAT'}")
    print("wrote out: " + r"\n".join([*steps, ""]) + f"\nstatus: {status}\n")


print("words: cnf lrat --proof out\nin turn too\non threads too\n")

case(
    "a million empty clauses, of which one is imported and another refutes",
    ["p cnf 0 1000000", *["0"] * 1_000_000],
    ["1000001 i 0", "1000002 0 7 0"],
    "1 added, 0 deleted, 1 imported, stopped",
    ["1000001 0 7 0"],
    status=0,
)

# The candidates of 1 are all clauses, and each closes before any hint, by 2.
CANDIDATES = 100_000
clauses = [f"p cnf 3 {CANDIDATES}", *["-1 2 0"] * (CANDIDATES - 1)]
named = [" ".join(str(-number) for number in numbers) for numbers in (range(CANDIDATES, 0, -1), range(1, CANDIDATES + 1))]
case(
    "a hundred thousand candidates that are named from the last to the first, and that aren't named",
    [*clauses, "-1 2 0"],
    [f"100001 1 -2 0 {named[0]} 0", "100002 1 -2 0 0"],
    "2 added, 0 deleted, 0 imported, ended",
    [f"100001 1 -2 0 {named[1]} 0", f"100002 1 -2 0 {named[1]} 0"],
)
case(
    "a hundred thousand candidates, of which the last isn't covered",
    [*clauses, "-1 3 0"],
    ["100001 1 -2 0 0"],
    "0 added, 0 deleted, 0 imported, line 1: MissingGroup(100000)",
    [],
)

# Each lemma closes by the one before.
FAR = [1, *(2**40 * at for at in [*range(1, 1000), 2**23 - 1])]
case(
    "numbers that are 2^40 apart, up to the last below 2^63",
    ["p cnf 1 1", "1 0"],
    [f"{own} 1 0 {hint} 0" for hint, own in zip(FAR, FAR[1:])],
    "1000 added, 0 deleted, 0 imported, ended",
    [f"{number} 1 0 {number - 1} 0" for number in range(2, 1002)],
)
case(
    "a new variable a line, which no other line has",
    ["p cnf 1 1", "1 0"],
    [f"{variable} {variable} 0 0" for variable in range(2, 10_002)],
    "10000 added, 0 deleted, 0 imported, ended",
    [f"{variable} {variable} 0 0" for variable in range(2, 10_002)],
)
case(
    "a number that is bound and given up ten thousand times",
    ["p cnf 1 1", "1 0"],
    ["2 1 0 1 0", "2 d 2 0"] * 10_000,
    "10000 added, 10000 deleted, 0 imported, ended",
    [step for number in range(2, 10_002) for step in (f"{number} 1 0 1 0", f"{number} d {number} 0")],
)
