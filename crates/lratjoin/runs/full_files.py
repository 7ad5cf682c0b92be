"""Prints runs whose proof of 24 bytes is written into a file that takes fewer, and into one that takes them all: the file has
just the bytes that it takes, and the verdict is that of a run without a proof. Then the same of a proof of several pieces."""

PROOF = "5 2 0 1 2 0\n6 0 5 3 4 0\n"
LONG = "".join(f"{number} 1 0 {number - 1} 0\n" for number in range(2, 10_002))


def written(text):
    return text.replace("\n", r"\n")


def print_case(proof, taken, whole):
    """Prints a run whose file takes so many bytes of a proof. The status is `whole` where it takes all."""
    print(f"case a file that takes {taken} bytes of {len(proof)}\nroom in files: {taken}\nwrote out: {written(proof[:taken])}")
    is_cut = taken < len(proof)
    print("err: lratjoin: out: cannot write\nstatus: 2\n" if is_cut else f"status: {whole}\n")


print(r"""file cnf: p cnf 2 4\n1 2 0\n-1 2 0\n1 -2 0\n-1 -2 0\n
file lrat: 5 2 0 1 2 0\n6 0 5 3 4 0\n
words: cnf lrat --proof out
in turn too
on threads too
out: c stream 0: 2 added, 0 deleted, 0 imported, stopped
out: s VERIFIED UNSAT
""")
for taken in range(len(PROOF) + 1):
    print_case(PROOF, taken, 0)

print(rf"""file cnf: p cnf 1 1\n1 0\n
file lrat: {written(LONG)}
words: cnf lrat --proof out
in turn too
on threads too
out: c stream 0: 10000 added, 0 deleted, 0 imported, ended
out: s NOT VERIFIED
""")
for taken in (0, 1, 65_535, 65_536, 65_537, 100_000, 131_072, len(LONG) - 1, len(LONG)):
    print_case(LONG, taken, 1)
