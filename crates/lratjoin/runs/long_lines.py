"""Prints runs of lines that are long by repeated literals, by repeated hints, and by the digits of a number, and of closing
tokens that are no numbers."""


def case(name, line, told, proof, status="1"):
    print(f"case {name}\nfile lrat: {line}" + r"\n")
    print(f"out: c stream 0: {told}\nout: s NOT VERIFIED")
    print(f"wrote out: {proof}\nstatus: {status}\n")


ACCEPTED = "1 added, 0 deleted, 0 imported, ended"
REFUSED = "0 added, 0 deleted, 0 imported, line 1: "

print(r"""file cnf: p cnf 2 4\n1 2 0\n-1 2 0\n1 -2 0\n-1 -2 0\n
words: cnf lrat --proof out
in turn too
on threads too
""")
case("a literal a million times", "5" + " 1" * 1_000_000 + " 0 1 3 0", ACCEPTED, r"5 1 0 1 3 0\n")
hints = "1 " * 100_000 + "2 0"
case("a hundred thousand hints and one", f"5 2 0 {hints}", ACCEPTED, f"5 2 0 {hints}" + r"\n")
case("a clause number of ten thousand zeros and a 5", "0" * 10_000 + "5 2 0 1 2 0", ACCEPTED, r"5 2 0 1 2 0\n")
case("a clause number of ten thousand nines", "9" * 10_000 + " 2 0 1 2 0", REFUSED + "NumberRange", "")
case("a closing token of a zero and a NUL", r"5 1 0 0\x00", REFUSED + "BadNumber", "")
case("a closing token of a zero and a byte FF", r"5 1 0 0\xff", REFUSED + "BadNumber", "")
case("a closing token of a byte FF alone", r"5 1 0 \xff", REFUSED + "BadNumber", "")
