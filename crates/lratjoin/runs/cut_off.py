"""Prints runs whose formula or stream is cut off at each byte, with the fault, the refusal or the counts that each must end
with. They come from the plain readers of `.ci/plain_texts.py`. What the book says to a line that can be read was worked out by
hand."""
import pathlib
import sys

sys.dont_write_bytecode = True
sys.path.append(str(pathlib.Path(__file__).resolve().parents[3] / ".ci"))
from plain_texts import lines_of, read_formula, read_line

FORMULAS = [
    "c hi\np cnf 2 2\n1 -2 0 2\n 0\n%\n0\n",
    "p cnf 0 0",
    "p cnf 2 1\n2 2 -1 0",
    "p cnf 2 1\n1\nc x\n-2 0\n",
    "p cnf 02 1\n1 -1 00\n",
    "1 2 0\n",
    "p cnf 2\n",
    "p cnf 134217728 0\n",
    "p cnf 2 1\n1 3 0\n",
    "p cnf 2 1\n1 +2 0\n",
    "p cnf 2 1\n1 -0\n",
    "p cnf 2 1\n1 % 0\n",
    "p cnf 2 2\n1 0\n2",
    "p cnf 2 1\n1 0 2 0\n",
    "p cnf 2 2\n1 0\n%\n",
    "p cnf 2 2\n1 0\n",
    "p cnf 0 0\n0\n",
    "p cnf 1 1\n1 0 %x\n",
    "p cnf 134217727 4294967296\n",
]

STREAMS = [
    "5 2 0 1 2 0",
    "005 01 0 00\n",
    "5 -3 1 3 1 0 7 -2 4 -6 0\n",
    "0 d 1 0\n",
    "5 d 0\n",
    "7 i -2 1 0\n",
    "7 i 0\n",
    "c 5 x\n\n \t\r\n",
    "5 1 0 0\r\n",
    "5 x 0 0\n",
    "5 +1 0 0\n",
    "5 1 d 0\n",
    "5 d1 0\n",
    "5 -",
    "5 134217728 0 0\n",
    "9223372036854775808 1 0 0\n",
    "-5 1 0 0\n",
    "0 1 0 0\n",
    "0 i 1 0\n",
    "5 d -1 0\n",
    "5 1 0 0 7\n",
    "5 2 0 1 2\n",
    "0 134217728 0 0\n",
    "-9223372036854775808 1 0 0\n",
    "5 d -9223372036854775808 0\n",
    "5 1 0 0 9223372036854775808\n",
    "5 1 0 0 d\n",
    "5 2 0 1 2 0\n6 1 0 1 3 0\n0 d 6 1 0\n7 i -1 -2 0\n6 0 5 3 7 0\n",
]

# What the book says to a line on the four binary clauses: what it is counted as, or why it is refused.
BINARY = "p cnf 2 4\n1 2 0\n-1 2 0\n1 -2 0\n-1 -2 0\n"
LINES = {
    ("add", 5, (2,), (1, 2)): "added",
    ("add", 5, (1,), ()): "MissingGroup(2)",
    ("add", 5, (-3, 1, 3, 1), (7, -2, 4, -6)): "UnknownNumber(7)",
    ("add", 6, (1,), (1, 3)): "added",
    ("add", 6, (), (5, 3, 7)): "stopped",
    ("delete", (1,)): "deleted",
    ("delete", ()): "deleted",
    ("delete", (6, 1)): "deleted",
    ("import", 7, (-2, 1)): "imported",
    ("import", 7, (-1, -2)): "imported",
    ("import", 7, ()): "NoSuchClause",
}


def read_stream(text):
    """What is reported of a stream."""
    counts, end = {"added": 0, "deleted": 0, "imported": 0}, "ended"
    for at, tokens, goes_on in lines_of(text):
        read = read_line(tokens, goes_on)
        said = read if isinstance(read, str) else LINES[read]
        if said == "stopped":
            counts["added"] += 1
            end = said
            break
        if said not in counts:
            end = f"line {at}: {said}"
            break
        counts[said] += 1
    return ", ".join(f"{counts[name]} {name}" for name in counts) + f", {end}"


def written(text):
    """A text as a table has it."""
    for byte, escape in (("\\", r"\\"), ("\n", r"\n"), ("\t", r"\t"), ("\r", r"\r")):
        text = text.replace(byte, escape)
    return text


def cuts(texts):
    """The beginnings of texts, each once."""
    return dict.fromkeys(text[:length] for text in texts for length in range(len(text) + 1))


def print_formula(text):
    """Prints a run of a formula. The stream imports its clauses, literal by literal, each by a number of its own."""
    read = read_formula(text)
    print(f"case the formula {written(text)}\nfile cnf: {written(text)}")
    if isinstance(read, tuple):
        print(f"err: lratjoin: cnf: line {read[1]}: {read[0]}\nstatus: 2\n")
        return
    imports = (f"{900 + at} i {' '.join(map(str, [*clause, 0]))}\n" for at, clause in enumerate(read))
    print(f"file lrat: {written(''.join(imports))}")
    print(f"out: c stream 0: 0 added, 0 deleted, {len(read)} imported, ended")
    print("out: c stream 1: 0 added, 0 deleted, 0 imported, ended\nout: s NOT VERIFIED\nstatus: 1\n")


def print_stream(text):
    """Prints a run of a stream."""
    report = read_stream(text)
    print(f"case the stream {written(text)}\nfile lrat: {written(text)}")
    for other in ("ended", "stopped") if report.endswith("stopped") else ("ended",):
        print("or" if other == "stopped" else f"status: {0 if report.endswith('stopped') else 1}")
        print(f"out: c stream 0: {report}\nout: c stream 1: 0 added, 0 deleted, 0 imported, {other}")
        print("out: s VERIFIED UNSAT" if report.endswith("stopped") else "out: s NOT VERIFIED")
    print()


print(f"file cnf: {written(BINARY)}\nfile lrat:\nfile none:\nwords: cnf lrat none\nin turn too\n")
for formula in cuts(FORMULAS):
    print_formula(formula)
for stream in cuts(STREAMS):
    print_stream(stream)
