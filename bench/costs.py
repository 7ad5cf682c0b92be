"""The rows of `costs.sh`: makes their inputs, runs the program on them under valgrind, and prints their counts."""
import pathlib
import re
import subprocess
import sys
import tempfile
from typing import NamedTuple

# How many times as much twice the input may take.
TWICE = 2.3
# A read takes at least so many bytes of an input, and a write of a proof, but for a few.
PIECE = 32_768
FEW = 8


class Input(NamedTuple):
    """A formula, the streams, and the words behind their paths."""

    formula: str
    streams: list[str]
    words: tuple[str, ...] = ("--in-turn",)


class Row(NamedTuple):
    """Two inputs, and how many times as much the second may take."""

    name: str
    first: Input
    second: Input
    bound: float = TWICE


def twice(name, make, count):
    """The row of an input, and of one of twice the size."""
    return Row(name, make(count), make(2 * count))


def text(numbers):
    return " ".join(map(str, [*numbers, 0]))


def lines(each):
    return "".join(f"{line}\n" for line in each)


def formula(clauses):
    greatest = max(abs(lit) for clause in clauses for lit in clause)
    return f"p cnf {greatest} {len(clauses)}\n" + lines(map(text, clauses))


# The lists of the clauses that hold a literal


def rat_lines_as_given(count):
    """RAT lines with the group of the one candidate, among clauses that don't hold its literal."""
    clauses = [[-1, 2], [2], *[[2, 3]] * count]
    return Input(formula(clauses), [lines(f"{count + 3 + k} 1 0 -1 2 0" for k in range(count))])


def behind_dead_clauses(clause, line, count):
    """Lines that look through a list whose clauses died, but for one; an import before makes the lists."""
    lemmas = range(4, count + 4)
    stream = ["3 i 5 6 0", *(f"{k} {text(clause)} 1 0" for k in lemmas), f"3 d {text(lemmas)}"]
    stream += (f"{count + 4 + k} {line}" for k in range(count))
    return Input(formula([clause, [5, 6]]), [lines(stream)])


def imports_behind_dead_clauses(count):
    return behind_dead_clauses([1, 2], "i 1 2 0", count)


def candidates_behind_dead_clauses(count):
    return behind_dead_clauses([-1, 2], "1 -2 0 0", count)


def imports(common, rare, count):
    """Imports of the clause of a literal that all clauses hold and of one that no other clause holds."""
    clauses = [[rare, common], *([common, 3 + k] for k in range(count))]
    return Input(formula(clauses), [lines(f"{count + 2 + k} i {rare} {common} 0" for k in range(count))])


def imports_common_first(count):
    return imports(1, 2, count)


def imports_common_last(count):
    return imports(2, 1, count)


def imports_through_a_list(count, dead):
    """Imports through a list of so many clauses, the last of which are dead: all live, or just half."""
    clauses = [[1, 2], *[[1, 2, 3]] * (count - 1)]
    stream = [f"{count + 1} i 1 2 0", f"{count + 1} d {text(range(count - dead + 1, count + 1))}"]
    stream += (f"{count + 2 + k} i 1 2 0" for k in range(count))
    return Input(formula(clauses), [lines(stream)])


def imports_by_parts(count):
    """Imports of one clause by a part of it, each of which is given up before the next."""
    return Input(formula([[1], [2, 3]]), [lines(["3 i 1 2 0", "0 d 3 0"] * count)])


def long_imports_by_parts(count):
    """Imports of long clauses, each by the one part that it has, among lists of one other clause each."""
    literals = range(2, count + 2)
    clauses = [[1], *([literal, count + 2] for literal in literals), [count + 20]]
    return Input(formula(clauses), [lines(f"{count + 3 + k} i 1 {text([*literals, count + 3 + k])}" for k in range(9))])


def parts_behind_dead_empty_clauses(count):
    """Imports of one clause by a part of it, behind empty clauses of the formula that were given up since the first."""
    empty = range(3, count + 3)
    stream = [f"{count + 3} i 1 2 0", f"0 d {text(empty)}", *[f"0 d {count + 3} 0", f"{count + 3} i 1 2 0"] * count]
    return Input(formula([[1], [2, 3], *[[]] * count]), [lines(stream)])


def new_variables(tries):
    """Variables that come in with long lemmas, and so many lines that look through those of one for its negation."""
    rest, stream = text(range(1, 500)), []
    for variable in range(500, 505):
        stream += [f"{variable} {rest} 1 0", *[f"{rest} 1 0"] * 19, *[f"{variable} 0 0"] * tries]
    return Input(formula([[1]]), [lines(f"{2 + k} {line}" for k, line in enumerate(stream))])


# Deletions


def one_deletion(count, also=()):
    """Lemmas that one line deletes, the last one first."""
    lemmas = range(2, count + 2)
    stream = [*(f"{k} 1 0 1 0" for k in lemmas), f"2 d {text([*also, *reversed(lemmas)])}"]
    return Input(formula([[1]]), [lines(stream)])


def one_deletion_of_a_great_number_too(count):
    return one_deletion(count, [9_999_999_999])


def one_deletion_on_threads(count):
    alone = one_deletion(count)
    return Input(alone.formula, alone.streams * 2, ())


# Lines that are read, and a proof that is written


def one_long_line(count):
    """A line whose bytes stand in many pieces: a deletion of nothing, with blanks."""
    return Input(formula([[1]]), [f"1 d{' ' * count} 0\n"])


def short_lines(count, head):
    """Deletions that delete nothing, each behind these bytes."""
    return Input(formula([[1]]), [lines([f"{head}1 d 0"] * count)])


def many_lines(count):
    """Lemmas of a few literals, whose joint proof is written."""
    stream = lines(f"{k} 1 2 3 4 5 0 1 0" for k in range(3, count + 3))
    return Input(formula([[1], [2, 3, 4, 5]]), [stream], ("--in-turn", "--proof", "out"))


def lemmas_over_a_great_formula(count):
    """Lemmas of two seats on threads, as many of each as the formula has clauses."""
    clauses = [[1], *[[2, 3]] * count]
    return Input(formula(clauses), [lines(f"{count + 2 + k} 1 0 1 0" for k in range(count))] * 2, ())


# Groups


def groups_of_one_line(count):
    """A RAT line with the group of each of many candidates, the last one first."""
    groups = " ".join(f"-{k}" for k in range(count, 0, -1))
    return Input(formula([[-1, 2]] * count), [f"{count + 1} 1 -2 0 {groups} 0\n"])


def groups_of_many_lines(count, more=""):
    """RAT lines of eight candidates, whose groups are as they are recorded, but for hints more of the last one."""
    clauses = [*[[-1, 2]] * 8, [2, 4, 5], [-5]]
    groups = " ".join(f"-{k} 9 10" for k in range(1, 9))
    return Input(formula(clauses), [lines(f"{11 + k} 1 4 0 {groups}{more} 0" for k in range(count))])


# Trimming


def chain(count, words, numbers=None, more=0):
    """Lemmas each of which needs the one before, to the empty clause, under these numbers; each has more hints."""
    clauses = [[1], *([-k, k + 1] for k in range(1, count + 1)), [-count - 1]]
    own = [1, *(numbers or range(len(clauses) + 1, len(clauses) + count + 1))]
    hints = "1 " * more
    stream = [f"{own[k]} {k + 1} 0 {hints}{own[k - 1]} {k + 1} 0" for k in range(1, count + 1)]
    stream.append(f"{3 * count} 0 {own[count]} {count + 2} 0")
    return Input(formula(clauses), [lines(stream)], ("--in-turn", "--proof", "out", *words))


def trimmed_chain(count):
    return chain(count, ["--trim"])


def trimmed_chain_of_falling_numbers(count):
    return chain(count, ["--trim"], range(2 * count + 2, count + 2, -1))


# Walks and seats


def propagation_of_many_hints(count):
    return Input(formula([[1], [2, 3]]), [f"3 2 0 {text([1] * count)}\n"])


def propagations_along_a_chain(count):
    """Lemmas whose propagation takes each clause of a chain. Up to 511 variables, no stamp stands in a tree."""
    clauses = [[-k, k + 1] for k in range(1, count + 1)]
    proof = f"-1 {count + 1} 0 {text(range(1, count + 1))}"
    return Input(formula(clauses), [lines(f"{count + 1 + k} {proof}" for k in range(100))])


def propagations_of_a_long_lemma(count):
    """Lemmas of many literals, and a hint for each that leaves one literal more."""
    clauses = [*([k, -count - k] for k in range(1, count + 1)), range(count + 1, 2 * count + 1)]
    proof = f"{text(range(1, count + 1))} {text(range(1, count + 2))}"
    return Input(formula(clauses), [lines(f"{count + 2 + k} {proof}" for k in range(100))])


def one_busy_seat(seats, *words):
    """Lemmas of one seat, each of which it deletes, beside seats that do nothing."""
    stream = lines(f"{k} 1 0 1 0\n{k} d {k} 0" for k in range(2, 32_000))
    return Input(formula([[1]]), [stream, *[""] * (seats - 1)], words)


def rows():
    yield twice("RAT lines whose groups are as given", rat_lines_as_given, 1_500)
    yield twice("imports behind dead clauses", imports_behind_dead_clauses, 1_500)
    yield twice("candidates behind dead clauses", candidates_behind_dead_clauses, 1_500)
    yield twice("imports whose first literal is common", imports_common_first, 1_500)
    yield twice("imports whose last literal is common", imports_common_last, 1_500)
    yield twice("imports by a part that are given up in turn", imports_by_parts, 1_500)
    yield twice("long imports by a part", long_imports_by_parts, 1_500)
    yield twice("imports by a part behind dead empty clauses", parts_behind_dead_empty_clauses, 1_500)
    halved, living = imports_through_a_list(600, 300), imports_through_a_list(600, 0)
    yield Row("imports through a living list, beside a half dead one", halved, living, 1.4)
    unasked, asked = new_variables(0), new_variables(40)
    yield Row("new variables that are asked for, beside unasked ones", unasked, asked, 1.35)
    yield twice("a deletion of many numbers", one_deletion, 1_500)
    yield twice("a deletion of many numbers and a great one", one_deletion_of_a_great_number_too, 1_500)
    yield twice("a deletion of many numbers, on threads", one_deletion_on_threads, 1_500)
    yield Row("usual lines, beside lines behind a blank", short_lines(8_000, " "), short_lines(8_000, ""), 0.84)
    yield twice("a RAT line of many groups", groups_of_one_line, 2_000)
    copied, recorded = groups_of_many_lines(1_000, " 10"), groups_of_many_lines(1_000)
    yield Row("groups as recorded, beside those with an unread hint", copied, recorded, 0.92)
    whole, trimmed = chain(3_000, [], more=20), chain(3_000, ["--trim"], more=20)
    yield Row("a chain that is trimmed, beside one that isn't", whole, trimmed, 1.38)
    yield twice("a chain that is trimmed", trimmed_chain, 3_000)
    yield twice("a chain of falling numbers that is trimmed", trimmed_chain_of_falling_numbers, 800)
    yield twice("a propagation of many hints", propagation_of_many_hints, 2_000)
    yield twice("propagations along a chain", propagations_along_a_chain, 200)
    yield twice("propagations of a long lemma", propagations_of_a_long_lemma, 120)
    alone, among = one_busy_seat(1, "--in-turn"), one_busy_seat(64, "--in-turn")
    yield Row("a seat among 63 idle ones, beside it alone", alone, among, 1.11)
    yield Row("a seat among 63 on threads, beside it among one", one_busy_seat(2), one_busy_seat(64), 1.08)
    yield twice("lemmas over a great formula", lemmas_over_a_great_formula, 1_500)
    yield twice("a line of many pieces", one_long_line, 1_200_000)


class Bench:
    """The program, and a scratch folder for what it reads and writes."""

    def __init__(self, program, folder):
        self.program = program
        self.folder = pathlib.Path(folder)

    def log(self, given, *options):
        """What valgrind tells of a run on an input. Ends all where the program didn't accept each line."""
        names = [f"stream{seat}" for seat in range(len(given.streams))]
        for name, said in zip(["formula", *names], [given.formula, *given.streams]):
            (self.folder / name).write_text(said)
        words = ["valgrind", *options, "--log-file=log", self.program, "formula", *names, *given.words]
        ran = subprocess.run(words, cwd=self.folder, capture_output=True, text=True)
        reports = re.findall(r"^c stream \d+: (\d+) added, (\d+) deleted, (\d+) imported", ran.stdout, re.M)
        if [sum(map(int, it)) for it in reports] != [it.count("\n") for it in given.streams]:
            print(f"costs.sh: not all lines are accepted: {ran.stdout[:300]}{ran.stderr[:300]}", file=sys.stderr)
            sys.exit(2)
        return (self.folder / "log").read_text()

    def instructions(self, given):
        log = self.log(given, "--tool=callgrind", "--callgrind-out-file=/dev/null")
        return int(re.search(r"Collected : (\d+)", log)[1])

    def reads(self, given):
        """How many reads the input may take, and how many the program takes."""
        log = self.log(given, "--tool=none", "--trace-syscalls=yes")
        size = sum(map(len, [given.formula, *given.streams]))
        return size // PIECE + FEW, len(re.findall(r"sys_p?readv?\d* ", log))

    def writes(self, given):
        """How many writes the proof may take, and how many the program takes."""
        log = self.log(given, "--tool=none", "--trace-syscalls=yes")
        return (self.folder / "out").stat().st_size // PIECE + FEW, len(re.findall(r"sys_p?writev?\d* ", log))


def show(name, first, second, bound):
    """Prints a row. Returns whether its ratio is within the bound."""
    right = second <= bound * first
    ending = "" if right else "  wrong"
    print(f"{name:<54}{first:>13,}{second:>13,}{second / first:>10.2f}{bound:>6.2f}{ending}", flush=True)
    return right


def main(program, words):
    print(f"{'':<54}{'first':>13}{'second':>13}{'ratio':>10}{'bound':>6}")
    with tempfile.TemporaryDirectory() as folder:
        bench = Bench(program, folder)
        right = [
            show(row.name, bench.instructions(row.first), bench.instructions(row.second), row.bound)
            for row in rows()
            if words in row.name
        ]
        calls = {"reads of a stream": bench.reads, "writes of a proof": bench.writes}
        for what, counts in calls.items():
            name = f"{what}, beside those that it may take"
            if words in name:
                right.append(show(name, *counts(many_lines(20_000)), 1))
    if not right:
        print(f"costs.sh: no row's name holds {words}", file=sys.stderr)
        sys.exit(2)
    sys.exit(0 if all(right) else 1)


if __name__ == "__main__":
    main(*sys.argv[1:])
