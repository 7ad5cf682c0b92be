"""Feeds a built program with formulas and streams made by `made_proofs.py`, for some seconds:
  fuzz.py SECONDS PROGRAM [--seed N] [--keep FOLDER]
Each input is run in turn, and on threads too. In turn the program has to print and write just what plain code answers that scans
lists (`plain_book.py`, `plain_texts.py`), also of damaged inputs. So has it where one stream runs on threads, behind two others
that give the formula's clauses up. Of several streams on threads the report has to be well formed, and the program, run again over
the joint proof, has to accept each of its lines and to come to the same verdict. A formula that an assignment satisfies is never
verified. A signal, no end within 10 seconds, a status outside 0 to 3, or anything on standard error with status 0 or 1 is a
failure too. The input of each failure is kept: in FOLDER, or else in a folder that is named at the end. The seed is printed, and
with it the same inputs come again, for as long as it runs. Each has a seed of its own, in the name of what is kept: with that
seed it comes first.
The status is 1 if there was a failure."""
import argparse
import pathlib
import random
import re
import subprocess
import sys
import tempfile
import time

sys.dont_write_bytecode = True
sys.path.append(str(pathlib.Path(__file__).resolve().parent.parent / ".ci"))
import made_proofs
from plain_book import Book, Refused, hints_and_groups, trimmed
from plain_texts import lines_of, read_formula, read_line

SECONDS = 10
ROW = re.compile(r"c stream (\d+): (\d+) added, (\d+) deleted, (\d+) imported, (ended|stopped|line [1-9]\d*: \w+(\([\d, ]+\))?)")


class Input:
    """A formula and streams, of which the last may be a closing one, with further words."""

    def __init__(self, formula, streams, closes=False, limit=None, trims=False):
        self.formula, self.streams, self.closes, self.limit, self.trims = formula, streams, closes, limit, trims

    def files(self):
        return {"cnf": self.formula, **{f"stream{at}": text for at, text in enumerate(self.streams)}}

    def words(self, *more):
        names = [f"stream{at}" for at in range(len(self.streams))]
        paths = [*names[:-1], "--close", names[-1]] if self.closes else names
        limit = [] if self.limit is None else ["--max-steps", str(self.limit)]
        return ["cnf", *paths, "--proof", "proof", *(["--trim"] if self.trims else []), *limit, *more]

    def behind(self):
        """The same input of one stream, as a closing one behind two that give up all that the formula may have."""
        given_up = b"0 d " + b" ".join(b"%d" % number for number in range(1, 100)) + b" 0\n"
        return Input(self.formula, [given_up, given_up, *self.streams], True, self.limit, self.trims)


# ---- what has to come out, by plain scans


def enter(book, seat, read):
    """Enters a line, and gives what it is counted as."""
    kind, *parts = read
    if kind == "add":
        book.inside(seat, parts[0], list(parts[1]), *hints_and_groups(parts[2]))
        return 0
    if kind == "delete":
        book.drop(seat, list(parts[0]))
        return 1
    book.bind(seat, *parts)
    return 2


def report(book, seat, text):
    """The report of a stream that is run by itself."""
    counts = [0, 0, 0]
    for at, tokens, goes_on in lines_of(text):
        if book.verdict is not None:
            break
        read = read_line(tokens, goes_on)
        try:
            if isinstance(read, str):
                raise Refused(read)
            counts[enter(book, seat, read)] += 1
        except Refused as refused:
            return counts, f"line {at}: {refused}"
    return counts, "ended" if book.verdict is None else "stopped"


def wanted(given):
    """What a run in turn has to end with: its status, its texts and its proof."""
    read = read_formula(given.formula.decode("latin-1"))
    if isinstance(read, tuple):
        return 2, "", f"lratjoin: cnf: line {read[1]}: {read[0]}\n", ""
    _, header, _ = next(iter(lines_of(given.formula.decode("latin-1"))))
    book = Book(int(header[2]), read, len(given.streams), 2**32 - 1 if given.limit is None else given.limit)
    rows = []
    for seat, text in enumerate(given.streams):
        (added, deleted, imported), end = report(book, seat, text.decode("latin-1"))
        rows.append(f"c stream {seat}: {added} added, {deleted} deleted, {imported} imported, {end}")
    is_verified = book.verdict is not None
    steps = trimmed(len(read), book.steps) if given.trims and is_verified else book.steps
    rows.append("s VERIFIED UNSAT" if is_verified else "s NOT VERIFIED")
    return 0 if is_verified else 1, "".join(row + "\n" for row in rows), "", "".join(step + "\n" for step in steps)


def may_be_satisfied(formula):
    """Whether an assignment satisfies a formula's text, where it has few variables; else nothing is known."""
    read = read_formula(formula.decode("latin-1"))
    used = sorted({abs(literal) for clause in read for literal in clause}) if isinstance(read, list) else []
    names = {variable: at for at, variable in enumerate(used, 1)}
    if len(used) > 10 or isinstance(read, tuple):
        return False
    renamed = [[names[abs(literal)] * (1 if literal > 0 else -1) for literal in clause] for clause in read]
    return made_proofs.is_satisfiable(len(used), renamed)


# ---- running


class Fuzz:
    def __init__(self, program, folder, keep):
        self.program, self.folder, self.keep = program, folder, keep
        self.counts = dict.fromkeys(["inputs", "runs", "verified", "not verified", "faults", "failures"], 0)

    def run(self, given, *more):
        """How the program ends on an input: its status, its texts and its proof."""
        for name, text in given.files().items():
            (self.folder / name).write_bytes(text)
        (self.folder / "proof").unlink(missing_ok=True)
        self.counts["runs"] += 1
        done = subprocess.run([self.program, *given.words(*more)], cwd=self.folder, stdin=subprocess.DEVNULL,
                              capture_output=True, timeout=SECONDS)
        proof = (self.folder / "proof").read_bytes() if (self.folder / "proof").exists() else b""
        texts = (text.decode("latin-1") for text in (done.stdout, done.stderr, proof))
        return done.returncode, *texts

    def differs(self, given, *more):
        """What differs where the outcome is known."""
        got, right = self.run(given, *more), wanted(given)
        names = ("status", "standard output", "standard error", "proof")
        found = [f"{name}: {one!r}\nand not {other!r}" for name, one, other in zip(names, got, right) if one != other]
        return "\n".join(found) or self.unsound(given, got)

    def unsound(self, given, got):
        """Whether a run verified what an assignment satisfies."""
        return "verified, and an assignment satisfies it" if got[0] == 0 and may_be_satisfied(given.formula) else ""

    def joins_badly(self, given):
        """What is wrong with a run on threads whose outcome depends on what comes first."""
        status, out, err, proof = self.run(given)
        if status not in (0, 1) or err:
            right = wanted(given)
            return "" if (status, out, err) == right[:3] else f"status {status}, {out!r}, {err!r}"
        rows, verdict = out.splitlines()[:-1], out.splitlines()[-1:]
        found = [ROW.fullmatch(row) for row in rows]
        if len(rows) != len(given.streams) or None in found or [int(row[1]) for row in found] != list(range(len(rows))):
            return f"the report {out!r}"
        if verdict != [["s VERIFIED UNSAT"], ["s NOT VERIFIED"]][status]:
            return f"status {status} with {verdict}"
        added, imported = (sum(int(row[part]) for row in found) for part in (2, 4))
        steps = [step for step in proof.splitlines() if " d " not in step]
        if len(steps) > added + imported or status == 1 and len(steps) < added:
            return f"{added} additions, {imported} imports, and {len(steps)} additions in the proof"
        again = Input(given.formula, [proof.encode()])
        end = f"c stream 0: {len(steps)} added, {len(proof.splitlines()) - len(steps)} deleted, 0 imported, "
        rows = end + ["stopped\ns VERIFIED UNSAT\n", "ended\ns NOT VERIFIED\n"][status]
        got = self.run(again)
        if got != (status, rows, "", proof):
            return f"the joint proof {proof!r} ends with {got}"
        return self.unsound(given, got)

    def judge(self, given):
        """What is wrong with how the program runs on an input."""
        status = wanted(given)[0]
        self.counts[["verified", "not verified", "faults"][status]] += 1
        if len(given.streams) == 1:
            return self.differs(given) or self.differs(given.behind())
        return self.differs(given, "--in-turn") or self.joins_badly(given)

    def try_one(self, seed):
        self.counts["inputs"] += 1
        given, is_whole = made(random.Random(seed))
        try:
            found = self.judge(given)
            if is_whole and not found and wanted(given)[0] != 0:
                found = "a whole proof isn't verified, and plain code says so too"
        except subprocess.TimeoutExpired:
            found = f"no end within {SECONDS} seconds"
        if found:
            self.counts["failures"] += 1
            self.keep_input(seed, given, found)

    def keep_input(self, seed, given, found):
        """Keeps the files of an input, its words, and what is wrong."""
        folder = self.keep / f"seed-{seed}"
        folder.mkdir(parents=True, exist_ok=True)
        for name, text in given.files().items():
            (folder / name).write_bytes(text)
        (folder / "words").write_text(" ".join(given.words()) + "\n")
        (folder / "found").write_text(found + "\n")
        print(f"{folder}: {found[:300]}", flush=True)


def made(source):
    """An input, and whether its streams are to be verified as they are."""
    variables, clauses = made_proofs.formula(source)
    is_joint, has_rats, is_damaged = (source.random() < odds for odds in (0.4, 0.5, 0.6))
    if is_joint:
        streams = made_proofs.portfolio(source, variables, clauses, has_rats)
    else:
        streams = [made_proofs.single(source, variables, clauses)]
    streams = [made_proofs.padded(source, text) if source.random() < 0.05 else text for text in streams]
    streams = [text.encode() for text in streams]
    others = [text.encode() for text in made_proofs.portfolio(source, variables, clauses, True)]
    formula = made_proofs.formula_text(source, variables, clauses)
    if is_damaged:
        at = source.randrange(len(streams))
        streams[at] = made_proofs.damaged(source, streams[at], source.choice(others))
    if source.random() < 0.06:
        formula, is_damaged = made_proofs.damaged(source, formula, source.choice(others)), True
    limit = source.randint(0, 12) if source.random() < 0.1 else None
    is_whole = not is_damaged and limit is None and not (is_joint and has_rats)
    is_whole = is_whole and not made_proofs.is_satisfiable(variables, clauses)
    # Of a run on threads the whole proof is looked at.
    return Input(formula, streams, is_joint, limit, not is_joint and source.random() < 0.3), is_whole


def main():
    parser = argparse.ArgumentParser(description="Feeds a built program with formulas and streams.")
    parser.add_argument("seconds", type=float)
    parser.add_argument("program", type=pathlib.Path)
    parser.add_argument("--seed", type=int, default=time.time_ns() % 10**9)
    parser.add_argument("--keep", type=pathlib.Path)
    asked = parser.parse_args()
    keep = asked.keep or pathlib.Path(tempfile.mkdtemp(prefix="fuzz-"))
    print(f"seed {asked.seed}", flush=True)
    until = time.monotonic() + asked.seconds
    with tempfile.TemporaryDirectory() as folder:
        fuzz, seed = Fuzz(asked.program.resolve(), pathlib.Path(folder), keep), asked.seed
        while time.monotonic() < until:
            fuzz.try_one(seed)
            seed += 1
    print(", ".join(f"{count} {name}" for name, count in fuzz.counts.items()))
    if fuzz.counts["failures"]:
        print(f"the inputs of the failures are in {keep}")
    elif not asked.keep:
        keep.rmdir()
    sys.exit(bool(fuzz.counts["failures"]))


main()
