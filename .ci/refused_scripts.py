"""Refuses each growth of memory in turn to the program that plays scripts, in scripts that reach each call of a book and of a
shared book. A call that is refused for want of memory is made once more. Each request is refused in three ways:

- once: the program prints the script's whole output, or a beginning of its lines and then `line L: NoMemory`, where L is the line
  whose command would have printed what comes next.
- twice, the second time some requests later, where once the whole output was printed: where the call that met the first meets the
  second too, its reply is `Refused(NoMemory)`, and all that is printed is as of a plain book that leaves this one call out
  (`plain_script.py`).
- on, with all behind it: the program prints a beginning and then that `line L: NoMemory`, or a beginning and then a reply
  `Refused(NoMemory)`; what comes after that is free.

A command `verdict` right behind the line that adds the empty clause to a shared book may print `no verdict`: that call was
accepted, though the memory for its verdict was refused, and the next call makes up for it. Where the memory for the script's own
text is refused the program ends with status 1 and prints nothing.

Some scripts are played as lists of events too, each by one call of `play`. There a refused event isn't played once more, so a
request that is refused once shows what two do elsewhere. A call of `play` that is refused itself has run no event: the program
prints `NoMemory` and the book as it was. Each `show` stands there twice, and the second one plays the events again."""
import pathlib
import re
import subprocess
import sys
import tempfile
import threading

from plain_script import NO_MEMORY, NOT_PLAYED, refused_outputs, unplayed_outputs
from refusing import ALL, SECONDS, refuse_each, run_refused

SCRIPTS = pathlib.Path(__file__).resolve().parent.parent / "crates" / "lj_script" / "scripts"
BY_EVENTS = (
    *("stale_receipts", "neighbours", "leaving", "given_up", "imports", "groups", "own_variables", "private_variables"),
    *("stronger_clauses", "stronger_neighbours"),
)
OF_BOOKS = (*BY_EVENTS, "found", "verdicts", "trimming")
OF_SHARED_BOOKS = ("shared", "shared_receipts", "shared_untold", "private_shared", "stronger_shared")
UNPLAYED = ("propagations", "rat_lines")
# How many requests later the second is refused: a shared book's lines are read once more before the call is made once more.
AGAIN = {**dict.fromkeys(OF_BOOKS, range(1, 3)), **dict.fromkeys(OF_SHARED_BOOKS, range(1, 11))}
# The least count of runs of a program that have to tell NoMemory.
LEAST = 10_000
# The least count of calls that runs have to show refused for good.
LEAST_CALLS = 700
NO_START = "Error: Kind(OutOfMemory)\n"


class Script:
    """A stored script: its text, its output, after each line of the script how many lines of the output there are, and the
    outputs with a call refused for good, where a plain book plays it, with the way that shows them, and those that were shown; and
    those with a call of `play` refused."""

    def __init__(self, name, text, wanted, counts, refused=(), way="twice", unplayed=()):
        self.name, self.text, self.wanted, self.counts = name, text, wanted.splitlines(), counts
        self.refused, self.way, self.unplayed, self.shown = refused, way, unplayed, set()
        before = re.finditer(r"^(submit|enter) \d+ \d+ 0 .*\n(?=verdict$)", text, flags=re.M)
        self.verdicts = {counts[text.count("\n", 0, found.end())] for found in before}

    def begins_with(self, lines):
        """Whether these are the first lines of its output."""
        pairs = enumerate(zip(lines, self.wanted))
        return len(lines) <= len(self.wanted) and all(
            line == wanted or line == "no verdict" and at in self.verdicts for at, (line, wanted) in pairs
        )


def stored(program, name, by_events):
    """The script of this name, whose counts the program tells by its output of each beginning."""
    text, wanted = ((SCRIPTS / f"{name}.{ending}").read_text() for ending in ("txt", "out"))
    right, refused = (wanted.splitlines(), set()) if name in UNPLAYED else refused_outputs(text)
    if right != wanted.splitlines():
        raise SystemExit(f"a plain book doesn't print what the script {name} has to")
    if by_events:
        text = re.sub("^open ", "events ", re.sub("^show$", "show\nshow", text, flags=re.M), flags=re.M)
        right, refused = refused_outputs(text)
        wanted = "".join(f"{line}\n" for line in right)
    lines, counts = text.splitlines(), [0]
    for number in range(1, len(lines) + 1):
        beginning = "".join(line + "\n" for line in lines[:number])
        ran = subprocess.run([program], input=beginning, capture_output=True, text=True, timeout=SECONDS)
        counts.append(sum(not line.startswith("line ") for line in ran.stdout.splitlines()))
    if by_events:
        return Script(f"{name}, by events", text, wanted, counts, refused, "once", unplayed_outputs(text))
    return Script(name, text, wanted, counts, refused)


def judge(script, way, status, out, err):
    """What is wrong with how a script ended where a request was refused in a way, and what it told: "NoMemory", a "call" that was
    refused for good, a "play" that was refused, a "start" that failed, or "nothing"."""
    if (status, out, err) == (1, "", NO_START):
        return None, "start"
    lines = out.splitlines()
    if status not in (0, 2) or err or out and not out.endswith("\n"):
        return f"status {status}, on standard output {out[-200:]!r}, and on standard error {err!r}", None
    if len(lines) == len(script.wanted) and script.begins_with(lines) and status == 0:
        return None, "nothing"
    if status == 0 and way == script.way and tuple(lines) in script.refused:
        return None, "call"
    if status == 0 and way == "once" and tuple(lines) in script.unplayed:
        return None, "play"
    refusals = [at for at, line in enumerate(lines) if line in (NO_MEMORY, NOT_PLAYED)]
    if way == "on" and refusals:
        front = lines[: refusals[0]]
        return (None, "NoMemory") if script.begins_with(front) else (f"the lines {front[-3:]}", None)
    end = re.fullmatch(r"line ([1-9]\d*): NoMemory", lines[-1]) if lines else None
    if not end or status != 2 or not script.begins_with(lines[:-1]):
        return f"status {status}, and the last lines {lines[-3:]}", None
    at = int(end[1])
    if at >= len(script.counts) or not script.counts[at - 1] <= len(lines) - 1 <= script.counts[at]:
        return f"{lines[-1]!r} behind {len(lines) - 1} lines", None
    return None, "NoMemory"


def check_judge():
    """Sees that wrong ends are told from right ones."""
    wanted = "Added(0, 2)\nlive 1 0\nno verdict\nverdict 0\n"
    refused = {("Refused(NoMemory)", "live 1 0", "no verdict", "verdict 0")}
    unplayed = {("NoMemory", "live 1 0", "no verdict", "verdict 0")}
    script = Script("", "\n\nshow\nsubmit 0 1 0 0\nverdict\n", wanted, [0, 0, 0, 1, 3, 4], refused, unplayed=unplayed)
    right = [
        ("once", 1, "", NO_START),
        ("once", 0, wanted, ""),
        ("once", 0, "Added(0, 2)\nlive 1 0\nno verdict\nno verdict\n", ""),
        ("once", 2, "Added(0, 2)\nlive 1 0\nno verdict\nline 5: NoMemory\n", ""),
        ("once", 2, "line 2: NoMemory\n", ""),
        ("once", 2, "Added(0, 2)\nlive 1 0\nline 4: NoMemory\n", ""),
        ("twice", 0, "Refused(NoMemory)\nlive 1 0\nno verdict\nverdict 0\n", ""),
        ("once", 0, "NoMemory\nlive 1 0\nno verdict\nverdict 0\n", ""),
        ("on", 0, "Added(0, 2)\nNoMemory\nlive 1 0\n", ""),
        ("on", 2, "Added(0, 2)\nline 4: NoMemory\n", ""),
        ("on", 0, "Refused(NoMemory)\nno verdict\n", ""),
        ("on", 2, "Refused(NoMemory)\nline 4: NoMemory\n", ""),
    ]
    wrong = [
        ("once", -6, "", ""),
        ("once", 1, "Added(0, 2)\n", NO_START),
        ("once", 0, "Added(0, 2)\nlive 1 0\n", ""),
        ("once", 0, "Added(0, 2)\nlive 1 0\nno verdict\n", ""),
        ("once", 0, "Added(0, 2)\nlive 1 0\nno verdict\nverdict 1\n", ""),
        ("once", 0, "no verdict\nlive 1 0\nno verdict\nverdict 0\n", ""),
        ("once", 2, "Added(0, 2)\nlive 1 0\nno verdict\nverdict 0\n", ""),
        ("once", 0, "Refused(NoMemory)\nno verdict\n", ""),
        ("once", 0, "Refused(NoMemory)\nlive 1 0\nno verdict\nverdict 0\n", ""),
        ("twice", 0, "Refused(NoMemory)\nno verdict\n", ""),
        ("once", 2, "Added(0, 2)\nlive 1line 4: NoMemory\n", ""),
        ("once", 2, "Added(0, 2)\nlive 2 0\nline 4: NoMemory\n", ""),
        ("once", 2, "Added(0, 2)\nline 3: Full\n", ""),
        ("once", 2, "Added(0, 2)\nline 2: NoMemory\n", ""),
        ("once", 2, "line 4: NoMemory\n", ""),
        ("once", 2, "Added(0, 2)\nlive 1 0\nline 5: NoMemory\n", ""),
        ("once", 2, "Added(0, 2)\nlive 1 0\nline 6: NoMemory\n", ""),
        ("once", 0, "Added(0, 2)\nlive 1 0\nline 4: NoMemory\n", ""),
        ("once", 0, "NoMemory\nlive 2 0\nno verdict\nverdict 0\n", ""),
        ("twice", 0, "NoMemory\nlive 1 0\nno verdict\nverdict 0\n", ""),
        ("on", 0, "Added(0, 3)\nRefused(NoMemory)\n", ""),
        ("on", 0, "Added(0, 2)\nlive 1 0\n", ""),
    ]
    for ends, is_wrong in ((right, False), (wrong, True)):
        for end in ends:
            if bool(judge(script, *end)[0]) != is_wrong:
                raise SystemExit(f"the judgement of {end} is wrong: {judge(script, *end)}")


class Player:
    """Plays scripts on a program, in a folder of the thread's own."""

    def __init__(self, program, library, room):
        self.program, self.library, self.room = program, library, room
        self.own = threading.local()

    def play(self, script, way, first, later=0):
        """Refuses a request in a way. Answers how many there were, how many were refused, what was told and what is wrong."""
        if not hasattr(self.own, "folder"):
            self.own.folder = pathlib.Path(tempfile.mkdtemp(dir=self.room))
        last, again = ALL if way == "on" else first, first + later if way == "twice" else 0
        named = f"{self.program.name}, script {script.name}, request {first} refused {way}, {later} later"
        ran, counts = run_refused([self.program], self.library, self.own.folder, first, last, again, input=script.text)
        if not ran:
            return 0, 1, None, f"{named}: not done after {SECONDS} seconds"
        wrong, told = judge(script, way, ran.returncode, ran.stdout, ran.stderr)
        if told == "call":
            script.shown.add(ran.stdout)
        if not wrong and not counts:
            wrong = "nothing told of its requests"
        asked, refused = counts if not wrong else (0, 1)
        if not wrong and not refused and told != "nothing":
            wrong = f"nothing was refused, and {told} told"
        return asked, refused, told, wrong and f"{named}: {wrong}"


def refuse_in_each_way(player, script, pool, kinds):
    """Refuses each request of a script in each way. Answers what is wrong."""
    named, twice = f"{player.program.name}, script {script.name}", []
    asked, refused, _, wrong = player.play(script, "once", ALL)
    if wrong or refused:
        return [wrong or f"{named}: {refused} requests refused where none was to be"]

    def once(first):
        end = player.play(script, "once", first)
        if end[1] and end[2] == "nothing":
            twice.extend((first, later) for later in AGAIN.get(script.name, ()))
        return end

    for way in (once, lambda first: player.play(script, "on", first)):
        count, faults = refuse_each(way, pool, kinds)
        if not faults and count < asked:
            faults.append(f"{named}: only {count} of {asked} requests were refused")
        if faults:
            return faults
    ends = list(pool.map(lambda pair: player.play(script, "twice", *pair), twice))
    for _, _, told, wrong in ends:
        kinds[told] += not wrong
    return [wrong for *_, wrong in ends if wrong]


def refuse_all(program, library, room, pool):
    """Refuses each request of each script to a program. Answers whether all was well."""
    player, calls = Player(program, library, room), 0
    kinds = {"NoMemory": 0, "call": 0, "play": 0, "start": 0, "nothing": 0, None: 0}
    names = [*((name, False) for name in (*AGAIN, *UNPLAYED)), *((name, True) for name in BY_EVENTS)]
    for script in pool.map(lambda name: stored(program, *name), names):
        faults = refuse_in_each_way(player, script, pool, kinds)
        if faults:
            print("\n".join(faults[:9]), file=sys.stderr)
            return False
        calls += len(script.shown)
    if kinds["NoMemory"] < LEAST:
        print(f"{program.name}: {kinds['NoMemory']} runs tell NoMemory, and not {LEAST}", file=sys.stderr)
        return False
    if calls < LEAST_CALLS:
        print(f"{program.name}: {calls} calls were shown to be refused, and not {LEAST_CALLS}", file=sys.stderr)
        return False
    if kinds["play"] < len(BY_EVENTS):
        print(f"{program.name}: {kinds['play']} runs show a call of play that was refused, and not {len(BY_EVENTS)}", file=sys.stderr)
        return False
    told = f"{kinds['NoMemory']} told NoMemory, {kinds['call']} one of {calls} calls that were refused for good, "
    told += f"{kinds['play']} one of play, {kinds['start']} didn't start, {kinds['nothing']} did without"
    print(f"{program.name}: memory was refused in {sum(kinds.values())} runs, {told}")
    return True
