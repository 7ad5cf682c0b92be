"""Runs of a program in which requests for memory are refused, as `refuse.c` does."""
import os
import pathlib
import shutil
import struct
import subprocess
import sys

HERE = pathlib.Path(__file__).resolve().parent
SECONDS = 10
ALL = 10**9


def compile_library(room, name="refuse"):
    if not shutil.which("cc"):
        sys.exit(f"no C compiler is here under the name cc, and {name}.c needs one")
    library = pathlib.Path(room) / f"{name}.so"
    if subprocess.run(["cc", "-shared", "-fPIC", "-O1", "-o", library, HERE / f"{name}.c"]).returncode:
        sys.exit(f"{name}.c couldn't be compiled")
    return library


def run_refused(words, library, folder, first, last, again=0, **how):
    """Runs a program's words in a folder, with the requests from the first to the last refused, and one more. Answers how it
    ended, None where that took too long, and how many requests there were and how many were refused, None where nothing told of
    them."""
    told = folder / "told"
    told.unlink(missing_ok=True)
    refusing = {"REFUSE_FROM": str(first), "REFUSE_TO": str(last), "REFUSE_AGAIN": str(again), "REFUSE_TOLD": "told"}
    environment = {**os.environ, "LD_PRELOAD": str(library), **refusing}
    try:
        ran = subprocess.run(words, cwd=folder, env=environment, timeout=SECONDS, capture_output=True, text=True, **how)
    except subprocess.TimeoutExpired:
        return None, None
    return ran, struct.unpack("=qq", told.read_bytes()) if told.exists() else None


def refuse_each(run, pool, kinds):
    """Refuses each request in turn. `run` refuses that of a number, and maybe others behind it, and answers how many there were,
    how many were refused, what was told and what is wrong. Counts what was told, and answers how many requests could be refused,
    and what is wrong."""
    number = 1
    while True:
        ends = list(pool.map(run, range(number, number + 64)))
        for at, (_, refused, told, wrong) in enumerate(ends):
            if wrong or not refused:
                return number + at - 1, [wrong for *_, wrong in ends if wrong]
            kinds[told] += 1
        number += 64
