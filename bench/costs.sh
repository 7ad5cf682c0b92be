#!/usr/bin/env bash
# Counts what a built program takes on inputs that are dear where a cost is lost. No load of the machine changes a count.
#   costs.sh PATH-OF-LRATJOIN [WORDS]
# Each row has two counts, the second's ratio to the first, and the bound of that ratio. With WORDS, only rows run whose
# name holds them. A row is of one of three kinds:
#   - instructions for an input and for one of twice its size;
#   - instructions for an input and for another one beside it, which costs more or less by a known part;
#   - the reads and writes that an input and a proof of so many bytes may take, and those that they take.
# Each bound stands between the ratio of the right body and that of a wrong one, which `docs/MEASUREMENTS.md` lists under
# "Costs". Both were counted over builds with checks.
# A ratio above its bound is wrong: the row says so, and the status is 1. Status 2: a tool is missing, or a run went wrong.
# It needs valgrind (`apt-get install valgrind`) and Python 3, and takes some two minutes of one processor.
set -euo pipefail

here=$(cd "$(dirname "$0")" && pwd)
program=$(realpath "${1:?usage: costs.sh PATH-OF-LRATJOIN [WORDS]}")
for tool in valgrind python3; do
    if ! command -v "$tool" > /dev/null; then
        echo "costs.sh: $tool is missing: apt-get install $tool" >&2
        exit 2
    fi
done
exec python3 "$here/costs.py" "$program" "${2:-}"
