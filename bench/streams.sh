#!/usr/bin/env bash
# Runs a built program many times on the four streams of a prover and what closes over them, in turn and on threads, and
# sees that each run is verified and prints the same text.
#   streams.sh PATH-OF-LRATJOIN FOLDER [TIMES]
# FOLDER has the formula, r280.cnf.gz, and the streams, q_r280_4.tar.gz; each way is run TIMES times, 100 if left out.
# Here the streams meet in the closing one alone: none of them imports, and none derives the empty clause. So each is
# entered whole, whatever the schedule, and nothing that is printed may differ. Each time is that of a whole process.
set -euo pipefail

usage="usage: streams.sh PATH-OF-LRATJOIN FOLDER [TIMES]"
program=$(realpath "${1:?$usage}")
folder=$(realpath "${2:?$usage}")
times=${3:-100}
scratch=$(mktemp -d)
trap 'rm -rf "$scratch"' EXIT
cd "$scratch"

gzip -dc "$folder/r280.cnf.gz" > formula.cnf
tar xzf "$folder/q_r280_4.tar.gz"
words=(formula.cnf q_r280_4/s00[0-3].lrat --close q_r280_4/close.lrat)

# One run: its text in `told`, and its line of times.
run() {
    local start=${EPOCHREALTIME/[.,]/}
    if ! "$program" "${words[@]}" "${@:2}" > told 2> faults || ! grep -qx 's VERIFIED UNSAT' told; then
        echo "$1: not verified" >&2
        cat told faults >&2
        exit 1
    fi
    echo "$1 $((${EPOCHREALTIME/[.,]/} - start))" >> micros
}

run "first in turn" --in-turn
mv told wanted
: > micros
for ((i = 1; i <= times; i++)); do
    for way in in-turn threads; do
        if [ "$way" = in-turn ]; then run "$way" --in-turn; else run "$way"; fi
        if ! diff wanted told > differs; then
            echo "run $i, $way: another text than the first in turn" >&2
            cat differs >&2
            exit 1
        fi
    done
done

cat wanted
echo "load of the machine: $(cut -d ' ' -f 1-3 /proc/loadavg), processors: $(nproc)"
awk '
    { runs[$1]++; sum[$1] += $2 }
    !($1 in least) || $2 < least[$1] { least[$1] = $2 }
    $2 > most[$1] { most[$1] = $2 }
    END { for (way in runs) printf "%s: %d runs, %.3f s at least, %.3f s in the mean, %.3f s at most\n", way, runs[way], least[way] / 1e6, sum[way] / runs[way] / 1e6, most[way] / 1e6 }
' micros
