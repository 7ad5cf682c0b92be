#!/usr/bin/env bash
# Measures a built program on a proof of some 230,000 lines that is made without a solver, and on one of half its size:
# extended resolution, so that a sixth of the lines are RAT. It prints lines, MB/s and peak memory of both, and how many
# times as long the longer one takes: its status is 1 where that is above 2.2.
#   pigeonhole.sh PATH-OF-LRATJOIN
# Each time is that of a whole process on files that were read before, and the least of nine, each in turn.
set -euo pipefail

here=$(cd "$(dirname "$0")" && pwd)
program=$(realpath "${1:?usage: pigeonhole.sh PATH-OF-LRATJOIN}")
scratch=$(mktemp -d)
trap 'rm -rf "$scratch"' EXIT
cd "$scratch"

for holes in 25 30; do
    awk -v n="$holes" -v what=cnf -f "$here/pigeonhole.awk" > "$holes.cnf"
    awk -v n="$holes" -f "$here/pigeonhole.awk" > "$holes.lrat"
    cat "$holes.cnf" "$holes.lrat" > /dev/null
done

echo "load of the machine: $(cut -d ' ' -f 1-3 /proc/loadavg), processors: $(nproc)"
for _ in 1 2 3 4 5 6 7 8 9; do
    for holes in 25 30; do
        start=${EPOCHREALTIME/[.,]/}
        if ! /usr/bin/time -q -o memory -f %M "$program" "$holes.cnf" "$holes.lrat" > told 2>&1 || ! grep -qx 's VERIFIED UNSAT' told; then
            echo "$holes holes: $(tail -n 1 told)" >&2
            exit 1
        fi
        echo "$holes $((${EPOCHREALTIME/[.,]/} - start)) $(cat memory) $(wc -l < "$holes.lrat") $(wc -c < "$holes.lrat")"
    done
done | awk '
    !($1 in micros) || $2 < micros[$1] { micros[$1] = $2 }
    { kilobytes[$1] = $3; lines[$1] = $4; bytes[$1] = $5 }
    END {
        for (n = 25; n <= 30; n += 5) printf "%d lines, %.1f MB: %.3f s, %.1f MB/s, %.0f MB at most\n", lines[n], bytes[n] / 1e6, micros[n] / 1e6, bytes[n] / micros[n], kilobytes[n] / 1024
        printf "%.2f times the lines, %.2f times the bytes, %.2f times as long\n", lines[30] / lines[25], bytes[30] / bytes[25], micros[30] / micros[25]
        if (micros[30] > 2.2 * micros[25]) {
            print "wrong: the longer one takes more than 2.2 times as long" > "/dev/stderr"
            exit 1
        }
    }'
