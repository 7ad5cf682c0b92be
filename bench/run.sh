#!/usr/bin/env bash
# Measures the readers of lj_text, and prints what it measures: their speed over 50 MB of LRAT lines beside that of
# `wc -l` and of a plain reader in C, the time that one line of a million tokens takes, in pieces of one byte too, the speed
# and the memory for lines of 100 MB that are meant to be slow or to take much, and the memory that a formula's header
# takes. Given the word `gigabyte`, it also reads a line of a gigabyte, which takes 6 GB of memory. What takes more than 1.3
# times as long as what is linear, or more than 8 bytes of memory for a byte, is named in the last lines, and the status is 1.
#
# The program is read_lines.txt. It is no .rt file, since the gate refuses one that belongs to no crate of crates.txt.
# It is proved and built in a scratch folder, by LLVM, over a copy of the library, and nothing is written here.
#
# Each time is that of a whole process, and the least of five, or of three for lines of 10 MB and more; that of the 50 MB is
# told by the program's own clock too. What is compared is run in turn, so that what else the machine does is beside each alike.
set -euo pipefail

here=$(cd "$(dirname "$0")" && pwd)
top=$(dirname "$here")
scratch=$(mktemp -d)
trap 'rm -rf "$scratch"' EXIT

build() {
    mkdir -p "$scratch/crates/read_lines/src"
    cp -r "$top/crates/lj_clause" "$top/crates/lj_text" "$scratch/crates"
    cp "$here/read_lines.txt" "$scratch/crates/read_lines/src/main.rt"
    grep -E '^(lj_clause|lj_text):' "$top/crates.txt" > "$scratch/crates.txt"
    echo 'read_lines: anyhow lj_clause lj_text' >> "$scratch/crates.txt"
    git init -q "$scratch"
    : > "$scratch/empty"
    if ! (cd "$scratch/crates/read_lines" && rt run -- bytes "$scratch/empty" 1) > "$scratch/log" 2>&1; then
        cat "$scratch/log" >&2
        exit 1
    fi
    gcc -O2 -x c -o "$scratch/lines_c" "$here/lines_c.txt"
}

read_lines() {
    "$scratch/crates/read_lines/out/read_lines" "$@" > "$scratch/printed"
}

# Prints a name and the microseconds that a command takes.
timed() {
    local name=$1 start
    shift
    start=${EPOCHREALTIME/[.,]/}
    "$@"
    echo "$name $((${EPOCHREALTIME/[.,]/} - start))"
}

# Ends all where a file's lines were not handed out, each once.
handed_out() {
    if ! grep -qx "lines $(wc -l < "$1")" "$scratch/printed"; then
        echo "the lines handed out are not those of $1" >&2
        exit 1
    fi
}

# Of rows of a name and a number, each name with its least number.
least() {
    awk '!($1 in least) || $2 < least[$1] { least[$1] = $2 } END { for (name in least) print name, least[name] }'
}

# The microseconds that the program took last by its own clock, without its start.
own() {
    awk -v name="$1" '$1 == "microseconds" { print name, $2 }' "$scratch/printed"
}

speed() {
    awk -v bytes=50000000 -f "$here/lines.awk" > "$scratch/lines"
    for _ in 1 2 3 4 5; do
        timed wc wc -l "$scratch/lines" | tail -n 1
        timed c "$scratch/lines_c" "$scratch/lines" | tail -n 1
        for size in 4096 65536; do
            timed "$size" read_lines lines "$scratch/lines" "$size"
            handed_out "$scratch/lines"
            own "own_$size"
            read_lines bytes "$scratch/lines" "$size"
            own "file_$size"
        done
    done | least | awk -v bytes="$(wc -c < "$scratch/lines")" '
        { micros[$1] = $2 }
        END {
            printf "wc -l: %.0f MB/s\n", bytes / micros["wc"]
            printf "plain reader in C: %.0f MB/s\n", bytes / micros["c"]
            for (size = 4096; size <= 65536; size *= 16) {
                printf "line reader, pieces of %d bytes: %.0f MB/s, %.2f times the time of C\n", size, bytes / micros[size], micros[size] / micros["c"]
                printf "  by its own clock: %.0f MB/s, and %.0f without the system'"'"'s reading of the file\n", bytes / micros["own_" size], bytes / (micros["own_" size] - micros["file_" size])
            }
        }'
}

# A line of so many tokens: an addition of the clause 1 with the hints 1, 2 and on, or of the literals 1, 2 and on.
long_line() {
    awk -v what="$1" -v tokens="$2" 'BEGIN {
        printf what == "hints" ? "5 1 0" : "5"
        for (k = 1; k <= tokens; k++) printf " %d", k
        print what == "hints" ? " 0" : " 0 0"
    }'
}

long_lines() {
    for what in hints literals; do
        for millions in 1 2; do long_line "$what" "${millions}000000" > "$scratch/$millions"; done
        for size in 1 4096; do
            for _ in 1 2 3 4 5; do
                for millions in 1 2; do
                    timed "$millions" read_lines lines "$scratch/$millions" "$size"
                    handed_out "$scratch/$millions"
                done
            done | least | awk -v what="$what" -v size="$size" '
                { ms[$1] = $2 / 1000 }
                END { printf "one line of %s, pieces of %d bytes: %.0f ms at a million, %.0f ms at two, %.2f times as long\n", what, size, ms[1], ms[2], ms[2] / ms[1] }'
        done
    done
}

# One line of so many bytes, which is the same token again and again but for its ends.
repeated() {
    local shape=$1 bytes=$2 front token back
    case $shape in
        hints) front='5 2 0' token=' 1' back=' 0' ;;
        hints_behind_a_long_one) front='5 2 0 4294967296' token=' 1' back=' 0' ;;
        literals) front='5' token=' 1' back=' 0 0' ;;
        deletion) front='5 d' token=' 1' back=' 0' ;;
        groups) front='5 2 0' token=' -1' back=' 0' ;;
        greatest_numbers) front='5 2 0' token=' 9223372036854775807' back=' 0' ;;
        leading_zeros) front='5 2 0' token=' 0000000000000000000000001' back=' 0' ;;
        blanks) front='5 2 0' token=' ' back=' 0' ;;
    esac
    printf '%s' "$front"
    yes "$token" 2> "$scratch/ended" | tr -d '\n' | head -c $((bytes / ${#token} * ${#token})) || true
    echo "$back"
}

hostile() {
    for shape in hints hints_behind_a_long_one literals deletion groups greatest_numbers leading_zeros blanks; do
        for megabytes in 10 100; do
            repeated "$shape" "${megabytes}000000" > "$scratch/$megabytes"
            for _ in 1 2 3; do
                timed "$megabytes" read_lines lines "$scratch/$megabytes" 65536
                handed_out "$scratch/$megabytes"
            done
        done | least | awk -v shape="$shape" '
            { least[$1] = $2 }
            END { printf "one line of 100 MB, %s: %.0f MB/s, %.1f times as long as 10 MB\n", shape, 1e8 / least[100], least[100] / least[10] }'
        awk -v shape="$shape" '$1 == "VmHWM:" { printf "one line of 100 MB, %s: %.1f bytes of memory for each byte\n", shape, $2 * 1024 / 1e8 }' "$scratch/printed"
    done
}

gigabyte() {
    for megabytes in 100 1000; do
        repeated hints "${megabytes}000000" > "$scratch/$megabytes"
        for _ in 1 2 3; do
            timed "$megabytes" read_lines lines "$scratch/$megabytes" 65536
            handed_out "$scratch/$megabytes"
        done
    done | least | awk '{ took[$1] = $2 } END { printf "one line of hints of a gigabyte: %.1f s, %.1f times as long as a tenth of it\n", took[1000] / 1e6, took[1000] / took[100] }'
    awk '$1 == "VmHWM:" { printf "one line of hints of a gigabyte: %.1f bytes of memory for each byte\n", $2 * 1024 / 1e9 }' "$scratch/printed"
}

headers() {
    echo 'p cnf 134217727 4294967295' > "$scratch/header"
    for _ in 1 2 3 4 5; do
        for text in empty header; do
            read_lines formula "$scratch/$text" 4096
            awk -v text="$text" '$1 == "VmHWM:" { print text, $2 }' "$scratch/printed"
        done
    done | least | awk '
        { kilobytes[$1] = $2 }
        END { printf "formula reader: %d kB at most for an empty text, %d kB for the largest header\n", kilobytes["empty"], kilobytes["header"] }'
}

measure() {
    echo "load of the machine: $(cut -d ' ' -f 1-3 /proc/loadavg), processors: $(nproc)"
    speed
    long_lines
    hostile
    if [ "${1:-}" = gigabyte ]; then gigabyte; fi
    headers
}

# What is wrong in what was printed.
judge() {
    awk '
        match($0, /[0-9.]+ times as long/) {
            larger = /as long as (10 MB|a tenth)/ ? 10 : 2
            if (substr($0, RSTART) + 0 > 1.3 * larger) { print "wrong: " $0; wrong = 1 }
        }
        match($0, /[0-9.]+ bytes of memory for each byte/) && substr($0, RSTART) + 0 > 8 { print "wrong: " $0; wrong = 1 }
        END { exit wrong }'
}

build
measure "$@" | tee "$scratch/measured"
judge < "$scratch/measured" >&2
