#!/usr/bin/env bash
# Measures the memory and the time that a built program takes for streams that are meant to take much: for each, how many
# bytes beyond those of empty streams it takes at most for each byte of the streams' text, and how many times as long as for
# half as many of what its lines are made of.
#   hostile.sh PATH-OF-LRATJOIN [WORDS]
# With WORDS, only the rows whose names have them.
# Each stream is made of lines of one kind, and none adds the empty clause: first one stream in turn, and then the same stream
# twice on threads. Then come a stream through a pipe, the same stream many times on threads, formulas of one kind of clause,
# with an empty stream, and last 64 streams of a line or none over one formula. In the last two the bytes are for each byte of
# the formula's text. A row is wrong where the program accepts another count of lines. It is wrong above 32 bytes for a byte,
# or 128 where its lines have a hundred candidates and name none, and above 2.6 times as long as its half: a time is that of a
# whole process, the least of three, each in turn, and of nine where it is wrong after three; none is told where the whole
# takes less than 0.2 s. The rows that are wrong are named in the last line, and the status is 1 then.
set -euo pipefail

program=$(realpath "${1:?usage: hostile.sh PATH-OF-LRATJOIN [WORDS]}")
words=${2:-}
scratch=$(mktemp -d)
trap 'rm -rf "$scratch"' EXIT
cd "$scratch"

printf 'p cnf 9 1\n1 0\n' > few.cnf
printf 'p cnf 1000000 1\n1 0\n' > many.cnf
printf 'p cnf 134217727 1\n1 0\n' > all.cnf
: > nothing
: > wrong
limit=32

# Runs the program on these words, each of whose streams has to do as many lines as are asked for. Prints the kilobytes that
# it takes at most and the microseconds.
run() {
    local lines=$1 start end
    shift
    start=${EPOCHREALTIME/[.,]/}
    /usr/bin/time -q -o memory -f %M "$program" "$@" > told 2>&1 || true
    end=${EPOCHREALTIME/[.,]/}
    if ! awk -v lines="$lines" '/^c stream/ { seen = 1; if ($4 + $6 + $8 != lines) wrong = 1 } END { exit wrong || !seen }' told; then
        echo "$*: $(head -n 3 told)" >&2
        exit 1
    fi
    echo "$(tail -n 1 memory) $((end - start))"
}

# The rows that follow are compared with their halves: the runs are `half` and `whole`, functions of no word, and `empty`
# is the whole without what its text asks for. Takes the name, the limit and the bytes of text.
row() {
    local name=$1 limit=$2 bytes=$3 cost
    cost=$(empty)
    echo "empty $cost" > costs
    for _ in 1 2 3; do
        for _ in 1 2 3; do
            cost=$(half)
            echo "half $cost"
            cost=$(whole)
            echo "whole $cost"
        done >> costs
        if tell "$name" "$limit" "$bytes" < costs > line; then break; fi
    done
    head -n 1 line
    sed 1d line >> wrong
}

# A row's line, and behind it what is wrong with it. The status is 1 where its time is.
tell() {
    awk -v name="$1" -v limit="$2" -v bytes="$3" '
        $2 > most[$1] { most[$1] = $2 }
        !($1 in least) || $3 < least[$1] { least[$1] = $3 }
        END {
            taken = sprintf("%.1f", (most["whole"] - most["empty"]) * 1024 / bytes)
            printf "%-79s %5.1f MB of text, %6s bytes for each byte", name, bytes / 1e6, taken
            seconds = least["whole"] / 1e6
            times = least["whole"] / least["half"]
            if (seconds >= 0.2) printf ", %5.2f s, %4.2f times as long as its half", seconds, times
            if (taken + 0 > 32) printf ", above 32"
            print ""
            if (taken + 0 > limit) printf "%s (%s bytes for each byte, and not %s)\n", name, taken, limit
            if (seconds >= 0.2 && times > 2.6) {
                printf "%s (%.2f times as long as its half)\n", name, times
                exit 1
            }
        }'
}

# Whether a row of this name is asked for.
asked_for() { [[ $1 == *"$words"* ]]; }

# What a row is made from: a formula is a file, or is made from a count as a stream is.
make() {
    local part=$1 count=$2 formula=$3 text=$4
    case $formula in
        BEGIN*) awk -v n="$count" "$formula" > "$part.cnf" ;;
        *) cp "$formula" "$part.cnf" ;;
    esac
    awk -v n="$count" "$text" > "$part"
}

# Two rows of a stream, in turn and twice on threads: its name, its formula, a count and its text. The fifth word, where there
# is one, is how many lines are done before one is refused. The sixth is the formula of the empty streams where it is another:
# then what the row's own formula takes is counted too, and its text.
stream() {
    local name=$1 formula=$2 count=$3 text=$4 other=${6:-} bytes=0 done_half done_whole
    asked_for "$name" || return 0
    make half "$((count / 2))" "$formula" "$text"
    make whole "$count" "$formula" "$text"
    if [ "$other" ]; then bytes=$(wc -c < whole.cnf); fi
    other=${other:-whole.cnf}
    done_half=${5:-$(wc -l < half)}
    done_whole=${5:-$(wc -l < whole)}
    empty() { run 0 "$other" nothing --in-turn; }
    half() { run "$done_half" half.cnf half --in-turn; }
    whole() { run "$done_whole" whole.cnf whole --in-turn; }
    row "$name" "$limit" "$((bytes + $(wc -c < whole)))"
    empty() { run 0 "$other" nothing nothing; }
    half() { run "$done_half" half.cnf half half; }
    whole() { run "$done_whole" whole.cnf whole whole; }
    row "$name, twice on threads" "$limit" "$((bytes + 2 * $(wc -c < whole)))"
}

stream 'one line of hints' few.cnf 4000000 'BEGIN { printf "2 3 0"; for (i = 0; i < n; i++) printf " 1"; print " 0" }'
stream 'one line of deletions' few.cnf 4000000 'BEGIN { printf "2 d"; for (i = 0; i < n; i++) printf " 2"; print " 0" }'
stream 'one line of deletions of one clause' few.cnf 4000000 \
    'BEGIN { printf "2 d"; for (i = 0; i < n; i++) printf " 1"; print " 0" }'
stream 'one line of deletions of one clause, the last a great number' few.cnf 4000000 \
    'BEGIN { printf "2 d"; for (i = 0; i < n; i++) printf " 1"; print " 9999999999 0" }'
stream 'one line of hints, the last a great number' few.cnf 4000000 \
    'BEGIN { printf "2 3 0"; for (i = 0; i < n; i++) printf " 1"; print " 9999999999 0" }' 0
stream 'one line of groups without hints' few.cnf 2700000 \
    'BEGIN { printf "2 1 0"; for (i = 0; i < n; i++) printf " -1"; print " 0" }' 0
stream 'one line of groups of a hint each' few.cnf 1600000 \
    'BEGIN { printf "2 1 0"; for (i = 0; i < n; i++) printf " -1 1"; print " 0" }' 0
stream 'deletions that delete nothing' few.cnf 1300000 'BEGIN { for (i = 0; i < n; i++) print "1 d 0" }'
stream 'additions under numbers near one another' few.cnf 600000 'BEGIN { for (i = 2; i < n; i++) print i " 1 0 1 0" }'
stream 'additions under numbers far apart' few.cnf 300000 \
    'BEGIN { for (i = 0; i < n; i++) printf "9223372036854%06d 1 0 1 0\n", 775807 - i }'
stream 'additions under numbers that are 2^40 apart' few.cnf 300000 \
    'BEGIN { for (i = 1; i <= n; i++) printf "%.0f 1 0 1 0\n", i * 1099511627776 }'
stream 'imports' few.cnf 600000 'BEGIN { for (i = 2; i < n; i++) print i " i 1 0" }'
stream 'imports under every second number' few.cnf 600000 'BEGIN { for (i = 2; i < n; i += 2) print i " i 1 0" }'
stream 'lemmas of nine literals, behind an import' few.cnf 300000 \
    'BEGIN { print "2 i 1 0"; for (i = 3; i < n; i++) print i " 1 2 3 4 5 6 7 8 9 0 1 0" }'
# (A stamp takes longer for a variable whose stamp is not in the list of the first ones, so the half has many such too.)
stream 'a propagation over many clauses' 'BEGIN {
    print "p cnf " n " " n + 1
    for (i = 1; i <= n; i++) print i " 0"
    for (i = 1; i <= n; i++) printf "-%d ", i
    print "0" }' 2000000 'BEGIN { printf "%d -%d 0", n + 2, n; for (i = 1; i <= n + 1; i++) printf " %d", i; print " 0" }'
stream 'lines of a closing hint and twenty clauses behind it' \
    'BEGIN { print "p cnf " n + 4 " " n; print "1 0"; for (i = 2; i <= n; i++) print i, i + 1, i + 2, i + 3, 0 }' 400000 'BEGIN {
    for (i = 2; i + 20 <= n; i += 20) {
        printf "%d 1 2 3 4 0 1", n + i / 20 + 1
        for (j = i; j < i + 20; j++) printf " %d", j
        print " 0" } }'
stream 'an accepted line of one group of many hints' \
    'BEGIN { print "p cnf 2 3"; print "-1 2 0"; print "-2 0"; print "1 0" }' 4000000 \
    'BEGIN { printf "4 1 0 -1"; for (i = 0; i < n; i++) printf " 2"; print " 3 0" }'
stream 'definitions, each of a variable of its own' many.cnf 1000000 'BEGIN { for (i = 2; i < n; i++) print i " " i " 0 0" }'
stream 'definitions, each of a private variable' few.cnf 1000000 'BEGIN { for (i = 10; i < n; i++) print i " " i " 0 0" }'
stream 'definitions, each of a private variable far from the others' few.cnf 1000000 \
    'BEGIN { for (i = 10; i < n; i++) print i " " 134217727 - 131 * i " 0 0" }'
stream 'RAT lines with a literal in common' many.cnf 1000000 'BEGIN { for (i = 2; i < n; i++) print i " " i " -1 0 0" }'
stream 'a lemma with a literal in every 4,096th variable' all.cnf 32640 \
    'BEGIN { printf "2"; for (i = 0; i < n; i++) printf " %d", 524288 + 4096 * i; print " 0 0" }'
stream 'a lemma with a literal in every 4,096th variable, and an import' all.cnf 32640 \
    'BEGIN { printf "2"; for (i = 0; i < n; i++) printf " %d", 524288 + 4096 * i; print " 0 0"; print "3 i 1 0" }'
stream 'a lemma with a literal in every third variable, and an import' all.cnf 500000 \
    'BEGIN { printf "2"; for (i = 0; i < n; i++) printf " %d", 524288 + 3 * i; print " 0 0"; print "3 i 1 0" }'
stream 'lemmas of nine literals in every third variable, behind an import' all.cnf 60000 'BEGIN {
    print "2 i 1 0"
    variable = 524285
    for (i = 3; i < n; i++) { printf i; for (j = 0; j < 9; j++) printf " %d", variable += 3; print " 0 0" } }'
stream 'lemmas of sixteen variables anywhere below ten million' all.cnf 55000 'BEGIN {
    srand(1)
    for (i = 2; i < n; i++) { printf i; for (j = 0; j < 16; j++) printf " %d", 2 + int(9999997 * rand()); print " 0 0" } }'
stream 'a long clause read and deleted' all.cnf 4000000 'BEGIN {
    for (line = 2; line < 4; line++) { printf line; for (i = 1; i <= n; i++) printf " %d", i; print " 0 " line - 1 " 0" }
    print "4 d 2 3 0" }'
stream 'an import of a long clause' \
    'BEGIN { print "p cnf " n " 1"; for (i = 1; i <= n; i++) printf "%d ", i; print "0" }' 1000000 \
    'BEGIN { printf "2 i"; for (i = 1; i <= n; i++) printf " %d", i; print " 0" }'
stream 'an import of a long clause by a part' 'BEGIN { print "p cnf " n " 1"; print "1 0" }' 1000000 \
    'BEGIN { printf "2 i"; for (i = 1; i <= n; i++) printf " %d", i; print " 0" }'
stream 'lemmas added and given up in turn, behind an import' few.cnf 300000 'BEGIN {
    print "2 i 1 0"
    for (i = 3; i < n; i++) { print "3 1 2 3 4 5 6 7 8 9 0 1 0"; print "3 d 3 0" } }'
stream 'a number that is bound and given up in turn' few.cnf 1000000 \
    'BEGIN { for (i = 0; i < n; i++) { print "2 1 0 1 0"; print "2 d 2 0" } }'
stream 'a number that is bound by imports and given up in turn' few.cnf 1000000 \
    'BEGIN { for (i = 0; i < n; i++) { print "2 i 1 0"; print "2 d 2 0" } }'
stream 'imports by a part that are given up in turn' few.cnf 500000 \
    'BEGIN { for (i = 0; i < n; i++) { print "2 i 1 2 0"; print "2 d 2 0" } }'
stream 'a RAT line of many candidates that it does not name, with the formula' \
    'BEGIN { print "p cnf 2 " n; for (i = 1; i <= n; i++) print "-1 2 0" }' 1000000 \
    'BEGIN { print n + 1 " 1 -2 0 0" }' '' few.cnf
stream 'an accepted line of groups without hints' \
    'BEGIN { print "p cnf 2 " n; for (i = 1; i <= n; i++) print "-1 2 0" }' 1000000 \
    'BEGIN { printf "%d 1 -2 0", n + 1; for (i = 1; i <= n; i++) printf " -%d", i; print " 0" }'
stream 'an accepted line of groups of a hint each' \
    'BEGIN { print "p cnf " n " " n; print "1 0"; for (i = 2; i <= n; i++) print "-1 " i " 0" }' 1000000 \
    'BEGIN { printf "%d 1 0", n + 1; for (i = 2; i <= n; i++) printf " -%d 1", i; print " 0" }'
stream 'imports through a long list' \
    'BEGIN { print "p cnf 2000 2000"; print "1 2 0"; for (i = 2; i <= 2000; i++) print "1 2 " i " 0" }' 50000 \
    'BEGIN { for (i = 1; i <= n; i++) print i + 2000 " i 1 2 0" }'
stream 'a list of candidates most of whose clauses are dead' 'BEGIN { print "p cnf 6 2"; print "-1 2 0"; print "5 6 0" }' 600000 'BEGIN {
    print "3 i 5 6 0"
    for (i = 4; i < n / 2; i++) print i " -1 2 0 1 0"
    printf "3 d"; for (i = 4; i < n / 2; i++) printf " %d", i; print " 0"
    for (; i < n; i++) print i " 1 -2 0 0" }'
# An entry has a group for each candidate, as the joint proof prints it, whether the line names it or not.
limit=128
stream 'RAT lines of 100 candidates that close before any hint' \
    'BEGIN { print "p cnf 2 100"; for (i = 1; i <= 100; i++) print "-1 2 0" }' 100000 \
    'BEGIN { for (i = 1; i <= n; i++) print i + 100 " 1 -2 0 0" }'
stream 'RAT lines of 100 candidates, of which one comes and one goes before each' \
    'BEGIN { print "p cnf 3 100"; for (i = 1; i <= 100; i++) print "-1 2 0" }' 30000 'BEGIN {
    for (i = 1; i <= n; i++) {
        print 99 + 2 * i " -1 2 3 0 1 0"
        print 100 + 2 * i " 1 -2 0 0"
        print 100 + 2 * i " d " (i < 100 ? i + 1 : 2 * i - 99) " 0" } }'
limit=32
for few in 2 3 4; do
    stream "RAT lines of $few candidates that close before any hint" \
        "BEGIN { print \"p cnf 2 $few\"; for (i = 1; i <= $few; i++) print \"-1 2 -2 0\" }" 300000 \
        "BEGIN { for (i = 1; i <= n; i++) print i + $few \" 1 0 0\" }"
done

# A clause that stands for a hundred pivots, in awk, and a formula of so many such clauses for each hundred.
clause='function clause(block, head) { printf "%s1 -1", head; for (j = 2; j < 102; j++) printf " -%d", 100 * block + j }'
asked() {
    echo "BEGIN {
        print \"p cnf \" n + 1, $1 * n / 100
        for (block = 0; block < n / 100; block++)
            for (i = 0; i < $1; i++) { clause(block, \"\"); print \" 0\" } }
        $clause"
}

# Two rows of RAT lines for pivots whose candidates, so many, are such clauses: so many lines for each pivot, the second behind
# one more such clause where a word more asks for it. What the formula takes is counted, and its text.
pivots() {
    local candidates=$1 count=$2 times=$3 more=${4:-} name
    name="RAT lines for pivots of $candidates candidates, $times for each"
    if [ "$more" ]; then name="$name, a clause more between"; fi
    stream "$name, with the formula" "$(asked "$candidates")" "$count" \
        "BEGIN {
        m = $candidates * n / 100
        for (time = 0; time < $times; time++) {
            if (time && \"$more\") for (block = 0; block < n / 100; block++) { clause(block, ++m \" \"); print \" 0 0\" }
            for (i = 2; i < n + 2; i++) print ++m, i, \"0 0\" } }
        $clause" '' few.cnf
}

pivots 4 100000 1
pivots 5 100000 1
pivots 5 60000 2
pivots 100 10000 1
pivots 20 20000 2 more
pivots 5 60000 2 more

# A row of a stream that comes through a pipe: its name, its formula, a count and its text.
piped() {
    local name=$1 formula=$2 count=$3 text=$4
    asked_for "$name" || return 0
    make half "$((count / 2))" "$formula" "$text"
    make whole "$count" "$formula" "$text"
    empty() { run 0 whole.cnf /dev/stdin < <(:); }
    half() { run "$(wc -l < half)" half.cnf /dev/stdin < <(cat half); }
    whole() { run "$(wc -l < whole)" whole.cnf /dev/stdin < <(cat whole); }
    row "$name" "$limit" "$(wc -c < whole)"
}

piped 'additions through a pipe' few.cnf 600000 'BEGIN { for (i = 2; i < n; i++) print i " 1 0 1 0" }'

# A row of a stream that so many seats have, on threads: their number, its name, its formula, a count and its text. The sixth
# word is as that of `stream`.
crowd() {
    local seats=$1 name=$2 formula=$3 count=$4 text=$5 other=${6:-} bytes=0 lines_half lines_whole
    asked_for "$name" || return 0
    make half "$((count / 2))" "$formula" "$text"
    make whole "$count" "$formula" "$text"
    if [ "$other" ]; then bytes=$(wc -c < whole.cnf); fi
    other=${other:-whole.cnf}
    lines_half=$(wc -l < half)
    lines_whole=$(wc -l < whole)
    empty() { run 0 "$other" $(yes nothing | head -n "$seats"); }
    half() { run "$lines_half" half.cnf $(yes half | head -n "$seats"); }
    whole() { run "$lines_whole" whole.cnf $(yes whole | head -n "$seats"); }
    row "$name" "$limit" "$((bytes + seats * $(wc -c < whole)))"
}

crowd 64 '64 streams of a line of 65,536 hints' few.cnf 65536 \
    'BEGIN { printf "2 3 0"; for (i = 0; i < n; i++) printf " 1"; print " 0" }'

# Behind 63 streams of a line comes one whose line stands behind so many blanks.
blanks() {
    local name=$1 count=$2 size=$(($2 / 2)) file
    asked_for "$name" || return 0
    for file in half whole; do
        { head -c "$size" < /dev/zero | tr '\0' ' '; echo '2 1 0 1 0'; } > "$file"
        size=$count
    done
    echo '2 1 0 1 0' > few
    empty() { run 0 few.cnf $(yes nothing | head -n 64); }
    half() { run 1 few.cnf $(yes few | head -n 63) half; }
    whole() { run 1 few.cnf $(yes few | head -n 63) whole; }
    row "$name" "$limit" "$(wc -c < whole)"
}

blanks '64 streams of a line, one of them behind many blanks' 100000000

for candidates in 4 20 100; do
    crowd 16 "16 streams of a RAT line for each pivot of $candidates candidates, with the formula" "$(asked "$candidates")" 10000 \
        "BEGIN { for (i = 2; i < n + 2; i++) print i + $candidates * n / 100 - 1, i, \"0 0\" }" few.cnf
done

# A row of a formula, with an empty stream: its name, a count and its text.
formula() {
    local name=$1 count=$2 text=$3
    asked_for "$name" || return 0
    awk -v n="$((count / 2))" "$text" > half.cnf
    awk -v n="$count" "$text" > whole.cnf
    empty() { run 0 few.cnf nothing --in-turn; }
    half() { run 0 half.cnf nothing --in-turn; }
    whole() { run 0 whole.cnf nothing --in-turn; }
    row "$name" "$limit" "$(wc -c < whole.cnf)"
}

formula 'a formula of unit clauses' 2000000 'BEGIN { print "p cnf 9 " n; for (i = 0; i < n; i++) print 1, 0 }'
formula 'a formula of empty clauses' 4000000 'BEGIN { print "p cnf 9 " n; for (i = 0; i < n; i++) print 0 }'

# A row of 64 streams that say the same line, or nothing: its name, a count, its formula, the line, where %d stands for the
# count, and how many lines are done.
seats() {
    local name=$1 count=$2 formula=$3 line=$4 lines=$5 seat
    asked_for "$name" || return 0
    awk -v n="$((count / 2))" "$formula" > half.cnf
    awk -v n="$count" "$formula" > whole.cnf
    for seat in {0..63}; do
        : > "half$seat"
        : > "whole$seat"
        if [ "$line" ]; then
            printf "$line\n" "$((count / 2))" > "half$seat"
            printf "$line\n" "$count" > "whole$seat"
        fi
    done
    empty() { run 0 whole.cnf nothing --in-turn; }
    half() { run "$lines" half.cnf half{0..63} --in-turn; }
    whole() { run "$lines" whole.cnf whole{0..63} --in-turn; }
    row "$name" "$limit" "$(wc -c < whole.cnf)"
}

pairs='BEGIN { print "p cnf 1000", n; for (i = 0; i < n; i++) print i % 999 + 1, 1000, 0 }'
seats '64 empty streams' 1000000 "$pairs" '' 0
seats '64 streams that give up the last clause' 1000000 "$pairs" '1000001 d %d 0' 1
seats '64 streams that add a clause' 1000000 "$pairs" '1%d 1 1000 0 1 0' 1
seats '64 streams that ask for many candidates, the last without a group' 200000 \
    'BEGIN { print "p cnf 3 " n; for (i = 1; i < n; i++) print "-1 2 0"; print "-1 3 0" }' '1%d 1 -2 0 0' 0

if [ -s wrong ]; then
    echo "wrong: $(paste -s -d ';' wrong | sed 's/;/; /g')" >&2
    exit 1
fi
