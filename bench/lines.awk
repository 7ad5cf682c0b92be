# Lines of an LRAT proof until there are `bytes` bytes: one in ten gives numbers up, the others add a lemma with up to
# six literals and two to nine hints. The numbers are those of a Lehmer generator with a fixed seed.
function below(n) { seed = seed * 16807 % 2147483647; return seed % n }
BEGIN {
    seed = 20240229
    number = 100000
    while (written < bytes) {
        number++
        line = number
        if (below(10) == 0) {
            line = line " d"
            for (k = below(9) + 1; k > 0; k--) line = line " " (1 + below(number - 1))
        } else {
            for (k = below(7); k > 0; k--) line = line " " (below(2) ? "-" : "") (1 + below(200000))
            line = line " 0"
            for (k = below(8) + 2; k > 0; k--) line = line " " (1 + below(number - 1))
        }
        line = line " 0"
        written += length(line) + 1
        print line
    }
}
