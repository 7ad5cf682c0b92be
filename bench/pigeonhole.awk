# A proof by extended resolution that n + 1 pigeons don't fit into n holes, or with what=cnf the formula that says so:
# n is given, and the lines are written directly, without a solver. (S. A. Cook, A short proof of the pigeon hole
# principle using extended resolution, 1976.)
#
# Pigeons 1 to n + 1 in holes 1 to n become pigeons 1 to n in holes 1 to n - 1: a pigeon i that sits in hole n takes
# the hole of pigeon n + 1. So q(i, j) stands for p(i, j), or p(i, n) and p(n + 1, j). Its four clauses are RAT; that
# each pigeon sits somewhere and no two sit in one hole are RUP. Each level gives up the clauses of the one before.
function say(text) { number++; print number " " text " 0" }
function level(n,    i, j, k, base) {
    base = top
    for (i = 1; i <= n; i++) for (j = 1; j < n; j++) {
        q[i, j] = base + (i - 1) * (n - 1) + j
        one = number + 1
        say(q[i, j] " " (-p[i, j]) " 0")
        say(q[i, j] " " (-p[i, n]) " " (-p[n + 1, j]) " 0")
        say((-q[i, j]) " " p[i, j] " " p[i, n] " 0 " (-one) " " (-one - 1))
        say((-q[i, j]) " " p[i, j] " " p[n + 1, j] " 0 " (-one) " " (-one - 1))
        meaning[i, j] = one
    }
    top += n * (n - 1)
    for (i = 1; i < n; i++) for (k = i + 1; k <= n; k++) for (j = 1; j < n; j++) {
        say((-q[i, j]) " " (-q[k, j]) " " (-p[i, j]) " 0 " apart[i, k, j] " " (meaning[k, j] + 3) " " apart[i, n + 1, j])
        say((-q[i, j]) " " (-q[k, j]) " 0 " number " " (meaning[i, j] + 2) " " (meaning[i, j] + 3) " " apart[k, n + 1, j] \
            " " (meaning[k, j] + 2) " " apart[i, k, n])
        new_apart[i, k, j] = number
    }
    for (i = 1; i <= n; i++) {
        text = ""
        for (j = 1; j < n; j++) text = text q[i, j] " "
        text = text "0"
        for (j = 1; j < n; j++) text = text " " meaning[i, j]
        text = text " " sits[i]
        for (j = 1; j < n; j++) text = text " " (meaning[i, j] + 1)
        say(text " " apart[i, n + 1, n] " " sits[n + 1])
        new_sits[i] = number
    }
    for (i = 1; i <= n; i++) sits[i] = new_sits[i]
    for (i = 1; i < n; i++) for (k = i + 1; k <= n; k++) for (j = 1; j < n; j++) apart[i, k, j] = new_apart[i, k, j]
    for (i = 1; i <= n; i++) for (j = 1; j < n; j++) p[i, j] = q[i, j]
    # what the levels before have left
    text = number " d"
    kept_from = number - n - n * (n - 1) / 2 * (n - 1) * 2 + 1
    for (i = given_up + 1; i < kept_from; i++) text = text " " i
    print text " 0"
    given_up = kept_from - 1
}
BEGIN {
    for (i = 1; i <= n + 1; i++) for (j = 1; j <= n; j++) p[i, j] = (i - 1) * n + j
    top = (n + 1) * n
    clauses = n + 1 + n * (n + 1) / 2 * n
    if (what == "cnf") print "p cnf " top " " clauses
    for (i = 1; i <= n + 1; i++) {
        sits[i] = ++number
        text = ""
        for (j = 1; j <= n; j++) text = text p[i, j] " "
        if (what == "cnf") print text "0"
    }
    for (i = 1; i <= n; i++) for (k = i + 1; k <= n + 1; k++) for (j = 1; j <= n; j++) {
        apart[i, k, j] = ++number
        if (what == "cnf") print (-p[i, j]) " " (-p[k, j]) " 0"
    }
    if (what == "cnf") exit
    for (m = n; m > 1; m--) level(m)
    say("0 " sits[1] " " sits[2] " " apart[1, 2, 1])
}
