# Random lines for the program: `awk -v seed=S -v lines=N -f random.awk`. Bookings in a narrow or a wide range of instants, of which
# some are withdrawn again, and now and then a line that is refused or no booking at all. The last newline is missing for odd seeds.

# From 0 to n - 1, the same with every awk (the generator of Lehmer, with 16807).
function below(n) {
    state = (state * 16807) % 2147483647
    return int(state / 2147483647 * n)
}

function instant() {
    if (below(40) == 0) return 4294967295 - below(4)
    if (below(40) == 0) return below(4)
    return below(range)
}

function value() {
    if (below(50) == 0) return 999990 + below(20)
    return below(2001) - 1000
}

function booking() {
    s = instant()
    e = s + 1 + below(reach)
    if (e > 4294967295) e = 4294967295
    if (below(30) == 0) e = instant()
    return sprintf("%.0f %.0f %.0f", value(), s, e)
}

# What a field or a line may look like besides.
function oddity(b,    kind) {
    kind = below(12)
    if (kind == 0) return ""
    if (kind == 1) return "+ " b " "
    if (kind == 2) return " + " b
    if (kind == 3) return "+  " b
    if (kind == 4) return "+ " b " 1"
    if (kind == 5) return "+\t" b
    if (kind == 6) return "+ 00" b
    if (kind == 7) return "* " b
    if (kind == 8) return "+ " b "\r"
    if (kind == 9) return sprintf("+ %.0f 1 4294967296", value())
    if (kind == 10) return sprintf("- -%.0f%09d 7 9", 1 + below(9), below(1000000000))
    return "+ 1 2 " b b b b b b b b b
}

function line() {
    if (below(20) == 0) return oddity(booking())
    if (entered > 0 && below(100) < withdrawn) return "- " kept[below(entered)]
    b = booking()
    kept[entered++] = b
    return "+ " b
}

BEGIN {
    state = 1 + seed * 7919 % 2147483646
    for (i = 0; i < 20; i++) below(2)
    entered = 0
    range = seed % 3 == 0 ? 4294967295 : seed % 3 == 1 ? 3000 : 200
    reach = seed % 3 == 0 ? 100000000 : seed % 3 == 1 ? 60 : 20
    withdrawn = seed % 4 == 0 ? 0 : 15 * (seed % 4)
    for (i = 1; i < lines; i++) printf "%s\n", line()
    printf "%s%s", line(), seed % 2 == 1 ? "" : "\n"
}
