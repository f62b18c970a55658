# The lines of measure to a table of ratios, to the dearest look beside the cheapest read of each chip, and to a list of
# what each call tests.
BEGIN {
    FS = "\t"
    shape = "| %-32s | %9s | %9s | %5s | %9s | %9s | %5s | %9s |\n"
}
function ratio(a, b) { return b > 0 ? sprintf("%.2f", a / b) : "" }
function row(work, ours, plain, iours, iplain, ibare) {
    printf shape, work, ours, plain, ratio(ours, plain), iours, iplain, ratio(iours, iplain), ibare
}
function know(work) { if (!(work in known)) { known[work] = 1; works[++n] = work } }
$1 == "time" { ns[$2, $3] = $4 }
$1 == "count" {
    know($2)
    instructions[$2, $3] = sprintf("%.1f", $5 / $4)
    if ($3 == "zk") tests[$6] = tests[$6] (tests[$6] == "" ? "" : "; ") $2
}
$1 == "replay" {
    know($2)
    ns[$2, $3] = sprintf("%.2f", $4 / $5)
    instructions[$2, $3] = sprintf("%.1f", $6 / $7)
}
# of the single calls, the look with the most instructions and the read with the fewest
$1 == "single" && ($4 == "look" ? $5 > found[$2, $3, $4] : !(($2, $3, $4) in found) || $5 < found[$2, $3, $4]) {
    found[$2, $3, $4] = $5
    at[$2, $3, $4] = $6
}
function single(chip, who) {
    return sprintf("%d (place %s) and %d (%s %s)", found[chip, who, "look"], at[chip, who, "look"],
        found[chip, who, "read"], chip == "C" ? "port" : "select", at[chip, who, "read"])
}
END {
    printf shape, "work", "ns ours", "ns C", "ratio", "in. ours", "in. C", "ratio", "in. bare"
    print "|---|---|---|---|---|---|---|---|"
    for (i = 1; i <= n; i++) {
        w = works[i]
        row(w, ns[w, "zk"], ns[w, "plain"], instructions[w, "zk"], instructions[w, "plain"], instructions[w, "bare"])
    }
    print "\nThe dearest look and the cheapest read, instructions of the one call, on B with none waiting:\n"
    for (i = 1; i <= 3; i++) {
        chip = substr("ABC", i, 1)
        print "- chip " chip ": " single(chip, "zk") "; plain C " single(chip, "plain")
    }
    print "\nWhat each call tests, ours and plain C alike, before it does anything:\n"
    for (i = 1; i <= n; i++)
        for (t in tests)
            if (index(tests[t] ";", works[i] ";") == 1) print "- " t ": " tests[t]
}
