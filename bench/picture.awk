# Draws the instructions of each call at typical occupancy, as SVG, from the lines of run's `measure`:
# number, area, call, way, state, N, total, with tabs between; N is `times` and twice that. Plain awk; exits 1 where an area is missing.
BEGIN {
    FS = "\t"
    ways = split("lent;Rust + test;Rust + tuned", way, ";")
    split("#0b5fa5;#e69f00;#6b6b6b", colour, ";")
    split("ours, on a lent state;the Rust's call after the same test, plainly written in Rust;" \
        "the Rust's call after that test in the shape of ours", meaning, ";")
    margin = 16; column = 426; label = 192; bars = 190 # widths; what is left is for the number
    row = 22; bar = 6; head = 40                       # heights
}
$6 == times { low = $7 }
$6 == 2 * times {
    per[$2, $3, $4] = ($7 - low) / times
    if ($4 == "lent" && $3 !~ /^\(/) call[$2, ++calls[$2]] = $3
    if (!($2 in about)) { about[$2] = $5; sub(/[,;.].*/, "", about[$2]) }
}

function text(x, y, class, what) {
    gsub(/&/, "\\&amp;", what); gsub(/</, "\\&lt;", what); gsub(/>/, "\\&gt;", what)
    printf "<text x=\"%d\" y=\"%d\" class=\"%s\">%s</text>\n", x, y, class, what
}
function box(x, y, width, height, fill) {
    printf "<rect x=\"%d\" y=\"%d\" width=\"%.1f\" height=\"%d\" fill=\"%s\"/>\n", x, y, width, height, fill
}
function most(area, known, i, w) { # the largest number of the area, or what is known to be larger
    if (!(area in calls)) { print "picture: no area " area > "/dev/stderr"; exit 1 }
    for (i = 1; i <= calls[area]; i++)
        for (w = 1; w <= ways; w++) if (per[area, call[area, i], way[w]] > known) known = per[area, call[area, i], way[w]]
    return known
}
function step(largest, s) { # the largest of 1, 2, 5, 10, 20 .. that fits thrice
    for (s = 1; s * 10 * 3 <= largest; s *= 10);
    return s * 5 * 3 <= largest ? s * 5 : s * 2 * 3 <= largest ? s * 2 : s
}
function height(area) { return head + calls[area] * row + 12 }
function panel(area, x, y, largest, i, w, tick, at, zero, value) {
    text(x, y + 14, "area", area ": " about[area])
    zero = x + label + 6
    y += head
    for (i = 1; i <= calls[area]; i++) if (i % 2) box(x, y + (i - 1) * row, column, row, "#f1f3f5")
    for (tick = 0; tick <= largest; tick += step(largest)) {
        at = zero + tick / largest * bars
        text(at, y - 5, "tick", tick)
        printf "<path d=\"M%.1f %dv%d\" stroke=\"#c4c9ce\"/>\n", at, y - 2, calls[area] * row + 2
    }
    for (i = 1; i <= calls[area]; i++) {
        text(x + label, y + 15, "call", call[area, i])
        end = 0
        for (w = 1; w <= ways; w++) {
            value = per[area, call[area, i], way[w]]
            box(zero, y + 2 + (w - 1) * bar, value / largest * bars, bar, colour[w])
            if (value > end) end = value
        }
        # past the longest bar, so that it stands on none
        text(zero + end / largest * bars + 4, y + 10, "number", sprintf("%.0f", per[area, call[area, i], way[1]]))
        y += row
    }
}
END {
    small = most("timers", most("values", 0)); large = most("paths 2", most("IDs 2+2", 0))
    right = margin * 2 + column
    top = 64
    below = top + height("values") + height("timers")
    width = right + column + margin
    tall = below + (height("IDs 2+2") > height("paths 2") ? height("IDs 2+2") : height("paths 2"))
    printf "<svg xmlns=\"http://www.w3.org/2000/svg\" width=\"%d\" height=\"%d\" viewBox=\"0 0 %d %d\" role=\"img\">\n", \
        width, tall, width, tall
    print "<title>Instructions of each published call, beside the Rust's with the same test</title>"
    print "<style>text { font-family: Helvetica, Arial, \"Liberation Sans\", sans-serif; font-size: 11px; fill: #1b1f23 }"
    print ".title { font-size: 18px; font-weight: bold } .area { font-size: 13px; font-weight: bold } .legend { font-size: 12px }"
    print ".call { text-anchor: end } .tick { text-anchor: middle; font-size: 10px; fill: #57606a } .number { font-size: 9px }</style>"
    printf "<rect x=\"0.5\" y=\"0.5\" width=\"%d\" height=\"%d\" rx=\"6\" fill=\"#ffffff\" stroke=\"#c4c9ce\"/>\n", width - 1, tall - 1
    text(margin, 30, "title", "Instructions of one call, at typical occupancy")
    text(margin, 50, "legend", "Shorter is better. The number is that of the blue bar. docs/MEASURED.md has them all, the Rust without a test and full tables too.")
    for (w = 1; w <= ways; w++) {
        box(right, top + 20 + w * 40, 28, 12, colour[w])
        text(right + 38, top + 30 + w * 40, "area", way[w])
        text(right + 38, top + 46 + w * 40, "legend", meaning[w])
    }
    text(right, top + 34 + w * 40, "legend", "Two scales: one for values and timers, one for IDs and paths.")
    panel("values", margin, top, small)
    panel("timers", margin, top + height("values"), small)
    panel("IDs 2+2", margin, below, large)
    panel("paths 2", right, below, large)
    print "</svg>"
}
