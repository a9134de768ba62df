# The rows of the film's third scene as an SVG picture: a square for each slot, a mark under the cursor. Each kind of slot has a colour,
# a shape of its own and its letter, so that it can be told in grey too.
BEGIN {
    left = 34; step = 13; wide = 11; high = 18; top = 62; height = 92
    say["before"] = "Before the cut"
    say["cut"] = "After the cut"
    say["recovered"] = "After recovery"
}
/^3\. / { scene = 1 }
/^4\. / { scene = 0 }
scene && ($1 in say) && length($2) == 64 { rows++; label[rows] = $1; cells[rows] = $2; want = 1; next }
want { cursor[rows] = index($0, "^") - 13; want = 0 }

function count(row, kind,    i, n) {
    for (i = 1; i <= 64; i++) if (substr(row, i, 1) == kind) n++
    return n + 0
}

function packets(n) { return n == 1 ? "1 packet" : n " packets" }

function story(name, row) {
    if (name == "before") return packets(count(row, "s") + count(row, "A")) " pending, " count(row, "s") " of them served by the controller"
    if (name == "cut") return packets(count(row, "*")) " more are whole, of " packets(count(row, "a")) " only the address is stored"
    return count(row, ".") " of 64 slots free; the pending request is reported as disconnected, once"
}

function square(x, y, kind) {
    printf "<rect x=\"%.1f\" y=\"%.1f\" width=\"%d\" height=\"%d\" rx=\"2\" class=\"%s\"/>\n", x + .5, y + .5, wide - 1, high - 1, class(kind)
    if (kind == "s") printf "<path d=\"M%.1f %.1fl%d %d\" class=\"stroke\"/>\n", x + 2, y + high - 2, wide - 4, 4 - high
    if (kind == "a") printf "<path d=\"M%.1f %.1fv%dh%dz\" class=\"half\"/>\n", x + 1.5, y + 1.5, high - 3, wide - 3
    if (kind == "A" || kind == "*") printf "<text x=\"%.1f\" y=\"%.1f\" class=\"glyph\">%s</text>\n", x + wide / 2, y + high / 2 + (kind == "*" ? 7 : 4), kind
}

function class(kind) {
    return kind == "." ? "free" : kind == "A" ? "active" : kind == "*" ? "new" : kind == "a" ? "address" : "served"
}

function legend(x, y, kind, text) {
    square(x, y, kind)
    printf "<text x=\"%d\" y=\"%d\" class=\"small\">%s</text>\n", x + wide + 6, y + high - 5, text
}

END {
    if (rows != 3) { print "scripts/picture: the film has " rows + 0 " of the 3 rows" >"/dev/stderr"; exit 1 }
    bottom = top + 3 * height
    print "<svg xmlns=\"http://www.w3.org/2000/svg\" viewBox=\"0 0 900 " bottom + 44 "\" width=\"900\" height=\"" bottom + 44 "\" font-family=\"system-ui, sans-serif\">"
    print "<title>The descriptor ring before a cut, after it and after recovery</title>"
    print "<style>"
    print ".card{fill:#f7f8fa;stroke:#c3c9d1}.head{font-size:17px;font-weight:600;fill:#1d2733}.name{font-size:14px;font-weight:600;fill:#1d2733}"
    print ".plain{font-size:13px;fill:#44505e}.small{font-size:12px;fill:#44505e}.tick{font-size:10px;fill:#6a7683;text-anchor:middle}"
    print ".free{fill:#fff;stroke:#ccd2d9}.active{fill:#1f4e8c;stroke:#163a69}.new{fill:#d9480f;stroke:#a33308}.address{fill:#fff;stroke:#d9480f}"
    print ".served{fill:#b9d3ee;stroke:#1f4e8c}.half{fill:#f4a27a}.stroke{stroke:#1f4e8c;stroke-width:1.4;fill:none}"
    print ".glyph{font-size:10px;font-weight:700;fill:#fff;text-anchor:middle}.cursor{fill:#1d2733}"
    print "</style>"
    print "<rect x=\"1\" y=\"1\" width=\"898\" height=\"" bottom + 42 "\" rx=\"10\" class=\"card\"/>"
    print "<text x=\"" left "\" y=\"34\" class=\"head\">Power fails in the middle of a packet: the ring of 64 slots</text>"
    for (r = 1; r <= 3; r++) {
        y = top + (r - 1) * height
        print "<text x=\"" left "\" y=\"" y + 10 "\" class=\"name\">" say[label[r]] "</text>"
        print "<text x=\"" left + 130 "\" y=\"" y + 10 "\" class=\"plain\">" story(label[r], cells[r]) "</text>"
        for (i = 0; i < 64; i++) square(left + i * step, y + 20, substr(cells[r], i + 1, 1))
        for (i = 0; i < 64; i += 8) printf "<text x=\"%.1f\" y=\"%d\" class=\"tick\">%d</text>\n", left + i * step + wide / 2, y + 62, i
        x = left + cursor[r] * step + wide / 2
        printf "<path d=\"M%.1f %dl4.5 7h-9z\" class=\"cursor\"/>\n", x, y + 41
    }
    y = bottom + 8
    legend(left, y, ".", "free")
    legend(left + 72, y, "A", "active: the controller's")
    legend(left + 243, y, "s", "served, not collected")
    legend(left + 404, y, "*", "stored by the call that was cut")
    legend(left + 626, y, "a", "address only")
    x = left + 748
    printf "<path d=\"M%d %dl4.5 7h-9z\" class=\"cursor\"/>\n", x, y + 5
    print "<text x=\"" x + 12 "\" y=\"" y + 13 "\" class=\"small\">cursor</text>"
    print "</svg>"
}
