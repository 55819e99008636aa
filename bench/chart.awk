# Draws the chart from what `measure time` wrote: for each case a bar for each engine, its time relative to libxml2 + SQLite.
# -v note=TEXT is written below.

BEGIN {
    FS = "\t"; STACK = "libxml2 + SQLite"
    engine[1] = "hondivole"; engine[2] = STACK; engine[3] = "pugixml"
    label[1] = "hondivole"; label[2] = "libxml2 + SQLite"; label[3] = "pugixml, bare parse only"
    colour[1] = "#1d6a8c"; colour[2] = "#a3adb8"; colour[3] = "#d99a3d"
    # A bar longer than CUT is cut short, with its value beside it: one long bar would leave no room to see the others.
    CUT = 1.6; LEFT = 190; UNIT = 330; WIDTH = 880; BAR = 15; STEP = 17; GROUP = 66
}

$1 == "time" { if (!(($2, $3) in seen)) { seen[$2, $3] = 1; flow[++cases] = $2; table[cases] = $3 } nanos[$2, $3, $4] = $5 }

function text(x, y, size, more, words) {
    printf "<text x=\"%.1f\" y=\"%.1f\" font-size=\"%d\" fill=\"#222\" %s>%s</text>\n", x, y, size, more, words
}
function micros(n) { return sprintf(n < 10000 ? "%.1f" : "%.0f", n / 1000) }
function line(x, y1, y2, style) { printf "<line x1=\"%.1f\" x2=\"%.1f\" y1=\"%.1f\" y2=\"%.1f\" %s/>\n", x, x, y1, y2, style }

function relative(i, which) { return nanos[flow[i], table[i], engine[which]] / nanos[flow[i], table[i], STACK] }
function width_of(r) { return (r < CUT ? r : CUT) * UNIT }

function bar(y, i, which,   r, end) {
    r = relative(i, which); end = LEFT + width_of(r)
    printf "<rect x=\"%d\" y=\"%.1f\" width=\"%.1f\" height=\"%d\" fill=\"%s\"/>\n", LEFT, y, end - LEFT, BAR, colour[which]
    # Two white strokes say that the bar goes on.
    if (r > CUT)
        printf "<path d=\"M%.1f %.1f l-6 %d m10 -%d l-6 %d\" stroke=\"#fff\" stroke-width=\"2\"/>\n", end - 18, y, BAR, BAR, BAR
}
# A bar's value, with a white edge so that it can be read across a line.
function value(y, i, which,   r) {
    r = relative(i, which)
    text(LEFT + width_of(r) + 6, y + 12, 12, "paint-order=\"stroke\" stroke=\"#fff\" stroke-width=\"4\"" (which == 1 ? " font-weight=\"bold\"" : ""),
        sprintf(r < 0.1 ? "%.3f" : "%.2f", r) " (" micros(nanos[flow[i], table[i], engine[which]]) " \302\265s)")
}
# The bars of the cases with one table, below `y`; answers where they end.
function panel(name, title, y,   i, which, top, end) {
    text(20, y + 14, 15, "font-weight=\"bold\"", title)
    top = y + 26; end = top
    for (i = 1; i <= cases; i++) if (table[i] == name) {
        text(LEFT - 10, end + 31, 13, "text-anchor=\"end\"", flow[i])
        for (which = 1; which <= 3; which++) bar(end + 4 + (which - 1) * STEP, i, which)
        end += GROUP
    }
    line(LEFT, top, end - 6, "stroke=\"#444\"")
    line(LEFT + UNIT, top, end - 6, "stroke=\"#666\" stroke-dasharray=\"2 3\"")
    line(LEFT + UNIT * 0.15, top, end - 6, "stroke=\"#b03030\" stroke-dasharray=\"6 4\"")
    end = top
    for (i = 1; i <= cases; i++) if (table[i] == name) {
        for (which = 1; which <= 3; which++) value(end + 4 + (which - 1) * STEP, i, which)
        end += GROUP
    }
    return end
}

END {
    height = 2 * (26 + cases / 2 * GROUP) + 150
    printf "<svg xmlns=\"http://www.w3.org/2000/svg\" viewBox=\"0 0 %d %d\" width=\"%d\" height=\"%d\" ", WIDTH, height, WIDTH, height
    print "font-family=\"sans-serif\">"
    printf "<rect width=\"%d\" height=\"%d\" fill=\"#fff\"/>\n", WIDTH, height
    text(20, 30, 18, "font-weight=\"bold\"", "Time of one flow, relative to libxml2 + SQLite (shorter is better)")
    for (which = 1; which <= 3; which++) {
        printf "<rect x=\"%d\" y=\"46\" width=\"14\" height=\"14\" fill=\"%s\"/>\n", 20 + (which - 1) * 190, colour[which]
        text(40 + (which - 1) * 190, 58, 13, "", label[which])
    }
    printf "<line x1=\"610\" x2=\"640\" y1=\"53\" y2=\"53\" stroke=\"#b03030\" stroke-dasharray=\"6 4\"/>\n"
    text(648, 58, 13, "", "0.15: the goal of large flows")
    y = panel("empty", "Empty table", 80)
    panel("nearly full", "Nearly full table: 448 of 512 slots used", y + 14)
    if (note != "") text(20, height - 32, 12, "fill-opacity=\"0.75\"", note)
    text(20, height - 14, 12, "fill-opacity=\"0.75\"",
        "A bar past " CUT " is cut; its value stands beside it. pugixml parses only: it checks, converts and keeps nothing.")
    print "</svg>"
}
