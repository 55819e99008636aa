# Writes a table from what `measure time` wrote (and, for counts, from lines "count, flow, table, engine, instructions").
# -v part=console | flows | times | editions | counts | goals

BEGIN { FS = "\t"; OURS = "hondivole"; STACK = "libxml2 + SQLite"; PUGI = "pugixml"; order = 0; flows = 0; paired = 0 }

$1 == "flow" { shape[++flows] = $2; bytes[$2] = $3; orders[$2] = $4; lines[$2] = $5; elements[$2] = $6 }
$1 == "time" { if (!(($2, $3) in seen)) { seen[$2, $3] = 1; case_flow[++order] = $2; case_table[order] = $3 }
               middle[$2, $3, $4] = $5; least[$2, $3, $4] = $6 }
$1 == "editions" { if (!($2 in pairs)) { pairs[$2] = 1; pair_table[++paired] = $2 }; pair[$2, $3] = $4 }
$1 == "count" { count[$2, $3, $4] = $5 }

function us(n) { return sprintf(n < 10000 ? "%.2f" : "%.1f", n / 1000) }
function ratio(f, t, a, b) { return middle[f, t, a] / middle[f, t, b] }
function shown(r) { return sprintf(r < 10 ? "%.2f" : "%.1f", r) }
function grouped(n,   text) {
    text = ""
    for (n = sprintf("%d", n); length(n) > 3; n = substr(n, 1, length(n) - 3)) text = "," substr(n, length(n) - 2) text
    return n text
}
# Whether a ratio meets a goal, as a table says it; `limit` is the most it may be.
function met(r, limit) { return r <= limit ? "met" : "not met" }
# Whether a ratio is one but for so much.
function near(r, most) { return r - 1 <= most && 1 - r <= most ? "met" : "not met" }
function goal(what, f, t, peer, limit,   r) {
    r = ratio(f, t, OURS, peer)
    printf "| %s | %s, %s table | %s | %s |\n", what, f, t, shown(r), met(r, limit)
}

function console(   i, f, t) {
    printf "%-22s %-12s %12s %12s %12s %10s %10s\n", "flow", "table", "hondivole", "the stack", "pugixml", "of stack", "of pugixml"
    for (i = 1; i <= order; i++) {
        f = case_flow[i]; t = case_table[i]
        printf "%-22s %-12s %9s us %9s us %9s us %10s %10s\n", f, t, us(middle[f, t, OURS]), us(middle[f, t, STACK]),
            us(middle[f, t, PUGI]), shown(ratio(f, t, OURS, STACK)), shown(ratio(f, t, OURS, PUGI))
    }
    for (i = 1; i <= paired; i++) printf "edition 2 / edition 1, 64 orders, %s: %.3f\n", pair_table[i], pair[pair_table[i], OURS]
}
function flow_table(   i, f) {
    print "| flow | bytes | orders | lines | elements |\n|---|--:|--:|--:|--:|"
    for (i = 1; i <= flows; i++) { f = shape[i]; printf "| %s | %s | %d | %d | %d |\n", f, grouped(bytes[f]), orders[f], lines[f], elements[f] }
}
function time_table(   i, f, t) {
    print "| flow | table | hondivole | libxml2 + SQLite | pugixml | hondivole / (libxml2 + SQLite) | hondivole / pugixml |"
    print "|---|---|--:|--:|--:|--:|--:|"
    for (i = 1; i <= order; i++) {
        f = case_flow[i]; t = case_table[i]
        printf "| %s | %s | %s | %s | %s | **%s** | %s |\n", f, t, us(middle[f, t, OURS]), us(middle[f, t, STACK]), us(middle[f, t, PUGI]),
            shown(ratio(f, t, OURS, STACK)), shown(ratio(f, t, OURS, PUGI))
    }
}
function edition_table(   i, t) {
    print "| table | hondivole | libxml2 + SQLite | pugixml |\n|---|--:|--:|--:|"
    for (i = 1; i <= paired; i++) { t = pair_table[i]; printf "| %s | **%.3f** | %.3f | %.3f |\n", t, pair[t, OURS], pair[t, STACK], pair[t, PUGI] }
}
function count_table(   i, f, t) {
    print "| flow | table | hondivole | libxml2 + SQLite | pugixml |\n|---|---|--:|--:|--:|"
    for (i = 1; i <= order; i++) {
        f = case_flow[i]; t = case_table[i]
        printf "| %s | %s | %s | %s | %s |\n", f, t, grouped(count[f, t, OURS]), grouped(count[f, t, STACK]), grouped(count[f, t, PUGI])
    }
}
function goal_table(   i) {
    print "| goal | case | ratio | |\n|---|---|--:|---|"
    goal("at most a quarter of libxml2 + SQLite", shape[1], "empty", STACK, 0.25)
    goal("at most 0.6 of libxml2 + SQLite", shape[1], "nearly full", STACK, 0.6)
    for (i = 2; i <= flows; i++) goal("at most 0.15 of libxml2 + SQLite", shape[i], "empty", STACK, 0.15)
    for (i = 2; i <= flows; i++) goal("at most 0.15 of libxml2 + SQLite", shape[i], "nearly full", STACK, 0.15)
    for (i = 1; i <= paired; i++) {
        printf "| edition 2 within five percent of edition 1 | 64 orders, %s table | %.3f | %s |\n", pair_table[i], pair[pair_table[i], OURS],
            near(pair[pair_table[i], OURS], 0.05)
    }
    for (i = 2; i <= flows; i++) goal("no slower than pugixml's bare parse", shape[i], "empty", PUGI, 1)
    for (i = 2; i <= flows; i++) goal("no slower than pugixml's bare parse", shape[i], "nearly full", PUGI, 1)
}

END {
    if (part == "console") console()
    if (part == "flows") flow_table()
    if (part == "times") time_table()
    if (part == "editions") edition_table()
    if (part == "counts") count_table()
    if (part == "goals") goal_table()
}
