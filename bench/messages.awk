# Writes a table from what `messages time` wrote and from lines "count, message, work, engine, instructions".

BEGIN { FS = "\t"; order = 0 }

$1 == "message" { bytes[$2] = $3 }
$1 == "time" { if (!(($2, $3) in seen)) { seen[$2, $3] = 1; message[++order] = $2; work[order] = $3 }
               middle[$2, $3, $4] = $5 }
$1 == "count" { count[$2, $3, $4] = $5 }

function us(n) { return sprintf(n < 10000 ? "%.2f" : "%.1f", n / 1000) }
function grouped(n,   text) {
    text = ""
    for (n = sprintf("%d", n); length(n) > 3; n = substr(n, 1, length(n) - 3)) text = "," substr(n, length(n) - 2) text
    return n text
}

END {
    print "| message | bytes | | hondivole | libxml2 | hondivole / libxml2 | instructions, hondivole | libxml2 |"
    print "|---|--:|---|--:|--:|--:|--:|--:|"
    for (i = 1; i <= order; i++) {
        m = message[i]; w = work[i]
        printf "| %s | %s | %s | %s | %s | **%.2f** | %s | %s |\n", m, grouped(bytes[m]), w, us(middle[m, w, "hondivole"]),
            us(middle[m, w, "libxml2"]), middle[m, w, "hondivole"] / middle[m, w, "libxml2"], grouped(count[m, w, "hondivole"]),
            grouped(count[m, w, "libxml2"])
    }
}
