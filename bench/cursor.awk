# The table of bench/cursor, from the lines of bench/cursor.c with N before each and a figure behind it. Of each figure
# goes what was counted of no call. `digits`: so many behind the point. `tree`: empty where none is beside.
function figure(x) { return x == "" ? sprintf("%8s", "") : sprintf("%8." digits "f", x) }
function share(x) { return x == "" ? sprintf("%6s", "") : sprintf("%6." (digits ? 3 : 2) "f", x) }
function ratio(x, y) { return x == "" || y == "" || x <= 0 || y <= 0 ? sprintf("%5s", "") : sprintf("%5.2f", x / y) }
function less(x, y) { return x == "" || y == "" ? "" : x - y }
function part(x, y) { return x == "" || y == 0 ? "" : x / y }
function mean(what) { return sum[key, what] / count[key, what] }

function row(what, points, codec, beyond, octet, C, before, octet_before) {
    printf "| %-19s | %2s | %6s | %-7s |", what, n, points, bitmap
    printf " %s | %s | %s | %s | %s |", figure(codec), figure(beyond), share(octet), figure(C), ratio(beyond, C)
    if (tree != "")
        printf " %s | %s | %s |", figure(before), share(octet_before), ratio(codec, before)
    printf "\n"
}

function rows_of_cursor(name,   turn) {
    row(name ", mean", points, mean("cursor"), mean("cursor") - header, "", mean("C_cursor"))
    row(name ", worst", points, most[key, "cursor"], most[key, "cursor"] - header, "", most[key, "C_cursor"])
    turn = found[key, "turn", 0]
    if (turn != "")
        row(name ", in turn", points, turn, turn - header, "", found[key, "C_turn", 0])
}

function rows_of_chart(   s, bits, filling, bare, more) {
    bare = n SUBSEP "spread" SUBSEP points SUBSEP "none"
    for (s = 0; s < 2; s++)
        bits[s] = octets == 0 ? "" : less(found[key, "header", s], found[bare, "header", s])
    filling = found[key, "index", 0] - header
    row("header", points, header, bits[0], part(bits[0], octets), "", found[key, "header", 1], part(bits[1], octets))
    row("index", points, found[key, "index", 0], filling, part(filling, octets), found[key, "C_index", 0])
    rows_of_cursor("cursor")
    row("read", points, found[key, "read", 0], found[key, "read", 0] - header, "", found[key, "C_read", 0],
        found[key, "read", 1])
    if (octets == 0)
        return
    if (n in smaller) {
        more = octets - octets_of[smaller[n]]
        for (s = 0; s < 2; s++)
            bits[s] = part(less(found[key, "header", s], found[smaller[n], "header", s]), more)
        filling -= found[smaller[n], "index", 0] - found[smaller[n], "header", 0]
        row("header, further", "", "", "", bits[0], "", "", bits[1])
        row("index, further", "", "", "", filling / more)
    }
    smaller[n] = key
}

{
    key = $1 SUBSEP $2 SUBSEP $3 SUBSEP $4
    if (!(key in octets_of)) {
        keys[++charts] = key
        octets_of[key] = $5
    }
    if ($6 == "nothing")
        nothing = $9
    x = $9 - nothing
    found[key, $6, $7] = x
    sum[key, $6] += x
    if (count[key, $6]++ == 0 || x > most[key, $6])
        most[key, $6] = x
}

END {
    printf "| what                |  N | points | bitmap  |    codec |   beyond |  octet |        C | ratio |"
    print tree == "" ? "" : "   before |  octet | ratio |"
    print "|---|---|---|---|---|---|---|---|---|" (tree == "" ? "" : "---|---|---|")
    for (k = 1; k <= charts; k++) {
        key = keys[k]
        split(key, of, SUBSEP)
        n = of[1]
        points = of[3]
        bitmap = of[4]
        octets = octets_of[key]
        header = found[key, "header", 0]
        if (of[2] == "spread")
            rows_of_chart()
        else
            rows_of_cursor(of[2] == "row_ends" ? "octant" : "last group")
    }
}
