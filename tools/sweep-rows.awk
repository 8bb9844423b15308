# Of a script and the transcript of one run, for `sweep`: a row for each unit, each end and the run, parted by blanks:
#     U SEED LOSS END UNIT SENT SHOWN DELAY       E SEED LOSS END CAUSE       R SEED LOSS FRAMES NO NEVER LINES
# LINES is the count of lines of the script that submit a unit each. - stands for what did not come. The units of an end are numbered from 1, expedited ones from e1; of a raw unit or a datagram END is SYSTEM>SYSTEM.
function submit(from, kind,   n) {
    n = ++submitted[from, kind]
    unit[++units] = from
    number[units] = kind n
    sent[units] = clock
    place[from, kind, n] = units
    return units
}
function show(u) { if (u != "" && !(u in shown)) shown[u] = clock }
# The user's end on the other side, beyond the relays between.
function source(end,   from) {
    for (from = link[end]; from in joined; from = link[joined[from]]);
    return from
}
function system_of(address) { return system_at[substr(address, 1, length(address) - 2)] }
# Units without a connection: the first of these addresses and octets that was not shown yet.
function submit_raw(way, octets) { queue[way, octets, ++queued[way, octets]] = submit(way, "") }
function show_raw(way, octets) {
    if (shown_of[way, octets] + 0 < queued[way, octets] + 0) show(queue[way, octets, ++shown_of[way, octets]])
}
FNR == NR {
    sub(/\r$/, "")
    if ($1 ~ /^(data|expedite|unit|send)$/) unit_lines++
    if ($1 == "es") system_at[tolower(substr($3, 1, length($3) - 2))] = $2
    next
}
$1 == "tick" { clock = $2 }
$1 == "frame" { frames++ }
$1 == "no" { refusals++ }
$1 == "connect" { end[++ends] = $2; caller[$5 " " $4] = $2 }
$1 == "incoming" {
    end[++ends] = $2
    if (($5 " " $6) in caller) { link[$2] = caller[$5 " " $6]; link[link[$2]] = $2 }
}
$1 == "joined" { joined[$2] = $3; joined[$3] = $2 }
$1 == "data" && !($2 in joined) { submit($2, "") }
$1 == "expedite" && !($2 in joined) { submit($2, "e") }
$1 == "got" && !($2 in joined) { show(place[source($2), "", ++got[$2]]) }
$1 == "urgent" && !($2 in joined) { show(place[source($2), "e", ++urgent[$2]]) }
$1 == "gone" { gone[$2] = $3 }
$1 == "sent" { submit_raw($2 ">" system_of($3), $4) }
$1 == "unit" { show_raw(system_of($3) ">" $2, $4) }
$1 == "send" { submit_raw($2 ">" system_of($4), $3 " " $5 " " $6) }
$1 == "datagram" { show_raw(system_of($3) ">" $2, $4 " " $5 " " $6) }
END {
    for (i = 1; i <= units; i++) print "U", seed, loss, unit[i], number[i], sent[i], (i in shown) ? shown[i] " " shown[i] - sent[i] : "- -"
    for (i = 1; i <= ends; i++) if (!(end[i] in joined)) print "E", seed, loss, end[i], end[i] in gone ? gone[end[i]] : "-"
    print "R", seed, loss, frames + 0, refusals + 0, never + 0, unit_lines + 0
}
