# The rows of `ladder`: of the script it takes the systems, of the decoded capture what each frame carries, of the lines of the transcript that
# are read ahead when each frame is delivered, and of the transcript the rows. ladder-text.awk or ladder-svg.awk draws them. With `from` and `to`
# only the rows of these ticks are drawn, with `of` only those of that end.
function add(its_name) { column[its_name] = columns; shown[columns++] = its_name }
# The number of a frame, and what it carries where that is known.
function freight(n) { return n (carried[n] == "" ? "" : " " carried[n]) }
function carry(what) {
    carried[record] = last_carry == record ? carried[record] "," what : what
    last_carry = record
}
# The system of an address as the decoded capture has it, without its selector.
function system_shown(address) {
    gsub(/\./, "", address)
    return system_at[substr(address, 1, length(address) - 2)]
}
# One copy of a text, which many frames have.
function shared(text) {
    if (!(text in copy)) copy[text] = text
    return copy[text]
}
# The references of a TPDU: of its destination and of its source, 0 for one that it has not.
function refer(what,   to_ref, from_ref) {
    to_ref = what == "cr" ? 0 : $3
    from_ref = what == "cc" ? $5 : what ~ /^(cr|dr|dc)$/ ? $4 : 0
    refers[record] = shared(refers[record] " " to_ref "/" from_ref)
}
# Whether a frame is one between the end of `of` and its partner.
function concerns(n,   list, way, count, ref, i, e) {
    split(way_of[n], way, " ")
    if (!(n in refers)) return way_of[n] in is_way
    count = split(refers[n], list, " ")
    for (i = 1; i <= count; i++) {
        split(list[i], ref, "/")
        e = end_at[way[2], ref[1]]
        if (e == "") e = end_at[way[1], ref[2]]
        if (e == of || e == partner) return 1
    }
    return 0
}
# Whether a row is drawn: one of a frame, and one of an end.
function has_frame(n) { return on && (of == "" || n in is_ours) }
function has_end(e) { return on && (of == "" || e == of) }
# Octets that are all printable, as text between quotes.
function as_text(octets,   i, value, text) {
    if (octets !~ /^([2-6][0-9a-f]|7[0-9a-e])+$/) return octets
    for (i = 1; i < length(octets); i += 2) {
        value = (index("0123456789abcdef", substr(octets, i, 1)) - 1) * 16 + index("0123456789abcdef", substr(octets, i + 1, 1)) - 1
        text = text sprintf("%c", value)
    }
    return "\"" text "\""
}
# The system of an address or an SNPA, behind a sign; else the address.
function as_name(address, sign,   front) {
    front = substr(address, 1, length(address) - 2)
    if (address in system_at) return sign system_at[address]
    return (front in system_at) ? sign system_at[front] : address
}
# A line of the transcript, without its system, as a picture has it.
function as_drawn(   i, text, w) {
    w = $1
    text = w
    if (w ~ /^(accept|confirm|window|held|joined)$/) return $0
    if (w ~ /^(data|got|expedite|urgent|refuse|disconnect)$/) return w " " $2 " " as_text($3)
    if (w == "gone") return w " " $2 " " $3 " " as_text($4)
    if (w == "sent") return w " " as_name($3, ">") " " as_text($4)
    if (w == "unit") return w " " as_name($3, "<") " " as_text($4)
    if (w == "send") return w " " $3 " " as_name($4, ">") " " $5 " " as_text($6)
    if (w == "datagram") return w " " as_name($3, "<") " " $4 " " $5 " " as_text($6)
    if (w == "hello") return w " " $3 " " as_name($4, "<")
    if (w == "redirect") return w " " as_name($3, ">") " " as_name($4, "by ")
    for (i = 3; i <= NF; i++) text = text " " $i
    return text
}
part == "script" {
    sub(/\r$/, "")
    if ($1 == "es" || $1 == "is") { name[++names] = $2; kind[$2] = $1; ends += $1 == "es"; system_at[tolower(substr($3, 1, length($3) - 2))] = $2 }
    if ($1 == "port") system_at[tolower($4)] = $2
    next
}
part == "decode" && $1 == "tpdu" {
    if ($2 == "dt" || $2 == "ed") carry(toupper($2) " " $5 ($4 == "0" ? "+" : ""))
    else if ($2 == "ak") carry("AK " $4 "/" $5)
    else if ($2 == "dr") carry("DR " $5)
    else if ($2 == "ea" || $2 == "er") carry(toupper($2) " " $4)
    else carry(toupper($2))
    if (of != "") refer($2)
    next
}
part == "decode" {
    if ($1 !~ /^[0-9]+$/) next
    record = $1
    # (the first piece has the offset 0)
    if ($5 == "dt" && $10 != "-" && (index($9, "m") || !index($10, "/0/"))) {
        split($10, part_of, "/")
        carried[record] = $5 " +" part_of[2]
    } else carried[record] = $5
    if (of != "" && $5 == "dt") way_of[record] = shared(system_shown($7) " " system_shown($6))
    next
}
part == "ahead" {
    if ($1 == "tick") clock = $2
    else if ($1 == "connect") { caller[$5 " " $4] = $2; system_of[$2] = $3 }
    else if ($1 == "incoming") {
        system_of[$2] = $3
        if (!(($5 " " $6) in caller)) next
        if ($2 == of) partner = caller[$5 " " $6]
        if (caller[$5 " " $6] == of) partner = $2
    } else if (!($2 in arrives)) arrives[$2] = clock
    next
}
FNR == 1 {
    if (partner != "") { is_way[system_of[of] " " system_of[partner]]; is_way[system_of[partner] " " system_of[of]] }
    clock = ""
    on = from == ""
    place_systems()
}
$1 == "deliver" {
    if (has_frame($2)) draw_arrow($2, column[$3], freight($2) (sent[$2] == clock ? "" : " @" sent[$2]), ">")
    next
}
$1 == "frame" {
    starts[$2] = column[$4]
    sent[$2] = clock
    if (of != "" && concerns($2)) is_ours[$2]
    if (!has_frame($2)) next
    draw_frame($2)
    if (($2 in arrives) && (to == "" || arrives[$2] <= to + 0)) next
    # (where it goes: a group is on all sides)
    goes = ($5 in system_at) ? column[system_at[$5]] : starts[$2] < columns - 1 ? columns - 1 : 0
    draw_lost($2, goes, ($2 in arrives) ? arrives[$2] : "X")
    next
}
$1 == "tick" {
    clock = $2
    on = from == "" || clock >= from + 0 && clock <= to + 0
    if (on) draw_tick()
    next
}
$1 == "late" && ($2 in starts) && starts[$2] != column[$3] {
    if (has_frame($2)) draw_arrow($2, column[$3], freight($2) " @" sent[$2], "X")
}
$1 ~ /^(nosuch|late|notthere|notours)$/ { if (has_frame($2)) draw_text(column[$3], $1 " " $2); next }
$1 == "connect" || $1 == "incoming" {
    at[$2] = column[$3]
    end_at[$3, $4] = $2
    if (has_end($2)) draw_text(at[$2], $1 " " $2)
    next
}
$1 ~ /^(accept|confirm|data|got|expedite|urgent|refuse|disconnect|gone|window|held|joined)$/ { if (has_end($2)) draw_text(at[$2], as_drawn()); next }
$1 ~ /^(done|refused|toomuch|strays)$/ { if (on) draw_note($0); next }
!on || of != "" { next }
$1 == "drop" && $2 == "frame" || $1 == "inject" && $2 == "notthere" { draw_text(column[$3], $1 " " $2); next }
$2 in column { draw_text(column[$2], as_drawn()); next }
$1 != "settled" { draw_note($0) }
END { draw_end() }

# End systems of the first half, intermediate systems, the other end systems.
function place_systems(   i, first) {
    for (i = 1; i <= names; i++) if (kind[name[i]] == "es" && first++ < ends / 2) add(name[i])
    for (i = 1; i <= names; i++) if (kind[name[i]] == "is") add(name[i])
    for (i = 1; i <= names; i++) if (!(name[i] in column)) add(name[i])
    draw_begin()
}
