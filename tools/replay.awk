# Writes the script of `replay`: the set-up, the first file, and of the capture, the second, in hexadecimal octets, a line for each frame. The capture
# has `left` octets; what is behind them is no part of it.
function number(text,   i, value) {
    if (swapped) text = substr(text, 7, 2) substr(text, 5, 2) substr(text, 3, 2) substr(text, 1, 2)
    for (i = 1; i <= length(text); i++) value = value * 16 + index("123456789abcdef", substr(text, i, 1))
    return value + 0
}
function write(   i, to, group, fits, frame_length) {
    to = substr(octets, 1, 12)
    frame_length = length(octets)
    group = to == "09002b000004" ? "es" : to == "09002b000005" ? "is" : "none"
    if (frame_length > 39000) { print "# frame " frames " is too long for a line"; return }
    if (whole > frame_length / 2) { print "# frame " frames " was cut"; return }
    for (i = 1; i <= ports; i++) if (snpa[i] == to || kind[system_of[i]] == group) {
        print "inject " lan[i] " " system_of[i] " " octets
        fits = 1
    }
    if (!fits) print "# frame " frames " is for no port: " to
}
FILENAME != "-" {
    sub(/\r$/, "")
    if (begun) next
    print
    if ($1 == "es" || $1 == "is") kind[$2] = $1
    if ($1 == "port") { system_of[++ports] = $2; lan[ports] = $3; snpa[ports] = tolower($4) }
    begun = $0 == "start"
    next
}
!begun { print "start"; begun = 1 }
# Takes the next piece, `wanted` octets from the digit `at` of what was read.
function take_piece() {
    octets = substr(read_on, at, 2 * wanted)
    at += 2 * wanted
    if (state == "header") {
        magic = substr(octets, 1, 8)
        swapped = magic ~ /^(d4c3b2a1|4d3cb2a1)$/
        if (!swapped && magic !~ /^(a1b2c3d4|a1b23c4d)$/ || number(substr(octets, 41, 8)) != 1) bad = 1
        half = magic ~ /3c/ ? 500000000 : 500000
        state = "record"
    } else if (state == "record") {
        frames++
        now = number(substr(octets, 1, 8)) * 2 + int(number(substr(octets, 9, 8)) / half)
        whole = number(substr(octets, 25, 8))
        if (frames == 1) clock = now
        for (; clock < now; clock++) print "tick"
        wanted = number(substr(octets, 17, 8))
        state = wanted ? "octets" : "record"
    } else {
        write()
        state = "record"
    }
    if (state == "record") wanted = 16
}
# (lines are joined and cut by some at a time: each cut copies what is read on)
{
    gsub(/ /, "")
    if (length($0) > 2 * left) $0 = substr($0, 1, 2 * left)
    left -= length($0) / 2
    read_on = read_on $0
    known += length($0)
    while (known - at + 1 >= 2 * wanted) {
        take_piece()
        if (bad) exit
    }
    if (at > 512) {
        read_on = substr(read_on, at)
        known -= at - 1
        at = 1
    }
}
BEGIN { state = "header"; wanted = 24; at = 1 }
END {
    if (!bad && state != "header") exit
    exit 6
}
