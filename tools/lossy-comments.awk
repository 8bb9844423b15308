# Looks at the comments that losses read, and writes the first fault: LINE COLUMN CAUSE, and what it wants. Of the script it believes the rest:
# the program has run it. distance.awk and comments.awk stand beside.
function fault(column, cause, wants) {
    print FNR, column, cause, wants
    failed = 1
    exit 1
}
# Where field N begins.
function place(n,   i, column) {
    column = 1
    for (i = 1; i < n; i++) column += length($i) + 1
    return column
}
function end() { return length($0) + 1 }
function is_number(text) { return text ~ /^(0|[1-9][0-9]?[0-9]?)$/ }
function percent(n) {
    if (!is_number($n)) fault(place(n), "syntax", "a number in a hundred")
    if ($n > 100) fault(place(n), "range", "0 to 100")
}
function delay(n,   part, count) {
    count = split($n, part, "-")
    if (count < 1 || count > 2 || !is_number(part[1]) || count == 2 && !is_number(part[2])) fault(place(n), "syntax", "ticks, A-B or one number")
    if (count == 2 && part[1] + 0 > part[2] + 0) fault(place(n), "range", "A is at most B")
}
# An event line that may wait stands below; comments and empty lines may stand between.
function waits() {
    if (when && ($0 !~ /^(unit|connect|accept|refuse|data|expedite|window|disconnect|deliver|inject|restart|send) /)) {
        print when, 1, "order", "an event line stands below it, and none of tick and settle"
        failed = 1
        exit 1
    }
    when = 0
}
{ sub(/\r$/, "") }
/^#[A-Za-z=]/ { if ((wants = unknown_comment($0)) != "") fault(1, "word", wants) }
$1 == "lan" { lans[$2] }
$1 == "es" || $1 == "is" { systems[$2] }
$0 == "start" { started = 1 }
/^#(when|losses|calm|down|up|lan)( |$)/ {
    if (match($0, /  | $/)) fault(RSTART + 1, "fields", "one blank between fields, and none behind the last")
}
/^#when( |$)/ {
    if (NF == 1) fault(end(), "fields", "the event for which the line below waits, as the transcript has it")
    if ($2 !~ /^(tick|sent|no|frame|deliver|nosuch|late|notthere|notours|unit|drop|discard|report|hello|redirect|hellofull|alien|badhello|connect|incoming|accept|confirm|data|got|expedite|urgent|refuse|disconnect|gone|window|held|unknown|badtpdu|restart|silent|settled|stopped|inject|send|datagram|nouser|badud|joined)$/) fault(7, "word", "no line of a transcript begins with that word")
    if (!when) when = FNR
    next
}
/^#losses( |$)/ {
    if (NF > 1) fault(place(2), "fields", "that word alone")
    if (losses++) fault(1, "repeat", "it stands above")
    if (calm) fault(1, "order", "it stands above #calm")
}
/^#calm( |$)/ {
    if (NF > 1) fault(place(2), "fields", "that word alone")
    if (calm++) fault(1, "repeat", "it stands above")
    if (!started) fault(1, "order", "it stands below start")
}
/^#(down|up)( |$)/ {
    if (NF == 1) fault(end(), "fields", "the name of a system")
    if (NF > 2) fault(place(3), "fields", "the name of one system")
    if (!($2 in systems)) fault(place(2), "unknown", "no system has that name")
    if (!started) fault(1, "order", "it stands below start")
    if ($1 == "#down" && $2 in down) fault(place(2), "repeat", "the system is down")
    if ($1 == "#up" && !($2 in down)) fault(place(2), "order", "the system is not down")
    if ($1 == "#down") down[$2]
    else delete down[$2]
}
/^#lan( |$)/ {
    if (NF == 1) fault(end(), "fields", "the name of a LAN")
    if (!($2 in lans)) fault(place(2), "unknown", "no LAN above has that name")
    if (NF == 2) fault(end(), "fields", "loss N, repeat N, delay A-B, order keep or order any")
    split("", stood)
    for (i = 3; i <= NF; i += 2) {
        if ($i !~ /^(loss|repeat|delay|order)$/) fault(place(i), "syntax", "loss, repeat, delay or order" (i == 3 && is_number($i) ? "; a line lan that is taken out begins with # and a blank" : ""))
        if ($i in stood) fault(place(i), "repeat", "it stands already")
        stood[$i]
        if (i == NF) fault(end(), "fields", "a value behind " $i)
        if ($i == "loss" || $i == "repeat") percent(i + 1)
        else if ($i == "delay") delay(i + 1)
        else if ($(i + 1) !~ /^(keep|any)$/) fault(place(i + 1), "syntax", "keep or any")
    }
}
!/^#/ && $0 != "" { waits() }
END {
    if (failed) exit 1
    $0 = ""
    waits()
}
