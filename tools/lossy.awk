# Makes the script of `lossy`. It writes lines to the program by a pipe, `lines`, and reads the transcript as its input. To know that
# all was answered it asks for a frame that there is not, and reads up to that answer, before the pipes are full.

# L'Ecuyer's generator of two: below 2^31, and each product is below 2^53, so the arithmetic of awk is exact.
function below(n) {
    one = one * 40014 % 2147483563
    two = two * 40692 % 2147483399
    return (one + 2147483563 - two % 2147483563) % 2147483563 % n
}
# Whether a line of the transcript begins so, field by field; `*` is any field.
function begins(line, wanted,   want, has, n, i) {
    n = split(wanted, want, " ")
    if (split(line, has, " ") < n) return 0
    for (i = 1; i <= n; i++) if (want[i] != "*" && want[i] != has[i]) return 0
    return 1
}
function hear(line,   field, i) {
    split(line, field, " ")
    if (field[1] == "tick") clock = field[2] + 0
    else if (field[1] == "frame") sent(field[2], field[3], field[4], field[5])
    else if (field[1] == "deliver") had[field[2] " " field[3]]
    else if (field[1] == "stopped") is_stopped = 1
    if (awaited[field[1]]) for (i = 1; i <= conditions; i++) if (!came[i] && begins(line, condition[i])) { came[i] = 1; awaited[field[1]]-- }
}
function answers(   line) {
    print mark > lines
    fflush(lines)
    for (due++; due > 0; ) {
        if ((getline line) <= 0) exit 1
        if (line == answer) due--
        else hear(line)
    }
    unread = 0
}
# A line of the new script, which the program is given too. A comment that losses read is a plain one there.
function add(line) {
    if (line ~ /^#(when|losses|calm|down|up|lan)( |$)/) sub(/^#/, "# ", line)
    print line > lossy
    if (line == "" || line ~ /^#/) return
    if (unread + length(line) > 3000 && began) answers()
    print line > lines
    unread += length(line) + 1
    if (line == mark) due++
}
# The lines that waited for a line of the transcript which has come, in the order of the script; whether there were any.
function release(   i, j, any) {
    for (i = first_held; i <= helds; i++) {
        if (i in is_given) { if (i == first_held) first_held++; continue }
        for (j = first_condition[i]; j <= last_condition[i] && came[j]; j++);
        if (j <= last_condition[i]) continue
        is_given[i]
        for (j = first_condition[i]; j <= last_condition[i]; j++) add("# when " condition[j])
        add(held[i])
        if (is_over) add("settle")
        holding--
        any = 1
    }
    return any
}
function catch_up() {
    do answers(); while (holding && release())
}
# A frame was sent: for the system of that SNPA, or for all others of the group's kind. A pair that a line of the script delivered, or
# that is late, is left out when it would be delivered, as `settle` leaves it out.
function sent(number, lan, sender, snpa,   i) {
    lan_of[number] = lan
    sender_of[number] = sender
    sent_at[number] = clock
    for (i = 1; i <= ports; i++) {
        if (on[i] != lan || of[i] == sender) continue
        if (at[i] == snpa || snpa == "09002b00000" (kind[of[i]] == "es" ? 4 : 5)) waits[++waiting] = number " " of[i]
    }
}
# The rates of a LAN: those of its comment `#lan`, else those of the words. Above `#losses` and below `#calm` nothing is lost.
function rate(lan, what, other) { return (lan, what) in rates ? rates[lan, what] : other }
function keeps_order(lan) { return is_calm || rates[lan, "order"] == "keep" }
function is_down(pair,   part) {
    split(pair, part, " ")
    return (part[2] in down) || (sender_of[part[1]] in down)
}
function is_late(number) { return sent_at[number] + bound[lan_of[number]] < clock }
# A copy whose tick has come; one that would have come in time, but for which no `settle` stood there, is lost.
function arrive(pair, number, when) {
    if (is_late(number) && when - sent_at[number] <= bound[lan_of[number]]) add("# late: " pair)
    else chosen[++count] = pair
}
# A copy comes at once, or after a delay; where the LAN keeps the order, not before an earlier one.
function choose(pair, number, lan,   from, to, when) {
    if (is_calm || !((lan, "from") in rates)) { chosen[++count] = pair; return }
    from = rates[lan, "from"]
    to = rates[lan, "to"]
    when = sent_at[number] + from + (to > from ? below(to - from + 1) : 0)
    if (keeps_order(lan) && when < last_due[lan]) when = last_due[lan]
    last_due[lan] = when
    if (when <= clock) { arrive(pair, number, when); return }
    later[++laters] = pair
    due_at[laters] = when
}
# The delayed copies whose tick has come.
function choose_later(   i, kept, pair, part) {
    for (i = 1; i <= laters; i++) {
        pair = later[i]
        if (due_at[i] > clock) { later[++kept] = pair; due_at[kept] = due_at[i]; continue }
        if (is_down(pair)) { add("# down: " pair); continue }
        split(pair, part, " ")
        arrive(pair, part[1], due_at[i])
    }
    laters = kept + 0
}
function choose_waiting(   i, part, number, lan) {
    for (i = 1; i <= waiting; i++) {
        split(waits[i], part, " ")
        number = part[1]
        lan = lan_of[number]
        if (waits[i] in had || is_late(number) && rates[lan, "to"] + 0 <= bound[lan]) continue
        if (is_down(waits[i])) { add("# down: " waits[i]); continue }
        if (!is_calm && below(100) < rate(lan, "loss", loss)) { add("# lost: " waits[i]); continue }
        choose(waits[i], number, lan)
        if (!is_calm && below(100) < rate(lan, "repeat", repeat)) choose(waits[i], number, lan)
    }
    waiting = 0
}
# In any order; those of a LAN that keeps it in theirs, in the places that fall to them.
function deliver(   i, j, part, lan, places, place, first, queue, taken) {
    for (i = 1; i <= count; i++) place[i] = i
    for (i = count; i && !is_calm; i--) {
        j = 1 + below(i)
        order[++places] = place[j]
        place[j] = place[i]
    }
    for (i = 1; i <= count && is_calm; i++) order[i] = i
    for (i = 1; i <= count; i++) {
        split(chosen[i], part, " ")
        lan = lan_of[part[1]]
        if (keeps_order(lan)) queue[lan, ++first[lan]] = i
    }
    for (i = 1; i <= count; i++) {
        split(chosen[order[i]], part, " ")
        lan = lan_of[part[1]]
        add("deliver " chosen[keeps_order(lan) ? queue[lan, ++taken[lan]] : order[i]])
    }
    count = 0
}
# Rounds, until nothing waits. Above `#losses` and below `#calm` the line itself, but where a system is down.
function settle(   any) {
    if (is_calm && !downs) {
        do { add("settle"); is_stopped = 0; answers() } while (holding && release())
        if (!is_stopped) waiting = 0
        return
    }
    for (catch_up(); waiting || laters; catch_up()) {
        choose_later()
        any = waiting
        choose_waiting()
        if (!count && !any) break
        deliver()
    }
}
# The line `#lan LAN loss N repeat N delay A-B order keep|any`.
function set_rates(count, field,   i, delay) {
    for (i = 3; i < count; i += 2) {
        if (field[i] == "delay") {
            if (split(field[i + 1], delay, "-") == 1) delay[2] = delay[1]
            rates[field[2], "from"] = delay[1] + 0
            rates[field[2], "to"] = delay[2] + 0
        } else rates[field[2], field[i]] = field[i] == "order" ? field[i + 1] : field[i + 1] + 0
    }
}
# The events for which lines wait; the lines that do are behind their comments.
function wait_for(event,   word) {
    condition[++conditions] = event
    word = event
    sub(/ .*/, "", word)
    awaited[word]++
}
# A line of the script, below the conditions that stand above it.
function hold(line) {
    held[++helds] = line
    line_of[helds] = number
    first_condition[helds] = next_condition
    last_condition[helds] = above
    next_condition = above + 1
    holding++
    catch_up()
}
BEGIN {
    printf "" > lines
    first_held = next_condition = 1
    one = 1 + seed % 2147483562
    two = 1 + seed * 7 % 2147483398
    for (i = 0; i < 20; i++) below(100)
    while ((getline line < script) > 0) {
        sub(/\r$/, "", line)
        if (line ~ /^#when /) wait_for(substr(line, 7))
        if (line == "#losses") is_calm = 1
    }
    close(script)
    while ((getline line < script) > 0) {
        sub(/\r$/, "", line)
        number++
        fields = split(line, field, " ")
        if (field[1] == "es" || field[1] == "is") { kind[field[2]] = field[1]; any = field[2] }
        if (field[1] == "lan") bound[field[2]] = field[3]
        if (field[1] == "port") { of[++ports] = field[2]; on[ports] = field[3]; at[ports] = tolower(field[4]) }
        if (line == "start") { mark = "deliver 999999999 " any; answer = "nosuch 999999999 " any }
        if (line ~ /^#when /) { above++; continue }
        if (line == "#losses") is_calm = 0
        if (line == "#calm") { is_calm = is_over = 1; waiting = laters = 0 }
        if (field[1] == "#lan") set_rates(fields, field)
        if (field[1] == "#down") { down[field[2]]; downs++ }
        if (field[1] == "#up") { delete down[field[2]]; downs-- }
        if (above >= next_condition && line != "" && line !~ /^#/) hold(line)
        else if (line != "settle" || any == "") add(line)
        else settle()
        if (line == "start" && any != "") began = 1
        else if (holding && !is_over && line !~ /^(#.*|settle)?$/) catch_up()
    }
    if (holding) catch_up()
    for (i = 1; i <= helds; i++) if (!(i in is_given)) {
        add("# never: " held[i])
        print line_of[i] " " held[i] > (lossy ".never")
    }
    print "" > (lossy ".whole")
    close(lines)
    while (getline > 0);
}
