# Which lines of a transcript of `osi relay` are calls of the relays. After each event line of the script they react to its events in order:
# a connect indication at a row has a connection asked for, a confirm has the called end accepted, and where one end of a pair goes the
# other is refused or disconnected. Then each open pair, in the order of their joining, and of each the called end first, submits the units
# that wait, up to one that is refused, and sets the credit. join.awk calls `relay_hears` with each event of a line, `begin_pump` behind them, asks
# `call_is_due` before each event that follows, and tells what the call made by `call_told`. The rules are those of crates/tp4_relay/specs.
function relay_line(text,   w) {
    split(text, w, " ")
    has_relays = 1
    rows[w[2] " " tolower(w[3])]
}
# An event of the line: the relays react to it later, in its turn.
function relay_hears(text) {
    if (text ~ /^(incoming|confirm|gone|got|urgent|accept|data|expedite|window|disconnect) /) event[++events] = text
}
function begin_pump() {
    turn = 0
    stage = "react"
}
function joined_end(end,   p) {
    p = pair_of[end]
    return end == called[p] ? caller[p] : called[p]
}
# What an event changes of its pair.
function change(text,   w, p) {
    split(text, w, " ")
    if (w[1] == "incoming" && (w[3] " " w[9]) in rows) { claimed[w[2]]; return }
    if (w[1] == "joined") {
        pair_of[w[2]] = pair_of[w[3]] = ++pairs
        called[pairs] = w[2]
        caller[pairs] = w[3]
        phase[pairs] = w[2] in lost ? "closed" : "begun"
        return
    }
    if (w[1] == "gone" && w[2] in claimed) lost[w[2]]
    if (!(w[2] in pair_of)) return
    p = pair_of[w[2]]
    if (w[1] == "confirm" && w[2] == caller[p] && phase[p] == "begun") phase[p] = "open"
    else if (w[1] ~ /^(gone|disconnect)$/) { phase[p] = "closed"; waiting[called[p]] = waiting[caller[p]] = 0 }
    else if (w[1] ~ /^(got|urgent)$/ && phase[p] == "open") { waiting[w[2]]++; stir(p) }
    else if (w[1] ~ /^(data|expedite)$/) waiting[joined_end(w[2])]--
    else if (w[1] == "window") { lowered[w[2]] = !lowered[w[2]]; stir(p) }
}
# A pair at which units wait or a credit is lowered, in the order of their joining: only such a one has calls when it is open.
function stir(p,   i) {
    if (p in is_stirred) return
    is_stirred[p]
    for (i = stirs++; i && stirred[i] > p; i--) stirred[i + 1] = stirred[i]
    stirred[i + 1] = p
}
function keep_stirred(   i, p, kept) {
    for (i = 1; i <= stirs; i++) {
        p = stirred[i]
        if (phase[p] != "closed" && (waiting[called[p]] || waiting[caller[p]] || lowered[called[p]] || lowered[caller[p]])) stirred[++kept] = p
        else delete is_stirred[p]
    }
    stirs = kept + 0
}
# Whether the relays do something about an event: what is kept of those before decides.
function reacts(text,   w, p) {
    split(text, w, " ")
    if (w[1] == "incoming") return (w[3] " " w[9]) in rows
    if (!(w[2] in pair_of)) return 0
    p = pair_of[w[2]]
    return phase[p] != "closed" && (w[1] == "gone" || w[1] == "confirm" && w[2] == caller[p])
}
# Begins with the called end of the first pair, and goes on with the calling one, and with the next pair.
function next_way() {
    if (is_back) turn++
    is_back = !is_back
    stage = "submit"
}
# Whether the next event is of a call of the relays, in the place where the last call left them.
function call_is_due(   due, near) {
    while (stage == "react") {
        if (refuses) return 1
        if (turn < events) {
            due = reacts(event[++turn])
            begins = due && event[turn] ~ /^incoming/
            change(event[turn])
            if (due) return 1
        } else {
            events = turn = 0
            is_back = 1
            next_way()
        }
    }
    while (turn <= stirs) {
        near = is_back ? caller[stirred[turn]] : called[stirred[turn]]
        if (stage == "submit" && phase[stirred[turn]] != "open") next_way()
        else if (stage == "submit" && waiting[near] > 0) return 1
        else if (stage == "submit" || stage == "balance") {
            if (waiting[near] > 300) { stage = "part"; parts = 2; return 1 }
            stage = "credit"
            if ((waiting[near] > 0) != (lowered[near] + 0)) return 1
            next_way()
        } else return 1
    }
    keep_stirred()
    return 0
}
# A line that a call made, its own event first.
function call_told(text) {
    if (own(text)) {
        is_done = text !~ /^no /
        if (stage == "react") refuses = begins && !refuses && !is_done
        else if (stage == "submit" && !is_done) stage = "balance"
        else if (stage == "credit" || stage == "part" && !--parts) next_way()
    }
    change(text)
}
