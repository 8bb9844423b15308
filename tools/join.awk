# Joins a script, the input, with its transcript, the file `transcript`. For each line of the script it calls `line(number, text)`,
# and then, for each line of the transcript that it made, `told(number, text)`. A refused line gets `refused(number, text, column,
# cause)`; what ends the transcript gets `closing(text)`. `clock` is the tick, "" before `start`; `by_relay` is 1 for what a relay did.
# A line of the script writes its own event first, so the next own event is of the next line that does something. Of a script of relays
# pump.awk tells which calls are theirs.
function own(text,   w) {
    split(text, w, " ")
    return w[1] ~ /^(tick|sent|no|deliver|nosuch|late|notthere|notours|connect|accept|refuse|data|expedite|window|disconnect|inject|restart|send|settled|stopped)$/
}
function look() { has = (getline ahead < transcript) > 0 }
function is_closing() { return ahead ~ /^(done|refused .*|toomuch|strays .*)$/ }
function take() {
    if (ahead ~ /^tick /) clock = substr(ahead, 6)
    told(FNR, ahead)
    last = ahead
    look()
}
function take_settle() {
    while (has && !is_closing() && last !~ /^(settled|stopped) /) { take(); if (has_relays) relay_hears(last) }
}
# The calls of the relays that follow.
function take_pump(   done) {
    begin_pump()
    while (has && !is_closing() && call_is_due()) {
        by_relay = 1
        take()
        call_told(last)
        while (has && !is_closing() && !own(ahead)) { take(); call_told(last) }
        done += is_done
        by_relay = 0
    }
    return done
}
BEGIN { look() }
{
    sub(/\r$/, "")
    line(FNR, $0)
    if ($1 == "relay") relay_line($0)
    if (!has) next
    if (split(ahead, place, " ") == 4 && place[1] == "refused" && place[2] == FNR) {
        refused(FNR, $0, place[3], place[4])
        has = 0
        next
    }
    if ($0 == "" || /^#/ || is_closing()) next
    if (clock == "" && $0 != "start") next
    last = ""
    if ($0 != "settle") {
        take()
        if (has_relays) relay_hears(last)
        while (has && !is_closing() && !own(ahead)) { take(); if (has_relays) relay_hears(last) }
        if (has_relays && $0 != "start") take_pump()
        next
    }
    for (turns = 1; turns <= 64; turns++) {
        last = ""
        take_settle()
        stops = last ~ /^stopped/
        if (!has_relays || !take_pump() || stops) break
    }
}
END {
    while (has) {
        closing(ahead)
        look()
    }
}
