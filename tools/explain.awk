# What `explain` tells: join.awk calls it with each line of the script and what that made; refusal.awk has the refused line.
BEGIN {
    while ((getline row < causes) > 0) {
        columns = split(row, part, " :: ")
        if (part[1] == "form") { sub(/ ::$/, "", part[2]); form[part[2]] = columns > 2 ? part[3] : "" }
        if (part[1] == "field") { shape[part[2]] = part[3]; wants[part[2]] = part[4] }
        if (part[1] == "cause") meaning[part[2]] = part[3]
        if (part[1] == "told") {
            split(part[2], word, " ")
            pattern[word[1], ++patterns_of[word[1]]] = part[2]
            tells[part[2]] = part[3]
            mends[part[2]] = part[4]
        }
    }
}
function line(number, text) {
    split(text, word, " ")
    if (word[1] == "es" || word[1] == "is") { kind[word[2]] = toupper(word[1]); set_up_title(word[2], word[3]) }
    if (word[1] == "set" && word[2] in limit) limit[word[2]] = word[3]
    if (word[1] == "route" || word[1] == "#") way_line(number, text)
    remember(number, text)
}
# Whether a line of the transcript is as a pattern says.
function is_as(text, wanted,   have, want, i, n) {
    n = split(wanted, want, " ")
    if (split(text, have, " ") < n) return 0
    for (i = 1; i <= n; i++) if (want[i] != "*" && want[i] != have[i] && !(want[i] ~ /^(ES|IS)$/ && kind[have[i]] == want[i])) return 0
    return 1
}
function found(topic, number, text, here) {
    if (!(topic in times)) order[++topics] = topic
    if (++times[topic] <= 3) at[topic] = at[topic] sprintf("%s:%d%s: %s\n%s", ENVIRON["name"], number, clock == "" ? "" : " (tick " clock ")", text,
        here == "" ? "" : "    here: " here "\n")
}
function told(number, text,   i, w) {
    split(text, w, " ")
    remember_event(number, w)
    if (w[1] == "frame") {
        frames++
        sender[w[2]] = w[4]
        if (w[5] == "09002b000004" && $1 ~ /^(unit|send|connect|accept|refuse|data|expedite|disconnect|window)$/) {
            found("the unit goes to all end systems of the LAN: no route of " w[4] " begins its address, and no router is known\n" \
                "    do: add a `route` at " w[4] "; by hellos (`set ct`) it would hear a router", number, text)
        }
    }
    if (w[1] == "deliver") got[w[2]]
    if (w[1] == "window" && $1 == "window" && w[3] != $3) {
        found("normal formats carry a credit of 15 at most, so " w[3] " is in force\n    do: `extended` formats in `connect` and `accept` carry 255", number, text)
    }
    if (by_relay && w[1] == "no") {
        if (text == "no queuefull") found("64 units wait in an end of the relay, so the next one waits in the relay, which tries again after each line\n" \
            "    do: let the user behind it give credit by `window`", number, text)
        else found("a call of the relay is refused, and the relay ends the other connection of the pair: of the end that was called, or of none\n" \
            "    do: for `refsspent` raise `refs`, or wait; see the table of `no` in docs/script.md", number, text)
        return
    }
    for (i = 1; i <= patterns_of[w[1]]; i++) if (is_as(text, pattern[w[1], i])) {
        found(tells[pattern[w[1], i]] "\n    do: " mends[pattern[w[1], i]], number, text, before(text, w))
        return
    }
}
function refused(number, text, column, cause) { is_refused = 1; refusal(number, text, column + 0, cause) }
function closing(text) {
    if (text == "toomuch") found("the input has more than 16,777,216 octets or 100,000 lines, or makes more than 4,194,304 events\n    do: split the script", FNR, text)
    if (text ~ /^strays [1-9]/) found("so many injected units came up that equal none that was sent within the lifetime: what ends show is not promised", FNR, text)
}
END {
    for (i = 1; i <= topics; i++) {
        printf "%s", at[order[i]]
        if (times[order[i]] > 3) printf "    and %d times more\n", times[order[i]] - 3
        print "    " order[i]
    }
    if (is_refused) exit
    if (clock == "") print "nothing was run: the script has no line `start`\n    do: put `start` between the set-up and the events"
    for (i = 1; i <= frames; i++) if (!(i in got)) missing = ++missed > 12 ? missing : missing " " i
    if (missed) print "frames that nobody got:" missing (missed > 12 ? " .., " missed " in all" : "") "\n    do: nothing is delivered by itself: `deliver`, or `settle`; else they are lost"
    if (!topics && !missed && clock != "") print "nothing is to be explained"
}
