# What happened before a refusal or the end of a connection, and so explains it: `explain` tells it behind `here:`.
BEGIN {
    limit["life"] = 32
    limit["i"] = 60
    limit["n"] = 4
    limit["t1"] = 8
    limit["w"] = 20
}
function set_up_title(name, title) {
    system_at[tolower(substr(title, 1, length(title) - 2)) "01"] = name
    title_of[name] = tolower(title)
}
function frozen_ticks() { return 2 * limit["life"] + limit["i"] + limit["n"] * limit["t1"] }
# Of ends: their name, their partner, the lines that made, indicated and accepted them, and the first frame of each of these.
function remember_event(number, w,   caller) {
    if (w[1] == "connect") {
        ends = w[2]
        system_of_end[w[2]] = w[3]
        caller_at[w[5] " " w[4]] = w[2]
        called_system[w[2]] = system_at[w[7]]
        asked_at[w[2]] = number
        request_of[w[2]] = w[5] " " w[4]
    } else if (w[1] == "incoming") {
        ends = w[2]
        system_of_end[w[2]] = w[3]
        indicated_at[w[2]] = number
        indicated[w[5] " " w[6] " " w[3]] = w[2]
        if ((w[5] " " w[6]) in caller_at) {
            caller = caller_at[w[5] " " w[6]]
            partner_of[w[2]] = caller
            partner_of[caller] = w[2]
        }
    } else if (w[1] == "accept") answered_at[w[2]] = number
    else if (w[1] == "confirm") is_confirmed[w[2]]
    else if (w[1] == "restart") {
        began_at[w[2]] = clock
        began_line[w[2]] = number
    } else if (w[1] == "drop" && w[3] == "toolong") dropped_at[w[2]] = number
    else if (w[1] == "frame" && last_event ~ /^(connect|accept)$/) first_frame[last_event, last_end] = w[2]
    else if (w[1] == "frame") return
    last_event = w[1]
    last_end = w[2]
}
# The frame of a CR or a CC, and that it was not delivered yet.
function awaits(event, end, pdu, name,   n) {
    n = first_frame[event, end]
    return n == "" ? "the " pdu " has not come" : (n in got) ? "its " pdu " went in frame " n : "its " pdu " went in frame " n ", which was not delivered: `deliver " n " " name "`, or `settle`"
}
# The last connect request of which no indication came.
function unheard(   e) {
    for (e = ends; e; e--) if (e in asked_at && !(e in partner_of)) return e
}
function is_silent(name) { return name in began_at && clock + 0 <= began_at[name] + frozen_ticks() }
function began(name) {
    return name " began again at tick " began_at[name] " (line " began_line[name] ")"
}
# The longest outage that ends no open connection, by the times of the script.
function longest_outage(   tries, idle, least) {
    tries = (limit["n"] - 1) * limit["t1"] - 1
    idle = limit["i"] - 2 * limit["w"]
    if (idle < 0) return "I = " limit["i"] " is below 2W = " 2 * limit["w"] ", so one AK that is lost can end a connection that is open"
    least = tries < idle ? tries : idle
    return "an outage of at most " least (least == 1 ? " tick" : " ticks") " ends no connection that is open before it: by the times of the script the lesser of (N - 1) T1 - 1 = " \
        tries " and I - 2W = " idle
}
# What the refusal 131 of a request means where an end of before the caller's restart has the same reference.
function refused_131(e,   old, name) {
    name = system_of_end[e]
    old = indicated[request_of[e] " " called_system[e]]
    if (!old || !(name in began_at) || asked_at[e] < began_line[name] || indicated_at[old] > began_line[name]) return ""
    return began(name) ", and gave the reference of before again; " called_system[e] " still has it frozen, by its end " old ". No refusal was lost: connect again, and the next request has another reference"
}
function before(text, w,   e, p, way) {
    e = $2
    p = partner_of[e]
    if (text == "no nosuchend" && e == ends + 1) {
        p = unheard()
        if (p) return "the number may be right: end " e " is not made yet, since no `incoming` came. Of `connect " p "` (line " asked_at[p] ") " \
            awaits("connect", p, "CR", called_system[p]) "; where frames are lost, `#when incoming " e "` above the line lets it wait"
    }
    if (text == "no wrongstate crwait" && $1 ~ /^(accept|refuse)$/) {
        return "end " e " is the caller's" (p ? "; the indicated end is " p ": `" $1 " " p " ..`" : ", and no `incoming` came for it")
    }
    if (text == "no wrongstate crwait") {
        if (!p) return "no `incoming` came for `connect " e "`: " awaits("connect", e, "CR", called_system[e])
        if (!(p in answered_at)) return "`incoming " p "` came at line " indicated_at[p] ", and no line above accepts it: `accept " p " ..`, and then `settle`, above this line"
        return "`accept " p "` stands at line " answered_at[p] ": " awaits("accept", p, "CC", system_of_end[e])
    }
    if (text == "no wrongstate ended" && system_of_end[e] in began_at) return began(system_of_end[e]) ", and lost its ends"
    if (w[1] == "gone" && w[3] == "131") return refused_131(w[2])
    if (w[1] == "gone" && w[3] ~ /^(exhausted|inactive|132)$/) {
        p = (w[2] in called_system) ? called_system[w[2]] : system_of_end[partner_of[w[2]]]
        if (is_silent(p)) return began(p) ": it lost its ends, and is silent up to tick " began_at[p] + frozen_ticks() ", so nothing answers; connect again after that tick" \
            ((w[2] in called_system) ? "" : ". A `connect` may get 131 then, once for each old reference that " system_of_end[w[2]] " has frozen; the next one has another")
        if (w[3] == "exhausted" && system_of_end[w[2]] in dropped_at) return "the TPDU was too long for the network each time: `drop " system_of_end[w[2]] " toolong` at line " dropped_at[system_of_end[w[2]]]
        if (w[3] != "132" && p != "") {
            way = way_blocked(system_of_end[w[2]], p)
            if (way == "") way = way_blocked(p, system_of_end[w[2]])
            if (way != "") return way
        }
        if (w[3] != "132" && (w[2] in is_confirmed || partner_of[w[2]] in is_confirmed)) return longest_outage()
    }
    return ""
}
