# Where the routes of a script lead, and which systems on the way are down: `explain` names both. A system is down between the comments `# down SYSTEM`
# and `# up SYSTEM` that `lossy` writes.
function way_line(number, text,   w, n) {
    n = split(text, w, " ")
    if (w[1] == "route" && n == 5) {
        route_prefix[w[2], ++routes_of[w[2]]] = w[3] == "-" ? "" : tolower(w[3])
        route_next[w[2], routes_of[w[2]]] = w[4]
        route_line[w[2], routes_of[w[2]]] = number
        route_text[w[2], routes_of[w[2]]] = text
    } else if (n == 3 && w[1] == "#" && w[2] == "down" && w[3] in kind) {
        down_line[w[3]] = number
        down_at[w[3]] = clock
    } else if (n == 3 && w[1] == "#" && w[2] == "up") delete down_line[w[3]]
}
# The route of a system with the longest prefix of an address; 0 where it has none.
function route_to(from, address,   r, best) {
    for (r = 1; r <= routes_of[from]; r++) {
        if (index(address, route_prefix[from, r]) != 1 && route_prefix[from, r] != "") continue
        if (!best || length(route_prefix[from, r]) > length(route_prefix[from, best])) best = r
    }
    return best + 0
}
# The first route on the way from one system to the other that leads to a system that is down.
function way_blocked(from, to,   address, steps, r, next_one) {
    for (address = title_of[to]; from != to && steps < 16; steps++) {
        r = route_to(from, address)
        if (!r) return ""
        next_one = route_next[from, r]
        if (next_one in down_line) return "`" route_text[from, r] "` (line " route_line[from, r] ") leads to " next_one ", which is down since tick " down_at[next_one] " (line " \
            down_line[next_one] "), and a static route stays: hellos replace none"
        from = next_one
    }
    return ""
}
