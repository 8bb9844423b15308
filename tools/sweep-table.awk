# The table of `sweep`: a row for each rate. What it keeps is a count for each delay and cause, whatever the number of runs.
function clear() {
    runs = unit_lines = submitted = shown = frames = refusals = never = looks = gone = 0
    split("", at)
    split("", causes)
    most = -1
}
# The delay that so many of a hundred do not pass.
function share(percent,   wanted, sum, d) {
    if (!shown) return "-"
    wanted = int((percent * shown + 99) / 100)
    if (wanted < 1) wanted = 1
    for (d = 0; (sum += at[d]) < wanted; d++);
    return d
}
function write(   cause, list, n, i, j, name) {
    printf "%6s%6d%11d%7d%8s%8s%6s%6s%6s%8s%6d%6d%7d\n", place == "no" ? "none" : loss " %", runs, submitted, shown, share(0), share(50), share(90), share(99), share(100),
        shown ? sprintf("%.1f", frames / shown) : "-", gone, refusals, never
    if (unit_lines > submitted) print "       of " unit_lines " lines for units " unit_lines - submitted " submitted none"
    for (cause in causes) name[++n] = cause
    for (i = 2; i <= n; i++) {
        cause = name[i]
        for (j = i - 1; j && name[j] > cause; j--) name[j + 1] = name[j]
        name[j + 1] = cause
    }
    for (i = 1; i <= n; i++) list = list " " name[i] " " causes[name[i]]
    if (list != "") print "       gone:" list
    if (looks) print "       seeds to look at:" seeds_to_look_at (looks > 12 ? " and " looks - 12 " more" : "")
}
function end_run() {
    runs++
    if (is_odd && ++looks <= 12) seeds_to_look_at = (looks == 1 ? "" : seeds_to_look_at) " " $2
    is_odd = 0
}
BEGIN {
    print ENVIRON["name"] ", seeds " seeds ", repeat " (place == "no" ? "none" : repeat " %")
    print "                   units           delay of a unit, ticks          frames  ends  lines"
    print "  loss  runs  submitted  shown   least  median  90 %  99 %  most  a unit  gone    no  never"
    clear()
}
$3 != loss && NR > 1 { write(); clear() }
{ loss = $3 }
$1 == "U" {
    submitted++
    if ($8 == "-") is_odd = 1
    else { shown++; at[$8]++ }
}
$1 == "E" && $5 != "-" {
    gone++
    causes[$5]++
    if ($5 != 128) is_odd = 1
}
$1 == "R" {
    frames += $4
    refusals += $5
    never += $6
    unit_lines += $7
    if ($5 || $6) is_odd = 1
    end_run()
}
END { if (NR) write() }
