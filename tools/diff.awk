# The stories of `diff`: of each end and each system the events, each with its tick. Of events of one text those of one tick are the same; of the
# others the k-th in A is the k-th in B.
function begin() {
    clock = 0
    split("", caller)
    split("", key_of)
    split("", asked)
    split("", heard)
}
# A story of this transcript, with the name that it has there.
function story(key, its_name) {
    if (!(key in named)) { named[key]; order[++stories] = key }
    title[side, key] = its_name
    return key
}
function event(key, text,   n) {
    if (!((key, text) in first_seen)) { first_seen[key, text]; text_of[key, ++texts[key]] = text }
    n = ++count[side, key, text]
    tick_of[side, key, text, n] = clock
}
function rest(from,   i, text) {
    for (i = from; i <= NF; i++) text = text (text == "" ? "" : " ") $i
    return text
}
FNR == 1 { begin() }
$1 == "tick" { clock = $2; next }
/^(settled|stopped|frame|deliver|nosuch|late|notthere|notours) / { next }
/^(done|toomuch|refused .*|strays .*)$/ { event(story("the end", "the end of the transcript"), $0); next }
$1 == "no" { event(story("no", "refused lines"), $0); next }
$1 == "connect" {
    key_of[$2] = "c " $3 " " ++asked[$3]
    caller[$5 " " $4] = $2
    event(story(key_of[$2], "end " $2 ", at " $3), "connect " rest(5))
    next
}
$1 == "incoming" {
    from = ($5 " " $6) in caller ? caller[$5 " " $6] : ""
    key_of[$2] = "i " (from == "" ? $3 : key_of[from])
    key_of[$2] = key_of[$2] " " ++heard[key_of[$2]]
    event(story(key_of[$2], "end " $2 ", at " $3 (from == "" ? "" : ", called by " from)), "incoming " $5 " " rest(7))
    next
}
$1 == "joined" { event(key_of[$2], "joined"); next }
$1 ~ /^(accept|confirm|data|got|expedite|urgent|refuse|disconnect|gone|window|held)$/ { event(key_of[$2], $1 " " rest(3)); next }
$1 == "drop" && $2 == "frame" || $1 == "inject" && $2 == "notthere" { event(story("s " $3, $3), $1 " " $2); next }
{ event(story("s " $2, $2), $1 " " rest(3)) }

# The ticks of a text that only one of the two has.
function sift(key, text,   a, b, i, j) {
    in_a = in_b = 0
    i = j = 1
    while (i <= count["A", key, text] + 0 || j <= count["B", key, text] + 0) {
        a = tick_of["A", key, text, i] + 0
        b = tick_of["B", key, text, j] + 0
        if (j > count["B", key, text] + 0 || i <= count["A", key, text] + 0 && a < b) { left_a[++in_a] = a; i++ }
        else if (i > count["A", key, text] + 0 || b < a) { left_b[++in_b] = b; j++ }
        else { i++; j++ }
    }
}
function tell(what, ticks, text) {
    if (!told++) print titles
    printf "  %-9s %11s  %s\n", what, ticks, text
    differs = 1
}
END {
    for (s = 1; s <= stories; s++) {
        key = order[s]
        told = 0
        titles = !(("B", key) in title) ? title["A", key] " (only in A)" : !(("A", key) in title) ? title["B", key] " (only in B)" : title["A", key] (title["A", key] == title["B", key] ? "" : " (in B: " title["B", key] ")")
        for (t = 1; t <= texts[key]; t++) {
            text = text_of[key, t]
            sift(key, text)
            for (n = 1; n <= in_a || n <= in_b; n++) {
                a = left_a[n]
                b = left_b[n]
                if (n > in_b) tell("only in A", a, text)
                else if (n > in_a) tell("only in B", b, text)
                else if (a < b) tell("later", a " -> " b, text)
                else if (a > b) tell("earlier", a " -> " b, text)
            }
        }
    }
    if (!differs) print "the same events" (broken ? ", up to the line that is refused" : "")
    exit differs || broken
}
