# Draws the rows of `ladder` as text: a column for each system, the tick at the left where it changes. The columns share the `room` of a line, where
# that is known.
function draw_begin(   i, line) {
    width = columns <= 2 ? 30 : columns <= 3 ? 24 : columns <= 5 ? 18 : 14
    if (room) width = int((room - 8) / (columns ? columns : 1))
    if (width < 10) width = 10
    told = "none"
    for (i = 0; i < columns; i++) line = line sprintf("%-" width "s", shown[i])
    write("tick", line)
    for (i = 0; i < columns; i++) rails = rails sprintf("%-" width "s", "|")
    sub(/ +$/, "", rails)
    dashes = rails
    gsub(/./, "-", dashes)
}
function write(mark, line) {
    line = sprintf("%6s  %s", mark, line)
    if (substr(line, length(line)) == " ") sub(/ +$/, "", line)
    print line
}
function put(place, what) {
    # (left of the first text behind the last rail there may be blanks to add)
    if (place > length(rails)) what = sprintf("%" place - length(rails) "s%s", "", what)
    write(clock == told ? "" : clock, substr(rails, 1, place) what substr(rails, place + length(what) + 1))
    told = clock
}
function draw_text(at, what) { put(at * width + 2, length(what) > width - 4 ? substr(what, 1, width - 6) ".." : what) }
function draw_lost(n, goes, mark) {
    put(starts[n] * width + 1, substr("--" freight(n) (mark == "X" && ENVIRON["OSI_GOES_ON"] == "" ? " --X" : " .."), 1, width - 2))
}
# `mark` is > for what is taken, and X for what is not.
function draw_arrow(n, to, what, mark,   room) {
    room = (starts[n] < to ? to - starts[n] : starts[n] - to) * width - 1
    what = substr(substr((starts[n] < to ? "--" : "") what, 1, room - 3) dashes, 1, room - 3)
    put((starts[n] < to ? starts[n] : to) * width + 1, starts[n] < to ? what "--" mark : (mark == ">" ? "<" : mark) "-" what "-")
}
function draw_note(what) { write("", what) }
function draw_tick() { }
function draw_frame(n) { }
function draw_end() { }
