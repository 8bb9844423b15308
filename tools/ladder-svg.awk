# Draws the rows of `ladder` as SVG: a line for each system, an arrow from where a frame is sent to where it is delivered, and a broken one where
# it is to nobody or too late. PDUs have a colour, a width and a dash by their kind, which grey tells apart too; names lie along their arrow, above it,
# with a white rim. Arrows lie below the names, so they go to files of their own, `lines` and `texts`, which memory need not hold.
# What stands above both goes to the file `first`, and the rest of the picture to the output.
function draw_begin() {
    width = 220
    y = 50
    split("CR DR DT AK dt hello other", kinds, " ")
    split("CR, CC;DR, DC, ER;DT, ED;AK, EA;other units;hellos, redirects, reports;not decoded", kind_names, ";")
}
function x_of(at) { return 150 + at * width }
function put(what) { print what >texts }
function put_line(what) { print what >lines }
function escaped(what) { if (what !~ /[&<>]/) return what; gsub(/&/, "\\&amp;", what); gsub(/</, "\\&lt;", what); gsub(/>/, "\\&gt;", what); return what }
function svg_text(x, y, anchor, what) { return "<text x='" x "' y='" y "' text-anchor='" anchor "'>" escaped(what) "</text>" }
function svg_line(x, y, to_x, to_y, class) {
    return "<line x1='" x "' y1='" y "' x2='" to_x "' y2='" to_y "' class='" class "'/>"
}
# The kind of what a frame carries, by its first letters.
function used_kind(n,   letters) {
    letters = substr(carried[n], 1, 2)
    if (!(letters in kind_of)) {
        kind_of[letters] = letters == "" ? "other" : letters ~ /^C[RC]/ ? "CR" : letters ~ /^(DR|DC|ER)/ ? "DR" : letters ~ /^(DT|ED)/ ? "DT" : \
            letters ~ /^(AK|EA)/ ? "AK" : letters ~ /^(es|is|rd|er)/ ? "hello" : "dt"
        used[kind_of[letters]]
    }
    return kind_of[letters]
}
# An arrow, and its name along it and above it, at its head. (one `printf` each: these are most of a long picture)
function put_arrow(x, from_y, to_x, to_y, class, what,   across, down) {
    across = to_x - x
    down = to_y - from_y
    if (!((across, down) in turned)) {
        turned[across, down] = sprintf("rotate(%.1f)' x='%d' y='-4' text-anchor='%s'", atan2(across < 0 ? -down : down, across < 0 ? -across : across) * 180 / 3.14159265,
            across < 0 ? 14 : -14, across < 0 ? "start" : "end")
    }
    printf "<line x1='%d' y1='%d' x2='%d' y2='%d' class='%s'/>\n", x, from_y, to_x, to_y, class >lines
    printf "<text transform='translate(%d %d) %s>%s</text>\n", to_x, to_y, turned[across, down], escaped(what) >texts
}
function draw_tick() {
    y += 14
    put(svg_text(44, y, "end", clock))
    put_line(svg_line(50, y - 4, 58, y - 4, "axis") svg_line(58, y - 4, x_of(columns - 1) + 30, y - 4, "tick"))
}
function draw_text(at, what) {
    y += 16
    put(svg_text(x_of(at) + 6, y, "start", length(what) > 30 ? substr(what, 1, 28) ".." : what))
}
function draw_note(what) {
    y += 16
    put(svg_text(64, y, "start", what))
}
function draw_frame(n) {
    y += 12
    sent_at[n] = y
}
function svg_cross(x, y) { return svg_line(x - 6, y, x, y, "end") }
function draw_lost(n, goes, mark,   side, x) {
    y += 14
    side = goes < starts[n] ? -1 : 1
    x = x_of(starts[n])
    put_line(svg_line(x, sent_at[n], x + side * width / 2, sent_at[n] + 8, "lost " used_kind(n)))
    if (mark == "X") put_line(svg_cross(x + side * (width / 2 + 6), sent_at[n] + 8))
    put(svg_text(x + side * (width / 2 + 14), sent_at[n] + 12, side < 0 ? "end" : "start", freight(n) (mark == "X" ? " lost" : " to tick " mark)))
}
# A frame that was sent above the rows that are drawn begins at their top.
function draw_arrow(n, to, what, mark,   x, to_x, from_y) {
    y += 20
    x = x_of(starts[n])
    to_x = x_of(to)
    from_y = (n in sent_at) ? sent_at[n] : 40
    put_arrow(x, from_y, to_x, y, (mark == ">" ? "taken " : "lost ") used_kind(n), what)
    if (mark != ">") put_line(svg_cross(to_x, y))
}
function draw_end(   i, x) {
    y += 30
    print "<svg xmlns='http://www.w3.org/2000/svg' width='" x_of(columns) "' height='" y + 30 "' viewBox='0 0 " x_of(columns) " " y + 30 "' style='max-width:100%;height:auto' font-family='monospace' font-size='11'>" >first
    print "<style>line { stroke: #000 } .tick { stroke: #ddd } .rail { stroke: #888 } .taken { marker-end: url(#a) } .end { marker-end: url(#x); stroke: none }" >first
    print "text { paint-order: stroke; stroke: #fff; stroke-width: 3px }" >first
    print ".CR { stroke: #0072b2; stroke-width: 2 } .DR { stroke: #d55e00; stroke-width: 2; stroke-dasharray: 12 3 } .DT { stroke: #000; stroke-width: 2 }" >first
    print ".AK { stroke: #999; stroke-width: 1 } .dt { stroke: #000; stroke-width: 1 } .hello { stroke: #009e73; stroke-width: 1; stroke-dasharray: 2 2 }" >first
    print ".other { stroke: #000; stroke-width: 1 } .lost { stroke-dasharray: 5 4 }</style>" >first
    print "<defs><marker id='a' orient='auto' markerUnits='userSpaceOnUse' markerWidth='9' markerHeight='6' refX='9' refY='3'><path d='M0 0 9 3 0 6z'/></marker>" >first
    print "<marker id='x' markerUnits='userSpaceOnUse' markerWidth='10' markerHeight='10' refX='5' refY='5'><path d='M1 1 9 9M9 1 1 9' stroke='#000' stroke-width='2'/></marker></defs>" >first
    print "<rect width='100%' height='100%' fill='#fff'/>" >first
    print svg_text(54, 24, "middle", "tick") svg_line(54, 32, 54, y - 10, "axis") >first
    for (i = 0; i < columns; i++) {
        print svg_text(x_of(i), 24, "middle", shown[i]) svg_line(x_of(i), 32, x_of(i), y - 10, "rail") >first
    }
    x = 64
    for (i = 1; i <= 7; i++) if (kinds[i] in used) {
        print svg_line(x, y + 12, x + 30, y + 12, kinds[i]) svg_text(x + 36, y + 16, "start", kind_names[i])
        x += 56 + 7 * length(kind_names[i])
    }
    print "</svg>"
}
