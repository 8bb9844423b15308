# The picture of `sweep`: for each rate of losses the share of the submitted units that are shown by each delay, in ticks and, two a second, in
# seconds. Each rate has a colour, a dash and a width of its own, and its name at the end of its curve, so that grey tells them apart too.
function text(x, y, anchor, what) { return "<text x='" x "' y='" y "' text-anchor='" anchor "'>" what "</text>" }
function line(x, y, to_x, to_y, class) { return "<line x1='" x "' y1='" y "' x2='" to_x "' y2='" to_y "' class='" class "'/>" }
function x_of(delay) { return 60 + delay * width / last }
function y_of(share) { return 40 + (1 - share) * height }
# 1, 2 or 5 times a power of ten, so that at most so many marks fit.
function step_of(range, marks,   step, i) {
    for (step = 1; ; step *= 10) for (i = 1; i <= 5; i += i == 2 ? 3 : 1) if (step * i * marks >= range) return step * i
}
$1 == "U" && !($3 in submitted) { rate[++rates] = $3 }
$1 == "U" {
    submitted[$3]++
    if ($8 != "-") {
        at[$3, $8]++
        if ($8 > most) most = $8 + 0
    }
}
END {
    name = ENVIRON["name"]
    gsub(/&/, "\\&amp;", name)
    gsub(/</, "\\&lt;", name)
    width = 560
    height = 300
    split("#000 #0072b2 #d55e00 #009e73 #cc79a7 #56b4e9 #e69f00 #777", colour, " ")
    split("0;8 4;2 3;10 3 2 3;14 4;5 2;1 4;12 2 2 2 2 2", dash, ";")
    print "<svg xmlns='http://www.w3.org/2000/svg' width='740' height='410' viewBox='0 0 740 410' style='max-width:100%;height:auto' font-family='monospace' font-size='12'>"
    print "<title>" name ", seeds " seeds ", repeat " repeat " %</title>"
    print "<style>.axis { stroke: #000 } .grid { stroke: #ddd } text { paint-order: stroke; stroke: #fff; stroke-width: 3px }"
    print ".curve { fill: none; stroke-width: 2 }</style><rect width='100%' height='100%' fill='#fff'/>"
    print text(60, 20, "start", name ": share of units shown by each delay, seeds " seeds ", repeat " repeat " %")
    for (i = 0; i <= 10; i += 2) print line(60, y_of(i / 10), 60 + width, y_of(i / 10), "grid") text(52, y_of(i / 10) + 4, "end", i * 10 " %")
    # (the axis ends at the first mark above the greatest delay)
    step = step_of(most, 10)
    last = (int(most / step) + 1) * step
    for (i = 0; i <= last; i += step) {
        print line(x_of(i), y_of(0), x_of(i), y_of(0) + 5, "axis") text(x_of(i), y_of(0) + 20, "middle", i) text(x_of(i), y_of(0) + 36, "middle", sprintf("%.1f", i / 2))
    }
    print text(60 + width + 22, y_of(0) + 20, "start", "ticks") text(60 + width + 22, y_of(0) + 36, "start", "seconds")
    print line(60, y_of(0), 60 + width, y_of(0), "axis") line(60, y_of(0), 60, y_of(1), "axis")
    for (r = 1; r <= rates; r++) {
        sum = at[rate[r], 0]
        path = "M" x_of(0) " " y_of(0) "V" sprintf("%.1f", y_of(sum / submitted[rate[r]]))
        for (d = 1; d <= most; d++) if ((rate[r], d) in at) {
            sum += at[rate[r], d]
            path = path sprintf("H%.1fV%.1f", x_of(d), y_of(sum / submitted[rate[r]]))
        }
        path = path "H" 60 + width
        print "<path class='curve' stroke='" colour[1 + (r - 1) % 8] "' stroke-dasharray='" dash[1 + (r - 1) % 8] "' d='" path "'/>"
        # (names that would lie on one another are moved down)
        y = y_of(sum / submitted[rate[r]]) + 4
        for (k = 1; k < r; k++) for (j = 1; j < r; j++) if (y < name_at[j] + 13 && y > name_at[j] - 13) y = name_at[j] + 13
        name_at[r] = y
        print text(60 + width + 6, sprintf("%.1f", y), "start", place == "no" ? "no losses" : "loss " rate[r] " %")
        print line(60 + width + 76, sprintf("%.1f", y - 4), 60 + width + 112, sprintf("%.1f", y - 4), "curve' stroke='" colour[1 + (r - 1) % 8] "' stroke-dasharray='" dash[1 + (r - 1) % 8])
    }
    print "</svg>"
}
