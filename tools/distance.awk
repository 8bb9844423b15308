# How many letters must be put in, left out, replaced, or change places with their neighbour, to make one word of the other.
function lesser(one, other) { return one < other ? one : other }
function distance(one, other,   i, j, d) {
    for (i = 0; i <= length(one); i++) d[i, 0] = i
    for (j = 0; j <= length(other); j++) d[0, j] = j
    for (i = 1; i <= length(one); i++) for (j = 1; j <= length(other); j++) {
        d[i, j] = lesser(lesser(d[i - 1, j], d[i, j - 1]) + 1, d[i - 1, j - 1] + (substr(one, i, 1) != substr(other, j, 1)))
        if (i > 1 && j > 1 && substr(one, i, 1) == substr(other, j - 1, 1) && substr(one, i - 1, 1) == substr(other, j, 1))
            d[i, j] = lesser(d[i, j], d[i - 2, j - 2] + 1)
    }
    return d[length(one), length(other)]
}
