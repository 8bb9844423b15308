# The nearest of the words, one a line, to -v word=WORD: at most two letters away (distance.awk, beside), and fewer than the word has. Without such a
# word nothing is written.
BEGIN { shortest = lesser(3, length(word)) }
{
    far = distance(word, $0)
    if (far < shortest) {
        shortest = far
        nearest = $0
    }
}
END { if (nearest != "") print nearest }
