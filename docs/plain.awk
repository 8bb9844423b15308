# Counts how plain the sentences of pages are: awk -f docs/plain.awk PAGE ..
# A page may have at most 10 % of sentences above 25 words, and at most 8 % that open with Of, So, That, What or Whether. It has none of the phrases
# below. Code, tables, headings, comments and quoted output do not count. A page that has more gives a line, and its two longest sentences.

BEGIN {
    most_words = 25
    most_long = 10
    most_fronted = 8
    banned = "want of memory|it is had|so it is of|is told([^a-z]|$)|are told([^a-z]|$)|of which nothing|as it stands there|lacks[.,;]"
}

FNR == 1 {
    report()
    page = FILENAME
    sentences = long = fronted = phrases = fenced = commented = 0
    block = ""
    first_size = second_size = 0
}

/^ *```/ { fenced = !fenced; end_block(); next }
fenced { next }
/<!--/ && !/-->/ { commented = 1; next }
commented { if (/-->/) commented = 0; next }
{ gsub(/<!--.*-->/, "") }
/^    |^[|#]/ { end_block(); next }
/^[> ]*$/ { end_block(); next }
{
    line = $0
    sub(/^> ?/, "", line)
    if (line ~ /^ *([-*]|[0-9]+\.) /) {
        end_block()
        sub(/^ *([-*]|[0-9]+\.) /, "", line)
    }
    block = block " " line
}

END { report() }

# The sentences of a block: its code is one word, and of a link its text counts.
function end_block(    text, before) {
    text = block
    block = ""
    while (match(text, /\]\([^)]*\)/)) text = substr(text, 1, RSTART - 1) substr(text, RSTART + RLENGTH)
    gsub(/\[/, "", text)
    while (match(text, /`[^`]*`/)) text = substr(text, 1, RSTART - 1) "x" substr(text, RSTART + RLENGTH)
    gsub(/[ \t]+/, " ", text)
    sub(/^ /, "", text)
    while (match(text, /[.!?:] [A-Z*"x]/)) {
        before = substr(text, 1, RSTART)
        text = substr(text, RSTART + 2)
        count_sentence(before)
    }
    count_sentence(text)
}

function count_sentence(text,    size, word) {
    size = split(text, word, " ")
    if (size <= 2) return
    sentences++
    if (size > most_words) long++
    if (text ~ /^[^A-Za-z0-9]*(Of|So|That|What|Whether)([^a-z]|$)/) fronted++
    while (match(text, banned)) {
        phrases++
        text = substr(text, RSTART + RLENGTH)
    }
    if (size > most_words) keep_longest(size, word)
}

function keep_longest(size, word,    text, i) {
    for (i = 1; i <= size && i <= 20; i++) text = text (i > 1 ? " " : "") word[i]
    if (size > first_size) {
        second_size = first_size
        second = first
        first_size = size
        first = text
    } else if (size > second_size) {
        second_size = size
        second = text
    }
}

function report() {
    end_block()
    if (!sentences) return
    if (100 * long <= most_long * sentences && 100 * fronted <= most_fronted * sentences && !phrases) return
    printf "docs/check: %s: of %d sentences %d %% have more than 25 words (10 at most), %d %% open with Of, So, That, What or Whether (8), banned phrases %d (0)\n", page, sentences, 100 * long / sentences, 100 * fronted / sentences, phrases
    if (first_size) print "    " first_size " words: " first " .."
    if (second_size) print "    " second_size " words: " second " .."
}
