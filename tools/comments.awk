# The comments that a tool reads begin with one of these words. Free text has a blank behind `#`.
BEGIN {
    comment_words = split("#when #losses #calm #down #up #lan #=", comment_word, " ")
    for (i = 1; i <= comment_words; i++) is_comment_word[comment_word[i]]
}
# What is wrong with a comment whose word no tool knows; "" where nothing is. distance.awk stands beside.
function unknown_comment(text,   word, i, far, best, near) {
    if (text !~ /^#[A-Za-z=]/) return ""
    word = text
    sub(/ .*/, "", word)
    if (word in is_comment_word && text != "#=") return ""
    if (text ~ /^#=/) return "`#= LINE` has a blank and a line of the transcript behind `#=`"
    for (i = 1; i <= comment_words; i++) {
        far = distance(tolower(substr(word, 1, 20)), comment_word[i])
        if (near == "" || far < best) { best = far; near = comment_word[i] }
    }
    return "no tool reads `" substr(word, 1, 40) "`: " (best <= 2 ? "`" near "` is near" : "the words are " known_comments()) "; free text has a blank behind `#`"
}
function known_comments(   i, list) {
    for (i = 1; i <= comment_words; i++) list = list (i > 1 ? " " : "") comment_word[i]
    return list
}
