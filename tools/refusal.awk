# What `explain` tells of a refused line: the line, a caret under the place, what the field wants, and what is near.
function remember(number, text) { above[number] = text }
function note(text) { print "    do: " text }
# The names that lines above declare, of LANs, paths or systems.
function declared(words,   i, list, w) {
    for (i = 1; i in above; i++) if (split(above[i], w, " ") > 1 && w[1] ~ ("^(" words ")$") && i < refused_at) list = list " " w[2]
    return list == "" ? " none" : list
}
function refusal(number, text, column, cause,   from, has, want, names, count, at, i, part, each, far, best, near, key) {
    refused_at = number
    from = column > 60 ? column - 40 : 1
    printf "%s:%d:%d: %s: %s\n    %s\n", ENVIRON["name"], number, column, cause, meaning[cause], substr(text, from, 100)
    printf "    %" (column - from + 1) "s\n", "^"
    count = split(text, has, " ")
    if (has[1] in form) {
        names = split(form[has[1]], want, " ")
        print "    form: " has[1] (names ? " " form[has[1]] : "")
    }
    at = split(substr(text, 1, column - 1) "x", part, " ") - 1
    here = ""
    if (cause == "word" && has[1] == "restart" && command == "run") here = "`restart` is a line of version 2: put `version 2` at the top of the script"
    if (cause == "word" && has[1] == "send") here = "`send` is a line of `osi datagrams`: a first comment `# osi datagrams: ..` names it"
    if (cause == "word" && has[1] == "relay") here = "`relay` is a line of `osi relay`: a first comment `# osi relay: ..` names it"
    if (cause == "repeat" && has[1] == "port" && want[at] == "LAN" && kind[has[2]] == "ES") \
        here = "an end system has one port, also on another LAN: leave the line out, or declare " has[2] " by `is`"
    key = want[at] == "VALUE" ? "VALUE " has[2] : want[at]
    if (cause == "ascii") note("write it with plain letters, digits and signs, and single blanks between fields; save the file as ASCII or UTF-8 without a mark")
    else if (text ~ /^ /) note("no blank stands before the first field")
    else if (text ~ /  / && cause != "order") note("one blank parts two fields: take the other out")
    else if (text ~ / $/) note("no blank stands behind the last field: take it out")
    else if (cause == "word") {
        for (each in form) {
            far = distance(tolower(has[1]), each) "0" each
            if (!best || far < best) { best = far; near = each }
        }
        if (has[1] in form) note("this command has no such line, or the version of the script has not: docs/script.md has which lines each has")
        else if (has[1] ~ /;$/) note("a line of its own for each: nothing stands behind it")
        else if (best + 0 < 30) note("`" near "` is near; words have lower-case letters, and no other line begins so")
        else note("the lines are those of docs/script.md; a comment begins with #")
    } else if (cause == "order") {
        if (clock != "") note(has[1] == "start" ? "there is one `start`: take this one out" : "the set-up ends at `start`: move the line above it")
        else note("this is an event: `start` stands between the set-up and the events; put it above this line, or move the line below it")
    } else if (cause == "fields") {
        for (i = 1; i <= names && i < count && (has[i + 1] ~ shape[want[i]]); i++);
        if (has[count] ~ /^#|;/ || text ~ / #/) note("a comment has a line of its own, above")
        else if (has[count - 1] ~ /,$/) note("the names stand with commas between them, and no blanks")
        else if (!names) note("the line is that word alone: for several times write it several times")
        else if (i <= names && i < count) note("field " i " behind `" has[1] "` is " want[i] ": " wants[want[i]] "; here stands `" substr(has[i + 1], 1, 40) "`")
        else if (count - 1 < names) note("`" want[count] "` is missing: " wants[want[count]])
        else note("leave `" substr(has[names + 2], 1, 40) "` out")
    } else if (cause == "repeat") {
        note("leave the line out, or take another " want[at])
        for (i = 1; i < number; i++) {
            split(above[i], part, " ")
            if (part[at + 1] == has[at + 1] && (part[1] == has[1] || part[1] has[1] ~ /^(esis|ises)$/) &&
                (part[2] == has[2] || want[at] !~ /^(LAN|SELECTOR|PREFIX)$/)) { print "    see line " i ": " above[i]; break }
        }
    } else if (key in wants) {
        note(want[at] " is " wants[key])
        if (cause == "unknown" && want[at] == "LAN") print "    LANs above:" declared("lan")
        if (cause == "unknown" && want[at] == "PATH") print "    paths above:" declared("path")
        if (cause == "unknown") print "    end systems above:" declared("es") "; intermediate ones:" declared("is") "; with a port:" declared("port")
    }
    if (here != "") print "    here: " here
}
