# What `lossy` and `sweep` share, read by `.`: the script with losses of one seed.
# shellcheck shell=sh

# Whether a program answers at once: each round asks it.
takes_program() {
    [ "$OSI_BUILT" != yes ] || return 0
    say "it takes a program that answers at once, and none could be kept: ./osi-build builds the proved one"
    exit 125
}

# The first fault in the comments that losses read, if any, as FILE:LINE:COLUMN: CAUSE: what it wants.
comments_fault() {
    awk -f "$tools/distance.awk" -f "$tools/comments.awk" -f "$tools/lossy-comments.awk" "$work/script" >"$work/fault" && return 1
    read -r line column cause wants <"$work/fault"
    echo "$1:$line:$column: $cause: $wants"
}

# Whether losses have a place in the script: a `settle` below `start` and `#losses`, and above `#calm`.
has_place() {
    awk '
        { sub(/\r$/, "") }
        $0 == "#losses" { has = 0 }
        $0 == "#calm" { exit }
        $0 == "settle" { has = 1 }
        END { exit !has }' "$work/script"
}

# A warning and no refusal: the script with losses is right as it is written, but LOSS and REPEAT do nothing to it.
tell_no_place() {
    say "nothing is lost or repeated by chance in $1: it has no \`settle\` for losses to replace (below \`start\` and \`#losses\`, above \`#calm\`); lines \`deliver\` are kept"
}

# mawk reads a pipe line by line only where it is told to.
interactive=
if awk -W version 2>&1 </dev/null | grep -q '^mawk'; then
    interactive="-W interactive"
fi

# make_lossy SEED LOSS REPEAT SCRIPT OUT: writes OUT, and the lines that waited for what never came in OUT.never. Fails where the script would be
# longer than the program takes. `$program $command` runs a script, and answers what came so far.
make_lossy() {
    rm -f "$5" "$5".*
    mkfifo "$5.lines" || exit 125
    # shellcheck disable=SC2086
    "$program" "$command" <"$5.lines" | awk $interactive -v seed="$1" -v loss="$2" -v repeat="$3" \
        -v script="$4" -v lines="$5.lines" -v lossy="$5" -f "$tools/lossy.awk"
    rm -f "$5.lines"
    [ -e "$5" ] || : >"$5"
    [ -e "$5.whole" ]
}
