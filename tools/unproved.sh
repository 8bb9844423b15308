# The unproved program, with its checks on. `rt try` builds it, runs it and removes it, so a copy is taken while it runs, and kept in .osi-unproved
# until a source is newer. Read by `.`, by what has `top`, the folder of the checkout, `work`, a folder of its own, and `say`.
# shellcheck shell=sh disable=SC2154

# Whether a program stands, and is newer than all that it is made from.
is_newest() {
    [ -x "$1" ] && [ -z "$(find "$top/crates" "$top/crates.txt" -name out -prune -o \
        \( -name '*.rt' -o -name '*.antt' -o -name crates.txt \) -newer "$1" -print | head -n 1)" ]
}

has_rt() {
    command -v rt >/dev/null
}

# Whether an unproved program of these sources is kept. `kept` is its folder: beside the sources or, where that cannot be written, of a tool's call.
is_kept() {
    for kept in "$top/.osi-unproved" ${OSI_KEEP:+"$OSI_KEEP"}; do
        ! is_newest "$kept/osi" || return 0
    done
    return 1
}

# Runs the program of a folder: by the loader and the C library of the toolchain, for which it is linked, where there are copies of them.
run_from() {
    folder=$1
    shift
    if [ -x "$folder/lib/ld-linux-x86-64.so.2" ]; then
        "$folder/lib/ld-linux-x86-64.so.2" --inhibit-cache --library-path "$folder/lib" "$folder/osi" "$@"
    else
        "$folder/osi" "$@"
    fi
}

# Runs the words by the program that is kept, on standard input. `status` is its own, or of a signal from outside, or 125: a check stopped it.
run_kept() {
    status=0
    run_from "$kept" "$@" || status=$?
    case $status in
    [0-7] | 129 | 130 | 137 | 141 | 143) ;;
    *)
        say "the unproved program did not start, or one of its checks stopped it (status $status): \`cd $top/crates/osi; rt try -- $*\` tells where"
        status=125
        ;;
    esac
}

begin_clock() {
    start=$(date +%s)
    usual=$(cat "$top/.osi-unproved/seconds" 2>/dev/null || true)
}

seconds() {
    echo $(($(date +%s) - start))
}

# At a terminal, a line that tells how long it takes already.
show_clock() {
    [ ! -t 2 ] || printf '\rosi: building, %s s so far, of about %s ' "$(seconds)" "${usual:-60}" >&2
}

hide_clock() {
    [ ! -t 2 ] || printf '\r%70s\r' '' >&2
}

# Lets one call build at a time, where there is flock; another waits.
take_turn() {
    command -v flock >/dev/null || return 0
    mkdir -p "$top/.osi-unproved" 2>/dev/null && (: >>"$top/.osi-unproved/lock") 2>/dev/null || return 0
    exec 9>>"$top/.osi-unproved/lock"
    flock -n 9 && return 0
    say "another call builds it, and this one waits"
    flock 9
}

end_turn() {
    exec 9>&-
}

# Copies a program, with what it is linked for, to $work/taken, if it answers.
take_copy() {
    rm -rf "$work/taken"
    mkdir -p "$work/taken/lib" && cp "$1" "$work/taken/osi" || return
    libraries=$(dirname "$(rt doc)")/toolchain/lib
    for file in ld-linux-x86-64.so.2 libc.so.6 libm.so.6 libgcc_s.so.1; do
        [ ! -e "$libraries/$file" ] || cp "$libraries/$file" "$work/taken/lib" || return
    done
    chmod a+rx "$work/taken/osi"
    # (a source that is changed meanwhile is newer)
    touch -r "$work/began" "$work/taken/osi"
    [ "$(run_from "$work/taken" run </dev/null)" = 'done' ]
}

# Looks for the program in what `rt try` made so far. How that is laid out is not documented: each file that can be run is tried.
catch_program() {
    find "$work/try" -type f -perm -100 2>/dev/null | {
        while IFS= read -r file; do
            ! take_copy "$file" 2>/dev/null || exit 0
        done
        exit 1
    }
}

# Puts the copy into a folder, the program whole and last.
put_into() {
    new=$1/new-$$
    mkdir -p "$new" "$1/lib" && cp -Rp "$work/taken/." "$new" || return
    for file in "$new/lib"/*; do
        [ ! -e "$file" ] || cmp -s "$file" "$1/lib/${file##*/}" || mv -f "$file" "$1/lib" || return
    done
    mv -f "$new/osi" "$1/osi"
}

# Keeps the copy; where nothing can be written it serves this call alone.
keep() {
    for kept in "$top/.osi-unproved" ${OSI_KEEP:+"$OSI_KEEP"} "$work/taken"; do
        if [ "$kept" = "$work/taken" ] || put_into "$kept" 2>/dev/null; then
            break
        fi
        rm -rf "$kept/new-$$"
    done
    rm -rf "$kept/new-$$"
    if [ "$kept" = "$top/.osi-unproved" ]; then
        { seconds >"$kept/seconds"; } 2>/dev/null || true
    else
        say "it cannot be kept in $top/.osi-unproved, so the next call builds anew"
    fi
}

# Ends what is left of a build.
stop_build() {
    if [ -n "${building-}" ]; then
        kill -TERM "$building" 2>/dev/null || true
        wait "$building" 2>/dev/null || true
    fi
    building=
    rm -rf "$top/.osi-unproved/new-$$"
}

# Removes what a call left that was killed as it kept a program.
remove_left() {
    for left in "$top/.osi-unproved"/new-*; do
        [ ! -e "$left" ] || kill -0 "${left##*-}" 2>/dev/null || rm -rf "$left"
    done
}

# Builds the program by `rt try`, which is given a folder of cases to run; before them comes one that takes seconds, in which the copy is taken.
# Fails where none could be taken: then `wrote` and `log` in $work have what came of the cases, within the limits of `rt try`.
try_cases() {
    remove_left
    mkdir -p "$work/try" "$1"
    : >"$1/0"
    printf '%s\n' storm 1 10000 >"$1/0.args"
    touch "$work/began"
    begin_clock
    (cd "$top/crates/osi" && TMPDIR=$work/try exec setsid rt try --steps 1 --cases "$1") </dev/null >"$work/wrote" 2>"$work/log" 9>&- &
    building=$! caught=no
    while kill -0 "$building" 2>/dev/null; do
        if catch_program; then
            caught=yes
            break
        fi
        show_clock
        sleep 0.2
    done
    stop_build
    hide_clock
    [ "$caught" = no ] || keep
    [ "$caught" = yes ]
}

# Sees to it that an unproved program is kept: another call may have built it meanwhile. As try_cases.
build_unproved() {
    take_turn
    is_kept || try_cases "$1"
    built=$?
    end_turn
    return "$built"
}
