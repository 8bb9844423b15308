# Whether the program is proved: by its octets, and by those of the sources. `rt ci` leaves the program in crates/osi/out; `osi-build` and `.ci/run`
# then write a record beside it: crates/osi/out/proved has the SHA-256 of the program, that of the sources and the line of the toolchain. Read by
# `.`, by what has `top`, the folder of the checkout. tools/unproved.sh is read before, where `look` is called.
# shellcheck shell=sh disable=SC2154
program=$top/crates/osi/out/osi
record=$top/crates/osi/out/proved

# The lines of crates.txt in a folder for the program and the crates below it, lowest first: there each crate follows those that it names.
crates_below() {
    sed 's/#.*//; s/:/ :/' "$1/crates.txt" | tac |
        awk 'NF && ($1 == "osi" || $1 in needed) { for (i = 3; i <= NF; i++) needed[$i]; print }' | tac | sed 's/ :/:/'
}

# The parts of a crate beside what was built and the edits that must fail.
parts_of() {
    for part in "$1"/*; do
        case ${part##*/} in
        out | must-fail) ;;
        *) printf '%s\n' "$part" ;;
        esac
    done
}

sum_of() {
    sum=$(sha256sum <"$1") && echo "${sum%% *}"
}

# The checksum of the sources in a folder: HANDLES, the lines of crates.txt, and each file of the crates by its name, but for the READMEs.
sum_sources() (
    cd "$1" 2>/dev/null && lines=$(crates_below .) && [ -n "$lines" ] || exit
    set -f
    IFS='
'
    # (a name has no line end)
    set -- $(set +f && for line in $lines; do parts_of "crates/${line%%:*}"; done)
    files=$(find HANDLES "$@" ! -type d ! -name README.md -exec sha256sum {} +) || exit
    { printf '%s\n' "$lines" && printf '%s\n' "$files" | LC_ALL=C sort -k 2; } | sha256sum | cut -d ' ' -f 1
)

# What a proof of the sources in a folder would prove, and by which toolchain: two lines of a record.
to_prove() {
    sources=$(sum_sources "$1") && [ -n "$sources" ] && toolchain=$(rt version) || return
    printf 'sources %s\ntoolchain %s\n' "$sources" "$(echo "$toolchain" | head -n 1)"
}

# Writes a record: of a program, and what was proved of it, as to_prove wrote it before the proof.
write_record() {
    sum=$(sum_of "$1") && printf 'program %s\n%s\n' "$sum" "$2" >"$3"
}

# A field of the record.
recorded() {
    sed -n "s/^$1 //p" "$record"
}

# Sets `proof` to what the octets say:
#     proved      the program and the sources are those of the record
#     replaced    the program is another than that of the record
#     changed     the sources are others than those of the record
#     unrecorded  there is no record
#     none        there is no program
# A release has no sources, and its program is summed at each call, which takes 4 ms. In a checkout both sums take 0.2 s, so crates/osi/out/looked
# keeps what they said. It holds while the program and the record are the same files with the same times of change, and no source has changed
# after it. The system sets the time of change of a file, and neither `touch` nor `cp -p` can. Where `find` cannot tell it, each call sums.
weigh() {
    looked=${record%/*}/looked
    if [ ! -x "$program" ]; then
        proof=none
    elif [ ! -e "$record" ]; then
        proof=unrecorded
    elif [ -e "$top/release" ]; then
        compare_program
    else
        is_looked || look_anew
    fi
}

is_same() {
    [ -n "$1" ] && [ "$1" = "$2" ]
}

compare_program() {
    proof=replaced
    ! is_same "$(sum_of "$program")" "$(recorded program)" || proof=proved
}

compare() {
    compare_program
    [ "$proof" != proved ] || is_same "$(sum_sources "$top" 2>/dev/null)" "$(recorded sources)" || proof=changed
}

# The program and the record, each with its size, its time of change and its number; and each source that changed after a file.
identities() {
    find "$program" "$record" "$top/crates" "$top/crates.txt" "$top/HANDLES" \( -name out -o -name must-fail -o -name README.md \) -prune -o \
        \( -path "$program" -o -path "$record" \) -printf '%p %s %C@ %i\n' -o -cnewer "$1" -print 2>/dev/null || true
}

is_looked() {
    { read -r proof && read -r of_program && read -r of_record; } 2>/dev/null <"$looked" &&
        [ "$(identities "$looked")" = "$of_program
$of_record" ]
}

# Takes the sums, and keeps what they say under the time before them.
look_anew() {
    begun=$looked.$$
    if ! { true >"$begun"; } 2>/dev/null; then
        compare
        return
    fi
    files=$(identities "$begun")
    compare
    printf '%s\n' "$proof" "$files" >"$begun.new" && touch -r "$begun" "$begun.new" && mv -f "$begun.new" "$looked" || true
    rm -f "$begun" "$begun.new"
}

# Sets `by` to which program runs the words: `built`, that of crates/osi/out; `kept`, an unproved one that an earlier call built; or `none` yet. One
# that no record fits runs where it is newer than the sources: it is unproved.
look() {
    by=none
    weigh
    case $proof in
    proved) by=built ;;
    replaced | unrecorded) ! is_newest "$program" || by=built ;;
    esac
    [ "$by" = built ] || ! is_kept || by=kept
}

is_proved() {
    [ "$by" = built ] && [ "$proof" = proved ]
}

# Why the proved program does not run.
lacks() {
    case $by-$proof in
    *-none) echo "the proved program is not built" ;;
    *-changed) echo "the sources are not those that the program was proved from" ;;
    built-unrecorded) echo "the program in crates/osi/out is unproved: no proof of it is recorded" ;;
    built-replaced) echo "the program in crates/osi/out is unproved: it is not the one whose proof is recorded" ;;
    *) echo "the program in crates/osi/out is unproved, and older than the sources" ;;
    esac
}
