# What each tool begins with, read by `.`: its help, which is the comment at its head, its words, its files.
# The launcher names itself in OSI; a tool that is called by its own path is called again through it.
# Statuses of a tool: those of the program (0 to 7) and of the launcher; 1 also where its help says so; 2 wrong words, no such file.
# shellcheck shell=sh
tool=${0##*/}
tools=$(dirname "$(readlink -f "$0")")
[ -n "${OSI-}" ] || exec "$tools/../osi" "$tool" "$@"

say() {
    echo "osi $tool: $*" >&2
}

help() {
    sed -n -e '2,/^[^#]/s/^# //p' -e '2,/^[^#]/s/^#$//p' "$0"
}

wrong() {
    say "$*; see ./osi $tool --help"
    exit 2
}

# The options of the tool beside --help; a tool that has some names them above its words.
options=

# A word that begins with `-` and stands where no option is read.
no_option() {
    for option in $options; do
        [ "$option" != "$1" ] || wrong "the option $1 stands in front of the other words"
    done
    wrong "there is no option $1: there is ${options:+$options and }--help"
}

# Asks for as many words as are given first; without any the help is written.
words() {
    case ${2-} in
    -h | --help)
        help
        exit
        ;;
    esac
    if [ $# = 1 ]; then
        help >&2
        exit 2
    fi
    for word; do
        case $word in
        -?*) no_option "$word" ;;
        esac
    done
    [ $# -gt "$1" ] || wrong "a word is missing"
    [ $# = $(($1 + 1)) ] || wrong "there are words too many"
}

# Copies a file into the tool's folder, $work, under a name without blanks.
take() {
    if [ -d "$1" ] || [ ! -r "$1" ]; then
        wrong "there is no file $1 that can be read"
    fi
    cat -- "$1" >"$work/$2" || exit 3
}

# The first line of a transcript.
transcript_begins='^(tick 0|done|refused [0-9]+ [0-9]+ [a-z]+|toomuch)$'

# Looks whether $work/transcript begins as a transcript does.
is_transcript() {
    head -n 1 "$work/transcript" | grep -q -E "$transcript_begins" ||
        wrong "the input is no transcript, which ./osi run < SCRIPT writes"
}

# Of a file that is a transcript or a script: the transcript, or that of the run, as $work/$2. `ended` is the status of the run, 0 of a transcript.
transcript_of() {
    take "$1" script
    ended=0
    if head -n 1 "$work/script" | grep -q -E "$transcript_begins"; then
        mv "$work/script" "$work/$2"
    else
        program run
        ended=$status
        mv "$work/run" "$work/$2"
    fi
}

# $work/transcript: that of a file, or of the run of a script; or standard input, where no file is named. An empty file is neither.
take_transcript() {
    ended=0
    if [ -z "$1" ]; then
        cat >"$work/transcript"
        is_transcript
        return
    fi
    if [ -f "$1" ] && [ ! -s "$1" ]; then
        wrong "$1 is empty: neither a script nor a transcript"
    fi
    transcript_of "$1" transcript
    [ "$ended" = 0 ] || tell_refused "$1" transcript
}

# Names the line that is refused, where the last line of a transcript says so. It fails where none is.
tell_refused() {
    tail -n 1 "$work/$2" >"$work/last"
    read -r event number column cause <"$work/last"
    see="; see ./osi explain $1"
    [ "${ended:-1}" != 0 ] || see=
    case $event in
    refused) say "$1: line $number is refused at its column $column: $cause$see" ;;
    toomuch) say "$1: the script is longer than the program takes, or makes more events" ;;
    *) return 1 ;;
    esac
}

# The word that runs $work/script: that of its first comment `# osi WORD: ..`, else `run`.
command_of() {
    command=$(awk -f "$tools/word.awk" "$work/script")
    command=${command:-run}
}

# OSI_BUILT is `yes` where a program answers at once; the launcher may have built one that is kept.
look_again() {
    if "$OSI" help | grep -q '^An unproved program is kept'; then
        OSI_BUILT=yes
    fi
}

# Says once that an unproved program answers.
tell_kept() {
    [ -z "${OSI_SAYS-}" ] || echo "osi: $OSI_SAYS" >&2
    OSI_SAYS=
}

# Runs the program by its word on $work/script, into $work/WORD; in the place of `run` by the word of the script. Without a transcript
# the tool ends. What the launcher says of a build is shown, what it says of a refused line is not: the tool tells it.
program() {
    tell_kept
    command_of
    word=$1
    [ "$1" != run ] || word=$command
    [ "$1" != frames ] || [ "$command" = run ] || wrong "there is no capture of a script of osi $command"
    : >"$work/said"
    if [ "$OSI_BUILT" = yes ]; then
        "$OSI" "$word" <"$work/script" >"$work/$1" 2>"$work/said"
    else
        "$OSI" "$word" <"$work/script" >"$work/$1"
    fi
    status=$?
    case $status in
    0 | 1 | 7) ;;
    *)
        cat "$work/said" >&2
        exit "$status"
        ;;
    esac
    [ "$OSI_BUILT" = yes ] || look_again
}

# Writes the octets of a file in hexadecimal, some a line. GNU `od` takes a fifth of the time where it writes eight octets as one number, highest
# first; behind the last octet there may be zeros.
hexadecimal() {
    if od -An -v --endian=big -tx8 </dev/null >/dev/null 2>&1; then
        od -An -v --endian=big -tx8 <"$1"
    else
        od -An -v -tx1 <"$1"
    fi
}

# Writes what a tool made, in $work/out: a write that fails has the status 4 of the program, and silence where the reader has gone.
hand_over() {
    cat "$work/out" 2>"$work/failure"
    wrote=$?
    [ "$wrote" != 0 ] || return 0
    [ "$wrote" -gt 128 ] || say "a write failed: the device of the output is full"
    exit 4
}

# (where nothing can be kept in the checkout, the launcher keeps an unproved program here)
work=$(mktemp -d) || exit 125
OSI_KEEP=${OSI_KEEP:-$work/kept}
export OSI_KEEP
trap 'rm -rf "$work"' EXIT
trap 'exit 129' HUP
trap 'exit 130' INT
trap 'exit 143' TERM
