#!/usr/bin/env bash
# start.sh NAME WORD..: runs the proved program of this name on standard input, with the words given. It is proved
# and built first where it isn't there yet or a source has changed since; what goes on meanwhile is said on standard
# error. Status 70: it couldn't be built. Every other status is the program's own.
set -u
unset CDPATH
root=$(cd "$(dirname "$(readlink -f "${BASH_SOURCE[0]}")")/.." && pwd) || exit 70
name=$1
shift
crate=$root/crates/$name
program=$crate/out/$name
stamp=
build=

say() { printf '%s: %s\n' "$name" "$*" >&2; }

fail() {
    say "$@"
    exit 70
}

# The program is there, and no source is newer.
is_current() {
    local sources=("$root/crates.txt" "$root"/crates/*/src) part newer
    for part in "$root/HANDLES" "$root"/crates/*/{specs,proofs}; do
        [ -e "$part" ] && sources+=("$part")
    done
    [ -x "$program" ] && newer=$(find "${sources[@]}" -newer "$program" -print -quit 2>/dev/null) && [ -z "$newer" ]
}

# Opens a log: beside what the build makes, or with other temporary files where that can't be written.
open_log() {
    mkdir -p "$crate/out" 2>/dev/null
    log=$crate/out/build.log
    { exec 3>"$log"; } 2>/dev/null && return
    log=$(mktemp "${TMPDIR:-/tmp}/$name-build.XXXXXX" 2>/dev/null) && { exec 3>"$log"; } 2>/dev/null
}

# Keeps what the build says in the log, and says a line for each crate that is done.
follow() {
    local line low=''
    while IFS= read -r line; do
        printf '%s\n' "$line" >&3
        case $line in
            'crate '*) low=${line#crate } low=${low%%:*} ;;
            'logic=proved '*) say "$low is proved" ;;
            'rt: '*waiting*) say "${line#rt: }" ;;
        esac
    done
}

# The lines of the log that say what is open or wrong, without the counts of what is right and the advice.
faults() {
    local counts='^(logic|statements|library|crate|only=|by-macro|so far|checked )|: proved$'
    local advice='^rt: (chose|[a-z_]+: begins)|^note: (to see|a goal may|finished)|^help:|^  *(use |pub |--|\|)|^ *$'
    grep -Ev "$counts|$advice" "$log" | cut -c1-400 | head -n 20
}

build() {
    say 'proving and building the program; from nothing this takes several minutes'
    command -v rt >/dev/null || fail "there is no command rt, the toolchain's"
    open_log || fail "no log can be written, neither in $crate/out nor in ${TMPDIR:-/tmp}"
    # What is edited while the build runs is newer than the stamp, so the next call builds it.
    stamp=$(mktemp "${TMPDIR:-/tmp}/$name-stamp.XXXXXX") || fail "no file can be made in ${TMPDIR:-/tmp}"
    # A build ends in a run of the program, on the words that are stored for it, if there are any.
    local words=()
    [ -e "$crate/args" ] && mapfile -t words <"$crate/args"
    # The build is a process group of its own, so that it ends where this call is ended.
    set -m
    (set -o pipefail && cd "$crate" && rt run -- ${words[@]+"${words[@]}"} </dev/null 2>&1 | follow) 9<&- &
    build=$!
    set +m
    if ! wait "$build"; then
        build=
        faults >&2
        fail "the build failed; all that it said is in $log"
    fi
    build=
    [ -x "$program" ] || fail "the build left no program; all that it said is in $log"
    touch -r "$stamp" "$program" || fail "the program's time can't be set"
    say 'built'
}

# Ends the build, where one is under way, and lets the stamp go.
clean_up() {
    [ -n "$build" ] && kill -TERM -- "-$build" 2>/dev/null
    [ -n "$stamp" ] && rm -f "$stamp"
}

if ! is_current; then
    trap clean_up EXIT
    trap 'exit 129' HUP
    trap 'exit 130' INT
    trap 'exit 143' TERM
    # One build at a time: a second call waits, and then most often finds the program there.
    exec 9<"$root/bin/start.sh" || fail "$root/bin/start.sh can't be read"
    if ! flock -n 9; then
        say 'another call is building the program; waiting for it'
        flock 9
    fi
    is_current || build
    clean_up
    exec 3>&- 9<&-
fi
exec "$program" "$@"
