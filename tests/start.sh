#!/usr/bin/env bash
# Tests `bin/start.sh`, by which `bin/pathmap` and `bin/pathmap_make` build their programs where need be and run them:
# in checkouts that are made here, with a command `rt` that stands for the toolchain's and builds nothing but a word to
# print.
set -u
cd "$(dirname "$0")/.."
here=$(mktemp -d)
trap 'chmod -R u+w "$here"; rm -rf "$here"' EXIT
chmod 755 "$here"
export TMPDIR=$here/temporary PATH=$here/tools:$PATH
mkdir -m 1777 "$TMPDIR"
mkdir "$here/tools"
passed=0
failed=0

# The stand-in says what the toolchain says, waits where a file bids it, and counts its runs.
cat >"$here/tools/rt" <<'RT'
#!/usr/bin/env bash
echo run >>../../runs
shift
echo "$*" >>../../words
echo 'statements core: modules loaded=3 checked=0'
echo 'fn low::bump: proved'
echo 'crate low: modules loaded=1 checked=1'
echo 'logic=proved functions=1'
while [ -e ../../wait ]; do sleep 0.05; done
if grep -q broken src/main.rt; then
    echo 'note: `returns` must prove: 1 ≡ 2'
    echo 'logic=not-proved'
    exit 1
fi
program=out/$(basename "$PWD")
mkdir -p out && printf '#!/bin/sh\necho "%s $*"\nexit 3\n' "$(cat src/main.rt)" >"$program" && chmod 755 "$program"
RT
chmod 755 "$here/tools/rt"

# checkout NAME: a checkout with one crate, in which the tests that follow run
checkout() {
    at=$here/$1
    mkdir -p "$at/bin" "$at/crates/pathmap/src"
    cp bin/* "$at/bin"
    echo 'pathmap:' >"$at/crates.txt"
    echo first >"$at/crates/pathmap/src/main.rt"
    find "$at" -exec touch -d '1 hour ago' {} +
}

# run COMMAND..: what it prints and says, and the status with which it ends
run() {
    said=$("$@" 2>&1 </dev/null)
    status=$?
}

# check NAME STATUS TEXT..: the last run ended so, and said each of these texts
check() {
    local name=$1 text
    [ "$status" = "$2" ] || { wrong "$name: status $status"; return; }
    shift 2
    for text; do
        case $said in *"$text"*) ;; *) wrong "$name: no '$text'"; return ;; esac
    done
    passed=$((passed + 1))
}

wrong() {
    failed=$((failed + 1))
    printf 'FAILED: %s\n%s\n' "$1" "$said"
}

# holds NAME TEST..: a test that the last run's text doesn't show
holds() {
    local name=$1
    shift
    if "$@"; then passed=$((passed + 1)); else wrong "$name"; fi
}

lacks() { case $said in *"$1"*) return 1 ;; esac; }
runs() { wc -l <"$at/runs"; }
is_waiting() { [ -e "$at/runs" ] && [ "$(runs)" = "$1" ]; }
until_waiting() { for _ in $(seq 100); do is_waiting "$1" && return; sleep 0.05; done; return 1; }

checkout plain
run "$at/bin/pathmap" a 'b c'
check 'a first call builds and runs' 3 'low is proved' 'built' 'first a b c'
run "$at/bin/pathmap"
check 'a second call runs' 3 'first'
holds 'a second call builds nothing' [ "$(runs)" = 1 ]
ln -s "$at/bin/pathmap" "$here/link"
mkdir -p "$at/crates/pathmap_make/src"
echo other >"$at/crates/pathmap_make/src/main.rt"
printf '0\n1 3\n' >"$at/crates/pathmap_make/args"
touch -d '1 hour ago' "$at/crates/pathmap_make/src/main.rt"
run "$at/bin/pathmap_make" 7
check 'another program is built under its name' 3 'pathmap_make: built' 'other 7'
holds 'its build runs it on the words that are stored' [ "$(tail -n 1 "$at/words")" = '-- 0 1 3' ]
run "$at/bin/pathmap"
holds 'it is another than the first' lacks 'other'
cd /
run "$here/link"
cd "$OLDPWD"
check 'a link to the script' 3 'first'
echo second >"$at/crates/pathmap/src/main.rt"
run "$at/bin/pathmap"
check 'an edit is built' 3 'second'
echo broken >"$at/crates/pathmap/src/main.rt"
run "$at/bin/pathmap"
check 'a broken source' 70 'must prove: 1 ≡ 2' "$at/crates/pathmap/out/build.log"
holds 'a broken source: no counts of modules' lacks 'modules loaded'
holds 'a broken source: no run of the older program' lacks 'second'

checkout edited
touch "$at/wait"
"$at/bin/pathmap" >/dev/null 2>&1 &
until_waiting 1
echo late >"$at/crates/pathmap/src/main.rt"
touch -d 'now + 1 second' "$at/crates/pathmap/src/main.rt"
rm "$at/wait"
wait $!
run "$at/bin/pathmap"
check 'an edit during a build is built next' 3 'late' 'built'

checkout twice
touch "$at/wait"
"$at/bin/pathmap" >"$here/one" 2>&1 &
one=$!
until_waiting 1
"$at/bin/pathmap" >"$here/two" 2>&1 &
two=$!
for _ in $(seq 100); do grep -q waiting "$here/two" && break; sleep 0.05; done
rm "$at/wait"
wait $one $two
run cat "$here/one" "$here/two"
check 'two calls at once' 0 'waiting for it' 'first'
holds 'two calls at once: one build' [ "$(runs)" = 1 ]
both=$(grep -c '^first' "$here/one" "$here/two" | paste -sd' ')
holds 'two calls at once: both run' [ "$both" = "$here/one:1 $here/two:1" ]

checkout ended
touch "$at/wait"
"$at/bin/pathmap" >/dev/null 2>&1 &
until_waiting 1
kill -TERM $!
wait $!
status=$? said=
check 'a call that is ended' 143
sleep 0.3
rm "$at/wait"
sleep 0.3
holds 'a call that is ended stops its build' [ ! -e "$at/crates/pathmap/out/pathmap" ]
holds 'a call that is ended leaves no stamp' [ -z "$(ls "$TMPDIR")" ]

checkout unwritable
mkdir -p "$at/crates/pathmap/out/build.log"
run "$at/bin/pathmap"
check 'a log that cannot be written' 3 'built' 'first'
holds 'a log that cannot be written lies elsewhere' [ -n "$(ls "$TMPDIR")" ]
rm -f "$TMPDIR"/*

# Whoever can't write: this user, or nobody where this is root, whom no mode stops.
other=()
if [ "$(id -u)" = 0 ]; then other=(setpriv --reuid=65534 --regid=65534 --clear-groups); fi
checkout locked
chmod -R a-w "$at"
run "${other[@]}" "$at/bin/pathmap"
check 'a checkout that cannot be written' 70 'the build failed'
chmod -R u+w "$at"
run "$at/bin/pathmap"
chmod -R a-w "$at"
run "${other[@]}" "$at/bin/pathmap"
check 'a checkout that cannot be written, once it is built' 3 'first'
chmod -R u+w "$at"

checkout bare
run env PATH=/usr/bin:/bin "$at/bin/pathmap"
check 'no toolchain' 70 'no command rt'

echo "$passed passed, $failed failed"
[ "$failed" = 0 ]
