#!/usr/bin/env bash
# Builds the race of proved operations along a path and the plain program, and
# - replays what 2, 4 and 8 threads of the race took down, and 4 of the plain program,
# - shows that wrong runs are refused, and that faults are found that are planted in the plain program,
# - counts the steps of a validated read and of an exchange by one pass alone, where there is `valgrind`,
# - compares the times of both programs.
#
#   path_race.sh [OPERATIONS] [ROUNDS]     OPERATIONS of each replayed run (200,000), and ROUNDS (11) of the times
set -eu -o pipefail
cd "$(dirname "$0")/.."
operations=${1:-200000}
rounds=${2:-11}
build=bench/build
mkdir -p "$build"
(cd crates/path_race && rt run -- 1 0 records)
race=crates/path_race/out/path_race
rustc -O --edition 2021 -o "$build/path_stress" bench/path_stress.rs

for threads in 2 4 8; do
    printf '%s threads: ' "$threads"
    "$race" "$threads" "$operations" records | python3 tests/path_race.py
done
printf 'the plain program, 4 threads: '
"$build/path_stress" 4 "$operations" records | python3 tests/path_race.py
"$race" 4 3000 records >"$build/path_race"
python3 tests/path_race.py --wrong "$build/path_race"
for fault in reads-unchecked stamp-last records-lost skips-status holds-changed; do
    if "$build/path_stress" 4 100000 records all "$fault" | python3 tests/path_race.py 2>/dev/null; then
        echo "FAILED: the planted fault $fault was not found"
        exit 1
    fi
done
echo 'the planted faults were found'
if command -v valgrind >/dev/null; then
    python3 tests/path_steps.py
fi
python3 bench/path_times.py "$race" "$build/path_stress" "$rounds"
