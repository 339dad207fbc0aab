#!/usr/bin/env bash
# Builds the race of proved exchanges and the plain program, and
# - replays what 2, 4 and 8 threads of the race took down, and shows that wrong runs are refused,
# - counts the steps of an exchange by one pass alone, where there is `valgrind`,
# - compares the times of both programs.
#
#   exchange_race.sh [EXCHANGES] [ROUNDS]     EXCHANGES of each replayed run (200,000; ten million take ten minutes), and ROUNDS (11)
#                                             of the times
set -eu -o pipefail
cd "$(dirname "$0")/.."
exchanges=${1:-200000}
rounds=${2:-11}
build=bench/build
mkdir -p "$build"
(cd crates/exchange_race && rt run -- 1 0 records)
race=crates/exchange_race/out/exchange_race
rustc -O --edition 2021 -o "$build/exchange_stress" bench/exchange_stress.rs

for threads in 2 4 8; do
    printf '%s threads: ' "$threads"
    "$race" "$threads" "$exchanges" records | python3 tests/exchange_race.py
done
"$race" 4 3000 records >"$build/race"
python3 tests/exchange_race.py --wrong "$build/race"
if command -v valgrind >/dev/null; then
    python3 tests/exchange_steps.py 2000 "$build/exchange_stress"
fi
python3 bench/exchange_times.py "$race" "$build/exchange_stress" "$rounds"
