#!/usr/bin/env bash
# Times pathmap beside two plain Rust programs, one over std's BTreeMap and one with the same tree by direct
# loops, the plain tree or, in the cases of `--tree avl`, the balanced one with the same repairs, on scripts made
# by seed. The three run by turns, what they print is compared byte by byte, and one table says how long each
# took, in processor time. Another table has scripts of some clients, which run at once, beside a plain program of
# threads with one lock round std's BTreeMap, by the clock and in processor time.
#
#   bash bench/all.sh [ROUNDS] [CASE..]     ROUNDS of each case (21), but a tenth of them of the line, which
#                                           takes half a minute a round; all cases, or these, or those whose
#                                           names begin with these words: see cases.py
set -eu
here=$(cd "$(dirname "${BASH_SOURCE[0]}")" && pwd)
root=$(dirname "$here")
build=$here/build
mkdir -p "$build"
printf '' | "$root/bin/pathmap" >/dev/null
for program in btree_map direct_tree relaxed_avl locked_map; do
    rustc -O --edition 2021 -o "$build/$program" "$here/$program.rs"
done
python3 "$here/measure.py" "$root/crates/pathmap/out/pathmap" "$build" "$@"
