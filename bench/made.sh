#!/usr/bin/env bash
# Times pathmap_make beside a plain Rust program that writes the same script by `BufWriter` and `write!`, and a run of a
# made script by pathmap.
#
#   bash bench/made.sh [ROUNDS]     ROUNDS of each by turns (101)
set -eu
here=$(cd "$(dirname "${BASH_SOURCE[0]}")" && pwd)
root=$(dirname "$here")
build=$here/build
mkdir -p "$build"
"$root/bin/pathmap_make" 0 1 1 >/dev/null
printf '' | "$root/bin/pathmap" >/dev/null
rustc -O --edition 2021 -o "$build/make_script" "$here/make_script.rs"
python3 "$here/made.py" "$root/crates" "$build" "$@"
