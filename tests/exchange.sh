#!/usr/bin/env bash
# Builds the stress of exchanges in plain Rust, and runs it: as it is, where its check must hold, with stalls, and with a
# planted fault, which its check must find.
set -eu
cd "$(dirname "$0")/.."
build=$(mktemp -d)
trap 'rm -rf "$build"' EXIT
rustc -O --edition 2021 -o "$build/exchange_stress" bench/exchange_stress.rs
"$build/exchange_stress" --threads 4 --exchanges 20000
"$build/exchange_stress" --threads 4 --exchanges 20000 --stalls 100
if "$build/exchange_stress" --threads 4 --exchanges 20000 --stalls 100 --fault skips-status; then
    echo 'FAILED: the planted fault was not found'
    exit 1
fi
echo 'the planted fault was found'
