#!/usr/bin/env bash
# README.md shows the book of the crate examples word for word, docs/BOARD.md its ferry, and README.md lines of crates.txt that
# stand there.
set -eu
cd "$(dirname "$0")/.."
shown() { sed -n "/^\`\`\`$2\$/,/^\`\`\`\$/p" "$1" | sed '1d;$d'; }
diff <(shown README.md antt) crates/examples/specs/Book.antt
diff <(shown README.md rust) crates/examples/src/book.rt
diff <(shown docs/BOARD.md antt) crates/examples/specs/Ferry.antt
diff <(shown docs/BOARD.md rust) crates/examples/src/ferry.rt
while IFS= read -r line; do
    grep -qxF "$line" crates.txt || { echo "README.md shows a line that crates.txt has not: $line"; exit 1; }
done < <(sed -n 's/^    \(pc_[a-z]*:.*\)/\1/p' README.md)
echo 'README.md and docs/BOARD.md show the examples and the crates as they are'
