#!/bin/sh
# Makes the lists and the frames of the original's answers again.
#
#     tests/lists.sh        compares them with the ones kept here, byte for byte. Where cargo or the original is not at
#                           hand it says so and goes on: the kept ones serve the tests
#     tests/lists.sh keep   puts them in place of the ones kept here, once all are made
set -eu
cd "$(dirname "$0")/.."
. tests/oracle.sh

if [ -n "$missing" ]; then
    echo "lists: not made again, since $missing"
    [ "${1:-}" != keep ]
    exit
fi
build_oracle
made=$(mktemp -d)
trap 'rm -rf "$made"' EXIT
make_again() {
    "$oracle" "$@" 2>"$made/log" || {
        cat "$made/log"
        exit 1
    }
}
make_again "$made/lists"
make_again frames "$made/frames"
if [ "${1:-}" = keep ]; then
    rm -f crates/answers/data/*
    cp "$made"/lists/* crates/answers/data
    cp "$made/frames/stdin" "$made/frames/stdout" crates/serve
fi
diff -r "$made/lists" crates/answers/data
for file in stdin stdout; do
    cmp "$made/frames/$file" "crates/serve/$file"
done
echo "lists: $(cat "$made"/lists/*.txt | wc -l) lines in $(ls "$made/lists" | wc -l) lists, and $(
    sed -n 's/^frames: \([0-9]* calls\),.*/\1/p' "$made/log"
) in frames, the same as those kept in crates/answers and crates/serve"
