#!/bin/sh
# Proves, builds and runs programs of this repository, each once on an empty input: `rt run` in the crate's folder. Each
# stays there as out/NAME (tests/program.sh). Where nothing has changed since it is only run. What `rt run` says, and the
# program, goes to standard error.
#
#     tests/build.sh NAME..
#
# Only the proof and the build decide: the program itself may end with any status on an empty input.
set -eu
cd "$(dirname "$0")/.."
said=$(mktemp)
trap 'rm -f "$said"' EXIT
for name; do
    # The list that the program `mend` writes.
    list=out/none
    rm -f "crates/$name/$list"
    { (cd "crates/$name" && rt run -- "$list" </dev/null) 2>&1 || true; } | tee "$said" >&2
    rm -f "crates/$name/$list"
    grep -q "^rt: running out/$name;" "$said" && [ -f "crates/$name/out/$name" ] || {
        echo "build: the program $name is not proved and built" >&2
        exit 1
    }
done
