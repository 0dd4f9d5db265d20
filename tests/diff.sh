#!/bin/sh
# Compares the port, the program `serve`, with the original, call by call (oracle/README.md, "Comparing with a port").
#
#     tests/diff.sh SEED CALLS           so many calls of the model, and a tenth as many on filters, on numbers, of the
#                                        exported filter run and slope, and runs of the estimator, up to 9 calls in each;
#                                        and with the archive, where it is there, a tenth as many each as for `lists` and
#                                        `rtt-runs`
#     tests/diff.sh lists SEED CALLS     so many calls of the archive, which is linked: events with lists of up to 10,000
#                                        acked numbers, in any order, among other calls
#     tests/diff.sh rtt-runs SEED CALLS  so many calls of the archive, in runs of the estimator of up to 4,095
#     tests/diff.sh gate                 240,000 calls of `serve` as `rt ci` left it: as LLVM built it, and as Rattle's own
#                                        compiler did
#     tests/diff.sh tries                50,000 calls of `serve` built without proof and with checks, by `rt try`
#     tests/diff.sh patterns NUMBER..    every f32, as the bits of to_u64 and as the gain of scale with each number
#
# The last line is `N calls, 0 differences`. At a difference it ends with 1; `lists` and `rtt-runs` show the call, `gate` and
# `tries` nothing of it, and the others the shortest run of calls found. Without the original those four say so and go on,
# but not where CI is true. The archive is the one in target/staticlib, as `make archive` left it, or the one that the
# variable GUOVSSALU_ARCHIVE names by its full path. The first and the last build `serve` where a source is newer.
set -eu
cd "$(dirname "$0")/.."
. tests/oracle.sh

if [ -n "$missing" ]; then
    echo "diff: the port is not compared with the original, since $missing"
    case $1 in
    gate | tries | lists | rtt-runs) [ "${CI:-}" = true ] || exit 0 ;;
    esac
    exit 1
fi
total=0

# Fresh frames from a seed, so many calls, answered by the original alone: $made/stdin, and what `serve` has to write on
# them, $made/stdout.
frames() {
    "$oracle" frames-of "$1" "$2" "$made" 2>"$made/log" || {
        cat "$made/log"
        exit 1
    }
}

# What was written on the frames, held to what has to be.
alike() {
    cmp "$made/written" "$made/stdout" || {
        echo "diff: serve, $1, doesn't answer as the original; \`make diff\` shows the shortest run of calls"
        exit 1
    }
    echo "serve, $1: $2 calls, 0 differences"
    total=$((total + $2))
}

# `rt try` builds `serve` without proof, with a check at each place where it could go wrong, and runs it for a minute at
# most. Its interpreter runs no program that reads its input.
tried() {
    frames "$1" "$2"
    if ! (cd crates/serve && rt try <"$made/stdin") >"$made/written" 2>"$made/said" || ! grep -q '^checked: ended status=0' "$made/said"; then
        tail -n 20 "$made/said" | cut -c 1-500
        echo "diff: serve, built with checks, doesn't come to its end"
        exit 1
    fi
    alike 'built with checks' "$2"
}

# A command of the oracle, which asks `serve` over a pipe.
compare() {
    mkdir -p target
    "$oracle" "$@" >target/diff || {
        cat target/diff
        exit 1
    }
    calls=$(sed -n 's/ calls, 0 differences$//p' target/diff)
    echo "$*: $calls calls, 0 differences"
    total=$((total + calls))
}

# The oracle with the archive linked, which is built in a folder of its own, asks the archive.
archive=${GUOVSSALU_ARCHIVE:-$PWD/target/staticlib/libguovssalu.a}
compare_archive() {
    ORIGINAL=$(cd "$original" && pwd) CARGO_TARGET_DIR=$built/archive GUOVSSALU_ARCHIVE=$archive \
        cargo build --release --quiet --features archive --manifest-path oracle/Cargo.toml
    oracle=$built/archive/release/oracle
    compare "$@"
}

if [ "$1" = lists ] || [ "$1" = rtt-runs ]; then
    [ -f "$archive" ] || {
        echo "diff: there is no $archive; \`make archive\` proves the calls and writes it"
        exit 1
    }
    compare_archive "$@"
    echo "$total calls, 0 differences"
    exit
fi
build_oracle
case $1 in
tries | gate)
    made=$(mktemp -d)
    trap 'rm -rf "$made"' EXIT
    ;;
esac
case $1 in
tries)
    tried 2 50000
    echo "$total calls, 0 differences"
    exit
    ;;
gate)
    frames 1 240000
    serve=$(sh tests/program.sh serve)
    [ -f "$serve" ] || {
        echo "diff: there is no $serve; \`rt ci\` proves and builds it"
        exit 1
    }
    "$serve" <"$made/stdin" >"$made/written"
    alike 'as LLVM builds it' 240000
    if [ -f "$serve.by-rattle" ]; then
        "$serve.by-rattle" <"$made/stdin" >"$made/written"
        alike "as Rattle's own compiler builds it" 240000
    else
        echo "diff: $serve.by-rattle is not there: as Rattle's own compiler builds it, it is left out"
    fi
    echo "$total calls, 0 differences"
    exit
    ;;
esac
make -s crates/serve/out/serve
PORT=$(sh tests/program.sh serve)
export PORT
case $1 in
patterns)
    shift
    compare patterns to_u64 0
    for number; do
        compare patterns scale "$number"
    done
    ;;
*)
    compare diff "$1" "$2"
    for kind in filter numbers exports rtt; do
        compare $kind "$1" $(($2 / 10))
    done
    if [ -f "$archive" ]; then
        compare_archive lists "$1" $(($2 / 10))
        compare_archive rtt-runs "$1" $(($2 / 10))
    else
        echo "lists and rtt-runs: left out, since there is no $archive"
    fi
    ;;
esac
echo "$total calls, 0 differences"
