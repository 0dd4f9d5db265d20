#!/bin/sh
# Compares the program `replay` with the original, trace by trace (oracle/README.md, "Comparing traces with a port").
#
#     tests/trace.sh SEED LINES   the cases, and so many lines of traces that are chosen from the seed
#     tests/trace.sh gate         the cases, and 20,000 lines: some seconds
#
# The port is the command in the variable PORT, or else the program of crates/replay, as it was built last: without `gate`
# it is proved and built here where a source is newer. The last line is `N lines of M traces, 0 differences`. At a
# difference it shows the trace's name, the line, and the rows that were expected and given, and ends with 1. Without cargo
# or the original `gate` says so and goes on, but not where CI is true.
set -eu
cd "$(dirname "$0")/.."
. tests/oracle.sh

usage() {
    echo "trace: name a seed and how many lines, or \`gate\`" >&2
    exit 2
}
case $#,${1:-} in
1,gate) seed=1 lines=20000 ;;
2,*) seed=$1 lines=$2 ;;
*) usage ;;
esac
case $seed$lines in
*[!0-9]*) usage ;;
esac

if [ -n "$missing" ]; then
    echo "trace: the replay is not compared with the original, since $missing"
    [ "$1" = gate ] && [ "${CI:-}" != true ]
    exit
fi
if [ -z "${PORT:-}" ]; then
    [ "$1" = gate ] || make -s crates/replay/out/replay
    PORT=$(sh tests/program.sh replay)
    [ -f "$PORT" ] || {
        echo "trace: there is no $PORT; \`sh tests/build.sh replay\` proves and builds it"
        exit 1
    }
fi
export PORT
build_oracle
said=$(mktemp)
trap 'rm -f "$said"' EXIT
if [ "$1" = gate ]; then
    "$oracle" compare-traces "$seed" "$lines" 2>"$said" || {
        cat "$said"
        exit 1
    }
else
    "$oracle" compare-traces "$seed" "$lines"
fi
