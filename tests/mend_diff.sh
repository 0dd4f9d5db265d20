#!/bin/sh
# Compares the program `mend` with the mending that the oracle has of its own, trace by trace, and holds it, with the
# program `replay`, to what is promised of a mended trace (oracle/README.md, "Comparing mended traces with a port").
#
#     tests/mend_diff.sh SEED TRACES   the cases, and so many traces that are chosen from the seed
#     tests/mend_diff.sh gate          the cases, and 300 traces: some ten seconds
#
# The port is the commands in the variables PORT_MEND and PORT_REPLAY, or else the programs of crates/mend and
# crates/replay, as they were built last: without `gate` they are proved and built here where a source is newer. The last
# line is `N lines of M traces, 0 wrong`. At the first thing wrong it shows the trace's name, what was expected and what
# was given, and ends with 1. Without cargo or the original `gate` says so and goes on, but not where CI is true.
set -eu
cd "$(dirname "$0")/.."
. tests/oracle.sh

usage() {
    echo "mend_diff: name a seed and how many traces, or \`gate\`" >&2
    exit 2
}
case $#,${1:-} in
1,gate) seed=1 traces=300 ;;
2,*) seed=$1 traces=$2 ;;
*) usage ;;
esac
case $seed$traces in
*[!0-9]*) usage ;;
esac

if [ -n "$missing" ]; then
    echo "mend_diff: the mending is not compared with the oracle's, since $missing"
    [ "$1" = gate ] && [ "${CI:-}" != true ]
    exit
fi
programs=
[ -n "${PORT_MEND:-}" ] || programs=mend
[ -n "${PORT_REPLAY:-}" ] || programs="$programs replay"
for program in $programs; do
    [ "$1" = gate ] || make -s "crates/$program/out/$program"
    [ -f "$(sh tests/program.sh "$program")" ] || {
        echo "mend_diff: the program $program is not built yet; \`sh tests/build.sh $program\` proves and builds it"
        exit 1
    }
done
PORT_MEND=${PORT_MEND:-$(sh tests/program.sh mend)}
PORT_REPLAY=${PORT_REPLAY:-$(sh tests/program.sh replay)}
export PORT_MEND PORT_REPLAY
build_oracle
# The lists are made here, and gone also where the comparison is ended by a signal.
TMPDIR=$(mktemp -d)
export TMPDIR
trap 'rm -rf "$TMPDIR"' EXIT
if [ "$1" = gate ]; then
    "$oracle" compare-mends "$seed" "$traces" 2>"$TMPDIR/said" || {
        cat "$TMPDIR/said"
        exit 1
    }
else
    "$oracle" compare-mends "$seed" "$traces"
fi
