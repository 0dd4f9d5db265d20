#!/bin/sh
# The gate, as `make test` runs it: what is written is held to the source, everything is proved by `rt ci`, the port is
# compared with the original, and what ships is built from what is proved, linked and run.
#
# Its last line is that of `rt ci`, printed once more where all the rest has passed.
set -eu
cd "$(dirname "$0")/.."
work=$(mktemp -d)
comparison=
ended() {
    [ -z "$comparison" ] || kill "$comparison" 2>/dev/null || true
    rm -rf "$work"
}
trap ended EXIT
trap 'exit 130' INT
trap 'exit 143' TERM

sh tests/contracts.sh
sh tests/kit.sh

# The comparison goes on beside the first proofs, which leave a core free. It builds outside of the repository. What it
# needs is looked for first.
. tests/oracle.sh
if [ -n "$missing" ]; then
    sh tests/lists.sh
    sh tests/diff.sh tries
else
    {
        ORACLE_TARGET=$work/oracle
        export ORACLE_TARGET
        sh tests/lists.sh && sh tests/diff.sh tries
    } >"$work/compared" 2>&1 &
    comparison=$!
fi

# Every crate, every must-fail edit, every program as both compilers build it. It refuses files that are not laid out, too.
{
    status=0
    rt ci || status=$?
    echo $status >"$work/status"
} | tee "$work/said"

if [ -n "$comparison" ]; then
    status=0
    wait "$comparison" || status=$?
    comparison=
    cat "$work/compared"
    [ "$status" = 0 ] || exit 1
fi
if [ "$(cat "$work/status")" != 0 ]; then
    tail -n 1 "$work/said"
    exit 1
fi
# An edit that can't be applied or read shows nothing, and fails nothing in `rt ci`.
if ! grep -q '^rt: ok' "$work/said" || grep '^rt: ok' "$work/said" | grep -Eq ', [1-9][0-9]* bad\b'; then
    grep 'BAD EDIT' "$work/said" || true
    echo "gate: a must-fail edit is bad, or rt ci does not say ok: $(grep '^rt: ok' "$work/said")"
    exit 1
fi

# What was proved, run: the calls beside the original; briefly beside exact fractions, and beside the promises of the
# estimates; the replay and the mending beside what their page shows, then beside the original.
ORACLE_TARGET=$work/oracle sh tests/diff.sh gate
if command -v python3 >/dev/null 2>&1; then
    python3 tests/drift.py 1 60
    python3 tests/estimate.py 1 20000
    python3 tests/replay_test.py
    python3 tests/mend_test.py
else
    echo "drift, estimate, replay, mend: the port is not run beside what is promised of it, since there is no python3 here"
    [ "${CI:-}" != true ] || exit 1
fi

ORACLE_TARGET=$work/oracle sh tests/trace.sh gate
ORACLE_TARGET=$work/oracle sh tests/mend_diff.sh gate

if [ "$(uname -m)" = x86_64 ]; then
    sh tests/archive.sh
fi
sh tests/links.sh
tail -n 1 "$work/said"
