#!/bin/sh
# Holds what is written to the source, each by a script of its own: what has numbers of calls, places of words and sizes
# to docs/calls.txt (table.py), and what is said of every reply too (refusal_test.py); docs/CONTRACTS.md, and the paths
# that the pages name (contracts.py); the pages of definitions to 120 characters a line (widths.py); the modules of the
# Rust packages to needing none that needs them back (circles.py); the header and the Rust declarations to each other
# (symbols.py; tests/links.sh holds them to the archive); and the converter of qlogs to what its page says (qlog_test.py).
# Without Python it says so and goes on, but not where CI is true.
set -eu
cd "$(dirname "$0")/.."
if ! command -v python3 >/dev/null 2>&1; then
    echo "table, refusals, contracts, widths, circles, declarations, qlog: not held against the source: no python3 here"
    [ "${CI:-}" != true ]
    exit
fi
python3 tests/table.py
python3 tests/refusal_test.py
python3 tests/contracts.py
python3 tests/widths.py
python3 tests/circles.py
python3 tests/symbols.py
python3 tests/qlog_test.py
