#!/bin/sh
# What C and Rust programs link, tested: the archive's symbols, the Rust packages, the examples, bad input, lists of acked
# numbers beside the original, the install.
#
#     tests/links.sh         all of it, with the archive that is there
#     tests/links.sh check   only what needs no archive: versions and declarations, and the Rust compiled
#
# The archive is for x86-64; on another machine it does as `check`. What needs python3, cargo or cc is left out where they
# are missing, and it says so; on x86-64 with CI true it ends with 1 instead.
set -eu
cd "$(dirname "$0")/.."
archive=target/staticlib/libguovssalu.a
log=target/links.log
CARGO_TARGET_DIR=$PWD/target/cargo
export CARGO_TARGET_DIR
unset GUOVSSALU_ARCHIVE
machine=$(uname -m)
mkdir -p target

has() {
    command -v "$1" >/dev/null 2>&1
}

left_out() {
    echo "links: $1: left out, since $2"
    if [ "${CI:-}" = true ] && [ "$machine" = x86_64 ]; then
        exit 1
    fi
}

fail() {
    echo "links: $1"
    exit 1
}

# Runs a command and shows what it printed only if it fails.
quietly() {
    "$@" >$log 2>&1 || {
        cat $log
        fail "this failed: $*"
    }
}

# The tests of a package or of a workspace, and how many passed.
tests_of() {
    quietly cargo test --manifest-path "$1/Cargo.toml"
    echo "links: $1: $(awk '/^test result: ok/ { n += $4 } END { print n + 0 }' $log) tests passed"
}

linking=yes
if [ "${1:-}" = check ]; then
    linking=
elif [ "$machine" != x86_64 ]; then
    linking=
    left_out 'all that is run with the archive' "it is for x86-64 and this machine is $machine"
elif ! [ -f $archive ]; then
    fail "there is no $archive; \`make archive\` proves the calls and writes it"
fi

if has python3; then
    python3 tests/versions.py
    if [ -n "$linking" ] && has nm; then
        python3 tests/symbols.py $archive
    else
        python3 tests/symbols.py
        [ -z "$linking" ] || left_out "the archive's symbols" 'there is no nm here'
    fi
else
    left_out 'versions, declarations and symbols' 'there is no python3 here'
fi

# Rust is linked by cc too.
if ! has cc; then
    left_out 'all that is compiled' 'there is no cc here'
    exit 0
fi
if ! has cargo; then
    left_out 'the Rust packages, bad input and the install' 'there is no cargo here'
elif [ -z "$linking" ]; then
    for package in rust hostile; do
        quietly env GUOVSSALU_ARCHIVE= cargo check --all-targets --manifest-path $package/Cargo.toml
    done
    echo 'links: rust and hostile compile'
else
    tests_of rust
    tests_of hostile
    # More calls than the sweep has, so that chance makes some.
    quietly cargo run --release --quiet --manifest-path hostile/Cargo.toml -- 7 700000
    echo "links: bad input: $(tail -n 1 $log)"
    # Lists of acked numbers of any length, beside the original.
    quietly sh tests/diff.sh lists 7 20000
    echo "links: acked numbers in lists: $(tail -n 1 $log)"
    # The round-trip estimator in runs of up to 4,095 calls, beside the original.
    quietly sh tests/diff.sh rtt-runs 7 200000
    echo "links: round trips in long runs: $(tail -n 1 $log)"
fi
[ -n "$linking" ] || exit 0

# The loss episode must print the same from C and from Rust.
episode=$(mktemp -d)
trap 'rm -rf "$episode"' EXIT
for example in loss_episode acked_lists round_trip; do
    cc -std=c99 -pedantic -Wall -Wextra -Werror -o "$episode/$example" include/$example.c $archive
done
"$episode/acked_lists" >"$episode/lists" || fail "the lists of acked numbers in C ended with $?"
echo 'links: a list of acked numbers, in C:'
cat "$episode/lists"
"$episode/round_trip" >"$episode/trip" || fail "the round-trip estimator in C ended with $?"
echo 'links: the round-trip estimator, in C:'
cat "$episode/trip"
"$episode/loss_episode" >"$episode/c" || fail "the loss episode in C ended with $?"
echo 'links: the loss episode:'
cat "$episode/c"
has cargo || exit 0
cargo run --quiet --manifest-path rust/guovssalu/Cargo.toml --example loss_episode >"$episode/rust"
cmp "$episode/c" "$episode/rust" || fail 'the loss episode prints something else from Rust'
sh tests/install.sh
