#!/bin/sh
# Installs into a temporary folder, then builds and runs programs in another, outside the repository: two C examples by the
# flags of the pkg-config file, and a Rust program that depends on rust/guovssalu by its path. The loss episode, in C and in
# Rust, must print 910, 637 and 445, and the round trips a smoothed one of 80625000 ns. Needs the archive, cc and cargo;
# without pkg-config the flags are read from its file.
set -eu
cd "$(dirname "$0")/.."
root=$PWD
unset GUOVSSALU_ARCHIVE
made=$(mktemp -d)
trap 'rm -rf "$made"' EXIT
fail() {
    echo "install: $1"
    exit 1
}

# What is installed, and nothing else; first staged below DESTDIR for another prefix.
files='./include/guovssalu.h
./lib/libguovssalu.a
./lib/pkgconfig/guovssalu.pc'
installed() {
    [ "$(cd "$1" && find . -type f | LC_ALL=C sort)" = "$files" ] || fail "other files than those in $1: $(find "$1" -type f)"
    python3 tests/versions.py "$1/lib/pkgconfig/guovssalu.pc" >"$made/log" 2>&1 || fail "$(cat "$made/log")"
    grep -qx "prefix=$2" "$1/lib/pkgconfig/guovssalu.pc" || fail "the pkg-config file has another prefix than $2"
}
make -s install DESTDIR="$made/stage" PREFIX=/usr/local
installed "$made/stage/usr/local" /usr/local
prefix=$made/prefix
make -s install DESTDIR= PREFIX="$prefix"
installed "$prefix" "$prefix"

# The flags to compile and to link.
flags() {
    if command -v pkg-config >/dev/null 2>&1; then
        PKG_CONFIG_PATH=$prefix/lib/pkgconfig pkg-config --cflags --libs guovssalu
    else
        sed -n -e "s|\${prefix}|$prefix|" -e "s|\${includedir}|$prefix/include|" -e "s|\${libdir}|$prefix/lib|" \
            -e 's/^Cflags: //p' -e 's/^Libs: //p' "$prefix/lib/pkgconfig/guovssalu.pc"
    fi
}

# The last word of each line that has a number, which is what the episode prints.
is_episode() {
    [ "$(sed -n 's/.*[^0-9]\([0-9][0-9]*\)$/\1/p' "$2" | tr '\n' ' ')" = '910 637 445 ' ] || {
        cat "$2"
        fail "$1 doesn't print 910, 637 and 445"
    }
}

mkdir "$made/c"
cd "$made/c"
for example in loss_episode round_trip; do
    cp "$root/include/$example.c" .
    # The flags are words of their own.
    # shellcheck disable=SC2046
    cc -std=c99 -Wall -Wextra -Werror -o $example $example.c $(flags)
    ./$example >$example.out || fail "the C program $example ended with $?"
done
is_episode 'the C program' loss_episode.out
[ "$(tail -n 1 round_trip.out)" = 'smoothed_rtt stays 80625000' ] || {
    cat round_trip.out
    fail "the C program round_trip doesn't end with a smoothed_rtt of 80625000"
}

mkdir -p "$made/rust/src"
cd "$made/rust"
cat >Cargo.toml <<EOF
[package]
name = "outside"
version = "0.0.0"
edition = "2021"

[dependencies]
guovssalu = { path = "$root/rust/guovssalu" }
EOF
cat >src/main.rs <<'EOF'
fn main() {
    let cut = |n: &u64| Some(guovssalu::scale(*n, 1.0 - 0.3));
    std::iter::successors(cut(&1300), cut).take(3).for_each(|n| println!("inflight_lo {n}"));
}
EOF
CARGO_TARGET_DIR=$made/rust/target
export CARGO_TARGET_DIR
cargo run --quiet >out || fail "the Rust program ended with $?"
is_episode 'the Rust program' out
GUOVSSALU_ARCHIVE=$prefix/lib/libguovssalu.a cargo run --quiet >out || fail "the Rust program ended with $?"
is_episode 'the Rust program with the installed archive' out
echo "install: a C and a Rust program, built outside the repository, print 910, 637, 445; another in C 80625000"
