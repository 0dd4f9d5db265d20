#!/bin/sh
# Proves and builds the archive of the exported calls, and puts it to target/staticlib/libguovssalu.a: `rt lib` in
# crates/guovssalu_c. Only on x86-64.
set -eu
cd "$(dirname "$0")/.."
machine=$(uname -m)
[ "$machine" = x86_64 ] || {
    echo "The archive is for x86-64, and this machine is $machine: nothing that links it can be run here."
    exit 1
}
(cd crates/guovssalu_c && rt lib)
mkdir -p target/staticlib
cp crates/guovssalu_c/out/libguovssalu_c.a target/staticlib/libguovssalu.a
echo "archive: target/staticlib/libguovssalu.a"
