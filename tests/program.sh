#!/bin/sh
# Prints the command that runs a program of this repository from its root, where tests/build.sh or `rt ci` leaves it. The
# kit builds for x86-64: elsewhere there is none, and this ends with 1.
#
#     tests/program.sh NAME
set -eu
machine=$(uname -m)
if [ "$machine" != x86_64 ]; then
    echo "program: the kit builds programs for x86-64, and this machine is $machine" >&2
    exit 1
fi
echo "crates/$1/out/$1"
