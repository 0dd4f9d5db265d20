#!/bin/sh
# Replays one trace: the rows go to standard output, and what the program says to standard error as it comes. The program
# itself ends with 0, whatever failed: so this ends with 1 where the summary's last line is missing.
#
#     tests/replay.sh TRACE
#
# The variable PORT, where it is set, is the command that replays, seen from the root of the repository.
set -eu
fail() {
    echo "$1" >&2
    exit 1
}
[ $# = 1 ] && [ -n "$1" ] || fail "replay: name a trace"
[ ! -d "$1" ] || fail "$1 is a folder: TRACES=$1 replays every trace in it."
[ -f "$1" ] || fail "There is no file $1."
exec <"$1"
cd "$(dirname "$0")/.."
program=${PORT:-$(sh tests/program.sh replay)}

# The rows go past the pipe, by 3.
{
    $program 2>&1 >&3 3>&- | {
        last=
        while IFS= read -r line || [ -n "$line" ]; do
            printf '%s\n' "$line" >&2
            last=$line
        done
        case $last in
        "lowest lo: "*) exit 0 ;;
        "" | *" lines") echo "the program ended without a summary" >&2 ;;
        esac
        exit 1
    }
} 3>&1
