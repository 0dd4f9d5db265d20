#!/bin/sh
# Mends one trace: of NAME.csv the mended trace goes to NAME.mended.csv and the list of the lines that were dropped to
# NAME.list.csv, beside it or in the folder OUT, which is made. What the program says goes to standard error as it comes,
# and at the end the names of both files.
#
#     tests/mend.sh TRACE [OUT]
#
# Neither of the two may be there before. Both are written in a hidden folder beside their place, and put there when all
# is whole: the program's summary came last, it ended with 0, and the list has its header. Otherwise neither is left, and
# this ends with 1. The trace is only read.
#
# The variable PORT, where it is set, is the command that mends, seen from the root of the repository.
set -eu
fail() {
    printf '%s\n' "$1" >&2
    exit 1
}
[ $# = 1 ] || [ $# = 2 ] && [ -n "$1" ] || fail "mend: name a trace, and a folder if what is made of it goes elsewhere"
[ ! -d "$1" ] || fail "$1 is a folder: name one trace."
[ -f "$1" ] || fail "There is no file $1."
exec <"$1"

name=${1##*/}
folder=${1%"$name"}
if [ -n "${2:-}" ]; then
    mkdir -p -- "$2"
    folder=${2%/}/
fi
case $name in
*.[cC][sS][vV]) name=${name%.*} ;;
esac
mended=$folder$name.mended.csv
list=$folder$name.list.csv
is_there() {
    [ -e "$1" ] || [ -L "$1" ]
}
for file in "$mended" "$list"; do
    ! is_there "$file" || fail "$file is there already, and nothing was done. Move it away, or name a folder: OUT=folder"
done

work=
placing=
# A list stays only where the mended trace has its place too.
ended() {
    [ -n "$work" ] || return 0
    [ -z "$placing" ] || is_there "$work/list" || ! is_there "$work/mended" || rm -f -- "$list"
    rm -rf -- "$work"
}
trap ended EXIT
trap 'exit 129' HUP
trap 'exit 130' INT
trap 'exit 143' TERM
work=$(mktemp -d -- "$folder.mend.XXXXXX" 2>/dev/null) || fail "Nothing can be written in the folder ${folder:-.}: name another, OUT=folder"
case $work in
/*) ;;
*) work=$PWD/$work ;;
esac
root=$(dirname "$0")/..
program=${PORT:-$(sh "$root/tests/program.sh" mend)}

# What the program says goes through the pipe, and its last three lines are kept. What a shell says of a signal that ends
# it goes nowhere.
{
    status=0
    (cd "$root" && exec $program "$work/list") 2>&1 >"$work/mended" || status=$?
    echo "$status" >"$work/status"
} 2>/dev/null | {
    first=
    second=
    last=
    while IFS= read -r line || [ -n "$line" ]; do
        printf '%s\n' "$line" >&2 || true
        first=$second second=$last last=$line
    done
    case $first,$second,$last in
    "lines: "*",kept: "*",listed: "*) exit 0 ;;
    esac
    case $last in
    6) fail "The header is wrong or missing: nothing was mended." ;;
    "" | *" lines") fail "the program ended without a summary" ;;
    esac
    exit 1
}
status=$(cat "$work/status")
[ "$status" = 0 ] || fail "the program ended with $status"
cr=$(printf '\r')
{ IFS= read -r header && [ "$header" = "line,field$cr" ]; } 2>/dev/null <"$work/list" || fail "the list is not whole"

# Another's file is never replaced: then ours stays where it was, and is dropped.
placing=yes
mv -n -- "$work/list" "$list"
! is_there "$work/list" || fail "$list has come up meanwhile: nothing was mended."
mv -n -- "$work/mended" "$mended"
! is_there "$work/mended" || fail "$mended has come up meanwhile: nothing was mended."
printf '%s\n' "the mended trace: $mended" "the lines that were dropped: $list" >&2 || true
