#!/usr/bin/env bash
# Runs the built program under a checker of valgrind: on the example day, on random small streams, and on a day of
# rounds for 100 tasks. A finding, or an output that differs, gives a status that is not 0.
# usage: tests/valgrind.sh [PROGRAM] [TOOL] [WORKERS]
# TOOL is memcheck (reads of unwritten memory, leaks) or, for threads, helgrind or drd.
set -eu -o pipefail
here=$(cd "$(dirname "$0")" && pwd)
program=${1:-$here/../crates/firm/out/firm}
tool=${2:-memcheck}
workers=${3:-}
under="valgrind -q --tool=$tool --error-exitcode=99"
[ "$tool" != memcheck ] || under="$under --leak-check=full --show-leak-kinds=all --errors-for-leak-kinds=all"
folder=$(mktemp -d)
trap 'rm -r "$folder"' EXIT

# same ROSTER COMMANDS NAME: the output under the checker is the program's own.
same() {
    # shellcheck disable=SC2086
    $under "$program" ${workers:+--workers "$workers"} --roster "$1" <"$2" >"$folder/checked"
    "$program" --roster "$1" <"$2" >"$folder/plain"
    cmp "$folder/checked" "$folder/plain"
    echo "$tool, $3: nothing found, equal output"
}

same "$here/../examples/roster.csv" "$here/../examples/commands.txt" "the example day"
(cd "$here" && python3 -m harness.kinds steady 100 20 "$folder/steady")
same "$folder/steady.csv" "$folder/steady.txt" "rounds of 100 tasks"
"$here/../tools/run" "$here/compare.py" --program "$program" --under "$under" ${workers:+--workers "$workers"} \
    --streams 60 --rosters 20
