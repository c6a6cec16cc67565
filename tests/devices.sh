#!/usr/bin/env bash
# Runs the built program on inputs and outputs that fail by themselves: full and closed devices, folders, a pipe that
# nobody reads, an input without an end. Each run must end with the promised status and words, or the status is 1.
# usage: tests/devices.sh [PROGRAM]
set -u
root=$(cd "$(dirname "$0")/.." && pwd)
program=${1:-$root/crates/firm/out/firm}
roster=$root/examples/roster.csv
day=$root/examples/commands.txt
folder=$(mktemp -d)
trap 'rm -r "$folder"' EXIT
missed=0

# ends NAME STATUS FAULTS: compares the run before it, whose status is in $? and whose words are in $folder/faults.
ends() {
    local status=$?
    if [ "$status" = "$2" ] && [ "$(cat "$folder/faults")" = "$3" ]; then
        echo "$1: status $status${3:+, $3}"
    else
        echo "MISSED: $1: status $status for $2, '$(cat "$folder/faults")' for '$3'"
        missed=1
    fi
}

serve() {
    "$program" --roster "$roster" 2>"$folder/faults"
}

serve <"$day" >"$folder/replies"
ends "the example day" 0 ""
serve </dev/null >/dev/full
ends "no input, a full device for the output" 0 ""
serve <"$day" >/dev/full
ends "a full device for the output" 5 "firm: write"
serve <"$day" >&-
ends "no output" 5 "firm: write"
serve <&- >/dev/null
ends "no input" 4 "firm: read"
serve <"$folder" >/dev/null
ends "a folder for the input" 4 "firm: read"
serve </dev/zero >/dev/null
ends "an input without an end" 4 "firm: input too long"
(while cat "$day"; do sleep 0.01; done 2>/dev/null) | {
    serve
    echo $? >"$folder/status"
} | head -c 1 >/dev/null
(exit "$(cat "$folder/status")")
ends "a pipe that nobody reads any more" 5 "firm: write"
"$program" --roster "$folder" </dev/null 2>"$folder/faults"
ends "a folder for the roster" 3 "firm: cannot read roster"
"$program" --roster "$folder/none" </dev/null 2>"$folder/faults"
ends "no roster" 3 "firm: cannot read roster"
"$program" --roster /dev/zero </dev/null 2>"$folder/faults"
ends "a roster without an end" 3 "firm: roster fault 2 row"
"$program" --help >/dev/full 2>"$folder/faults"
ends "help to a full device" 5 "firm: write"
"$program" --roster "$roster" <"$day" >/dev/full 2>/dev/full
status=$?
: >"$folder/faults"
(exit $status)
ends "full devices for output and faults" 5 ""
exit $missed
