#!/bin/sh
# Runs generated scripts with threads and holds each report against its script.
#
# bench/stories.sh [N [FIRST]]: N scripts (100 where no number is given), generated from the numbers FIRST, FIRST + 1, ..
# (1 where none is given), of 1 to 64 CPUs and 1 to 512 timers. Each is played by `./tmig run`, and `./tmigstory` judges
# what comes. It prints how many reports could be stories, with how many lines. At the first that can't be one it keeps
# script, report and verdict in a folder, names it, and ends with status 1. Prove both programs first: ./prove tmig and
# ./prove tmigstory.
top=$(cd "$(dirname "$0")/.." && pwd) || exit 1
most=${1:-100}
first=${2:-1}
case $most$first in
*[!0-9]*)
    echo "usage: bench/stories.sh [N [FIRST]]" >&2
    exit 2
    ;;
esac
made=$(mktemp -d) || exit 1
trap 'rm -rf "$made"; exit 1' HUP INT TERM

# Tells what went wrong, and where its files are.
give_up() {
    echo "stories: script $number: $1; its files are in $made"
    exit 1
}

number=$first
lines=0
while [ "$number" -lt $((first + most)) ]; do
    cpus=$((1 + number * 7 % 64))
    timers=$((1 + number * 37 % 512))
    moments=$((1 + number * 11 % 200))
    "$top/tmig" generate "$number" "$cpus" "$timers" "$moments" >"$made/script" 2>"$made/said" ||
        give_up "it can't be generated"
    "$top/tmig" run <"$made/script" >"$made/report" 2>"$made/said" || give_up "run ends with status $?"
    cat "$made/script" "$made/report" | "$top/tmigstory" >"$made/verdict" 2>"$made/said"
    status=$?
    [ "$status" = 0 ] || give_up "tmigstory ends with status $status: $(cat "$made/verdict")"
    lines=$((lines + $(wc -l <"$made/report")))
    number=$((number + 1))
done
rm -rf "$made"
echo "stories: $most of $most reports can be stories, with $lines lines"
