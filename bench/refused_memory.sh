#!/bin/sh
# Refuses the program tmig its memory, one allocation at a time: runs each of some words as often as it asks for memory,
# with the first allocation refused, then with the second alone, and so on; and as often with all from that one on.
# Each run has to end as the one that is refused nothing, or with status 5 and a front of that one's output, which may
# be nothing. Then `run` is refused each thread, and has to end as with them.
#
# `bench/refused_memory.sh` writes the table that stands in bench/refused_memory.txt, and ends with status 1 where a
# run ended otherwise. It wants cc and the program (./prove tmig); another program may be named. It is no part of the
# gate: what refuses is a library that is preloaded, for a C library whose malloc is also called __libc_malloc.
here=$(cd "$(dirname "$0")" && pwd) || exit 1
program=${1:-$here/../crates/tmig/out/tmig}
[ -x "$program" ] || { echo "refused_memory: $program isn't built" >&2; exit 1; }
room=$(mktemp -d) || exit 1
trap 'rm -rf "$room"' EXIT
${CC:-cc} -O2 -shared -fPIC -o "$room/refuse.so" "$here/refuse.c" -ldl || exit 1
failed=0

# Runs the program with a setting of what is refused; the output is in out.
refusing() {
    setting=$1
    shift
    env "$setting" COUNTED="$room/count" LD_PRELOAD="$room/refuse.so" "$program" "$@" <"$room/input" >"$room/out"
}

# How a run ended: same, nothing, front or wrong.
ending() {
    if [ "$1" = "$wanted" ] && cmp -s "$room/out" "$room/whole"; then
        echo same
    elif [ "$1" != 5 ]; then
        echo wrong
    elif [ ! -s "$room/out" ]; then
        echo nothing
    elif [ "$(cmp "$room/out" "$room/whole" 2>&1 | grep -c EOF)" = 1 ]; then
        echo front
    else
        echo wrong
    fi
}

# All runs of some words, with the input that is named: one line of the table.
sweep() {
    input=$1
    shift
    if [ "$input" = - ]; then : >"$room/input"; else cp "$here/../examples/$input" "$room/input"; fi
    rm -f "$room/count"
    refusing REFUSED=0 "$@"
    wanted=$?
    [ -s "$room/count" ] || { echo "refused_memory: $*: the allocations weren't counted" >&2; exit 1; }
    cp "$room/out" "$room/whole"
    read -r count threads <"$room/count"
    for kind in REFUSED REFUSED_FROM; do
        same=0 nothing=0 front=0 wrong=0 n=1
        while [ "$n" -le "$count" ]; do
            refusing "$kind=$n" "$@"
            how=$(ending $?)
            eval "$how=\$(($how + 1))"
            if [ "$how" = wrong ]; then
                echo "refused_memory: $* with $kind=$n: $(head -c 60 "$room/out")" >&2
                failed=1
            fi
            n=$((n + 1))
        done
        which=one
        [ "$kind" = REFUSED_FROM ] && which=rest
        printf '%-18s %-24s %6s %-5s %8s %6s %6s %6s\n' "$*" "$input" "$count" "$which" \
            "$nothing" "$front" "$same" "$wrong"
    done
    [ "$threads" = 0 ] && return
    refusing UNTHREADED=1 "$@"
    how=$(ending $?)
    printf '%-18s %-24s %6s threads, each refused: %s\n' "$*" "$input" "$threads" "$how"
    [ "$how" = same ] || failed=1
}

printf '%-18s %-24s %6s %-5s %8s %6s %6s %6s\n' words input asked how nothing front same wrong
sweep one-timer.tmig play
sweep two-sleepers.tmig play
sweep hotplug-with-a-duty.tmig play
sweep no-script.tmig play
sweep one-timer.tmig run
sweep two-sleepers.tmig run
sweep two-levels.tmig tree
sweep two-sleepers.tmig deep
sweep delayed-works.works works
sweep one-walk.steps check
sweep - generate 1 4 8 10
sweep - day 1 4 8 10
sweep - generate 1 0 8 10

# The calls of the library, which a program makes again where memory was wanting: `cd crates/refused_calls && rt run`
# builds it. It ends with status 0 where the calls left what they should.
calls=$here/../crates/refused_calls/out/refused_calls
if [ -x "$calls" ]; then
    program=$calls
    sweep - refused_calls
fi
exit "$failed"
