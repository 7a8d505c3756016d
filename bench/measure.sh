#!/bin/sh
# Measures the built program: measure.sh [N]. Four traces are used (see trace.sh): DShot600 frames of a tenth of N
# lines (default 1000000) and of N lines, N comparator lines, and the idle core. For each: lines a second, core steps a
# second, the peak memory (which isn't to grow with the trace), and how many times as long as "wc -l" on the same file it
# takes. Where valgrind is there, also the instructions of one more run: all of them, and that number for each trace line,
# each core step and each journal line. They are the same on a busy machine and on a quiet one.
#
# A core step is one step of a handler or the entry of one. They are counted from the journal: these traces have no
# stall and no handler is interrupted, so an activation from tick a to tick b has a step at a and then one every 2
# ticks. Times are the mean of 5 runs of the program and of 20 runs of wc, with the start of each process in them; the
# journal goes to a file. The memory is that of one more run.
#
# Needs GNU time in /usr/bin/time, and valgrind for the instructions (apt-get install valgrind). AM32SIM names another
# program than the repository's own.
top=$(cd "$(dirname "$0")/.." && pwd) || exit 1
lines=${1:-1000000}
program=$AM32SIM
if [ -z "$program" ]; then
    "$top/am32sim" prove || exit 1
    program=$("$top/am32sim" path) || exit 1
fi
work=$(mktemp -d) || exit 1
trap 'rm -rf "$work"' EXIT

# Runs a command N times on the trace; the seconds of them all go to a file.
timed() {
    file=$1
    runs=$2
    shift 2
    /usr/bin/time -f %e -o "$file" sh -c 'trace=$1; journal=$2; runs=$3; shift 3
        while [ "$runs" -gt 0 ]; do
            "$@" <"$trace" >"$journal" || exit 1
            runs=$((runs - 1))
        done' sh "$work/trace" "$work/journal" "$runs" "$@"
}

# The instructions of one run, 0 where there is no valgrind.
instructions() {
    command -v valgrind >/dev/null || { echo 0; return; }
    valgrind --tool=callgrind --callgrind-out-file="$work/callgrind" "$program" run <"$work/trace" 2>&1 >/dev/null |
        awk '/Collected/ { print $NF }'
}

measure() {
    "$top/bench/trace.sh" "$1" "$2" >"$work/trace"
    timed "$work/wc" 20 wc -l || exit 1
    timed "$work/time" 5 "$program" run || exit 1
    /usr/bin/time -f %M -o "$work/memory" "$program" run <"$work/trace" >"$work/journal" || exit 1
    read -r counted <"$work/wc"
    read -r seconds <"$work/time"
    read -r kilobytes <"$work/memory"
    counted_instructions=$(instructions)
    awk -v kind="$2" -v lines="$(wc -l <"$work/trace")" -v s="$seconds" -v kb="$kilobytes" -v wc="$counted" -v ir="$counted_instructions" '
        $1 == "I" { entered = $2; steps++ }
        $1 == "O" { steps += ($2 - entered) / 2 }
        END {
            s = (s > 0 ? s : 0.01) / 5
            wc = (wc > 0 ? wc : 0.01) / 20
            printf "%s: %d lines in, %d lines out, %.3f s, %.0f lines a second\n", kind, lines, NR, s, lines / s
            printf "    %d core steps, %.0f a second, %d KB at most, %.0f times as long as wc -l (%.4f s)\n",
                steps, steps / s, kb, s / wc, wc
            if (ir > 0)
                printf "    %.1f million instructions: %.0f a trace line, %.0f a core step, %.0f a journal line\n",
                    ir / 1000000, ir / lines, (steps ? ir / steps : 0), ir / NR
        }' "$work/journal"
}

measure $((lines / 10)) frames
measure "$lines" frames
measure "$lines" comparator
measure "$lines" idle
command -v valgrind >/dev/null || echo "no valgrind, so no instructions were counted: apt-get install valgrind"
