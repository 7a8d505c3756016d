#!/bin/sh
# Measures the gate: gate.sh [--after CRATE]. It runs `rt ci` on a copy of this repository and prints the processor minutes that each
# crate took, by kind: its proof, the proof of its tests, and its must-fail edits.
#
# Without an option nothing that earlier runs kept is used: these are the figures from nothing. `--after CRATE` shows what is done
# again after a change of that crate: its copy has one constant more, so that it is another library, and it and the crates above
# it are done again. What earlier runs of `rt ci` kept of the others is used there, so run `rt ci` before it: else these are done
# too, and stand in the table.
#
# The copy is that of the files as they stand, without what `rt` has made of them. It needs 3 GB in the folder of temporary files
# (TMPDIR), and as long as the gate takes. Ends with the status of `rt ci`, and prints the end of its log where it failed.
top=$(cd "$(dirname "$0")/.." && pwd) || exit 1
after=
case "$#:${1:-}" in
0:) ;;
2:--after) after=$2 ;;
*)
    echo "usage: gate.sh [--after CRATE]" >&2
    exit 2
    ;;
esac

room=$(mktemp -d) || exit 1
trap 'rm -rf "$room"' EXIT
trap 'exit 130' INT TERM
mkdir "$room/copy" || exit 1
(cd "$top" && tar -cf - --exclude=./.git --exclude=out .) | tar -xf - -C "$room/copy" || exit 1
# What earlier runs left beside a crate's files is out of the copy, so `rt` makes all of it anew.
mkdir "$room/copy/.git" || exit 1

anew=--anew
if [ -n "$after" ]; then
    anew=
    root=$room/copy/crates/$after/src/lib.rt
    [ -f "$root" ] || root=$room/copy/crates/$after/src/main.rt
    if [ ! -f "$root" ]; then
        echo "gate.sh: $after is no crate of crates.txt" >&2
        exit 2
    fi
    printf '\n/// The time of this measurement.\npub const MEASURED_AT: u64 = %s;\n' "$(date +%s)" >>"$root"
fi

echo "$(date +%Y-%m-%d), $(getconf _NPROCESSORS_ONLN) processors, $(rt version), ${after:+after a change of }${after:-from nothing}"
# shellcheck disable=SC2086
"$top/bench/processor_time.py" "$room/copy" "$room/log" rt ci $anew
status=$?
if [ $status -ne 0 ]; then
    tail -n 40 "$room/log" >&2
    exit $status
fi
tail -n 2 "$room/log"
