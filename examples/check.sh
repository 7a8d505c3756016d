#!/bin/sh
# Runs the program on each sample trace and compares what it writes with the journal beside the trace, and its text on
# standard error with NAME.error (none where that file isn't there). Then check_docs.py runs the commands of README and docs and
# compares their excerpts. Ends with status 1 and the name at the first difference.
#
# AM32SIM, AM32TRACE, AM32CSV and AM32WAVE name other programs than the repository's own. Of these an unproved one says so on
# standard error; that line is no part of a sample.
here=$(cd "$(dirname "$0")" && pwd) || exit 1
program=${AM32SIM:-$("$here/../am32sim" path)} || exit 1
work=$(mktemp -d) || exit 1
trap 'rm -rf "$work"' EXIT
count=0
for trace in "$here"/*.trace; do
    sample=${trace%.trace}
    name=$(basename "$sample")
    error=$sample.error
    expected=1
    if [ ! -f "$error" ]; then
        error=/dev/null
        expected=0
    fi
    # The options stand in NAME.options, words between spaces.
    # shellcheck disable=SC2046
    "$program" run $(cat "$sample.options" 2>/dev/null) <"$trace" >"$work/journal" 2>"$work/said"
    status=$?
    sed '/^am32sim: .*unproved/d' "$work/said" >"$work/error"
    if [ "$status" -ne "$expected" ] || ! cmp -s "$work/journal" "$sample.journal" ||
        ! cmp -s "$work/error" "$error"; then
        echo "$name: differs (status $status)" >&2
        diff "$sample.journal" "$work/journal" | head -n 10 >&2
        exit 1
    fi
    count=$((count + 1))
done
echo "$count samples as expected"

exec "$here/check_docs.py"
