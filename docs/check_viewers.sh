#!/bin/sh
# Checks that viewers read the waves of am32wave as they are meant: sigrok-cli, which reads as PulseView does, and the converters of
# GTKWave (vcd2fst, fst2vcd). It is no part of the gate.
#
#   docs/check_viewers.sh [SAMPLE..]     names of samples in examples/; a few where none is named
#
# Each edge that a viewer has read of a gate, of a handler, of the sector's and the demand's bits, of the signal line and of the
# comparator is compared with what the journal and the trace say: the same wire, the same tick, the same level, and no others. Of
# two changes of one wire in one tick only the later one counts.
#
# On Debian: apt-get install sigrok-cli gtkwave. sigrok-cli takes each step of the time scale as a sample, so a wave of a quarter of
# a second takes it some seconds. AM32WAVE names another program than the repository's own.
here=$(cd "$(dirname "$0")" && pwd) || exit 1
examples=$here/../examples
writer=${AM32WAVE:-$here/../am32wave}
[ $# -gt 0 ] || set -- nested dshot300_inverted first_sectors spin_up
for tool in sigrok-cli vcd2fst fst2vcd; do
    if ! command -v "$tool" >/dev/null; then
        echo "$tool isn't on the path: apt-get install sigrok-cli gtkwave" >&2
        exit 1
    fi
done
work=$(mktemp -d) || exit 1
trap 'rm -rf "$work"' EXIT

# Of lines "WIRE TICK LEVEL" in the order of time those at which a wire's level is another one than before, one for each tick. All
# wires are low at the start.
changes() {
    awk '
    function settle(wire) {
        if (level[wire] + 0 != last[wire] + 0) print wire, tick[wire], level[wire]
        last[wire] = level[wire]
    }
    { if (tick[$1] != $2) settle($1); tick[$1] = $2; level[$1] = $3 }
    END { for (wire in level) settle(wire) }' | sort -k1,1 -k2,2n
}

# What a sample says, its events before its notes where both have one tick. The wires of several bits are those named here.
said() {
    sort -n -s -k1,1 "$1.trace" | awk '$2 == "E" || $2 == "C" { print $1, 0, $2, $3 }' >"$work/events"
    awk '{ letter = $1; $1 = $2; $2 = 1 " " letter; print }' "$1.journal" >"$work/notes"
    sort -n -s -k1,1 -k2,2 "$work/events" "$work/notes" | awk '
    function bits(name, tick, value, count,   at) {
        for (at = 0; at < count; at++) {
            print name "." at, tick, value % 2
            value = int(value / 2)
        }
    }
    BEGIN { split("main uart tick cap cmp pwm comm", handler, " ") }
    $3 == "E" { print "signal_line", $1, $4 }
    $3 == "C" { print "comparator", $1, $4 }
    $3 == "I" || $3 == "O" { print "handler_" handler[$4 + 1], $1, ($3 == "I") }
    $3 == "Q" { bits("sector", $1, $4, 3) }
    $3 == "K" { bits("demand", $1, $6, 11) }
    $3 == "G" {
        for (leg = 0; leg < 3; leg++) {
            print "high_" substr("abc", leg + 1, 1), $1, int($4 / 2 ^ leg) % 2
            print "low_" substr("abc", leg + 1, 1), $1, int($5 / 2 ^ leg) % 2
        }
    }' | changes
}

# The wires that are compared, as the dump names them.
compared='^(high|low)_[abc]$|^handler_|^(sector|demand)[_[.]?[0-9]+\\]?$|^(signal_line|comparator)$'

# What stands in a dump that a viewer has written. A stamp is rounded to its unit, which is less than a tick, so it tells its tick.
read_back() {
    awk -v compared="$compared" '
    BEGIN { unit["ps"] = 1; unit["ns"] = 1000; unit["us"] = 1000000 }
    # The scale may stand on lines of its own.
    /\$timescale/ { seeks = 1 }
    seeks {
        for (i = 1; i <= NF; i++)
            if (match($i, /^[0-9]+/)) {
                count = substr($i, 1, RLENGTH)
                of = substr($i, RLENGTH + 1)
                scale = count * unit[of == "" ? $(i + 1) : of]
            }
        if (/\$end/) seeks = 0
        next
    }
    $1 == "$var" {
        if ($5 ~ compared) {
            name = $5
            if (name ~ /^(sector|demand)/) {
                digits = name
                gsub(/[^0-9]/, "", digits)
                name = substr(name, 1, 6) "." digits
            }
            wire[$4] = name
        }
        next
    }
    # sigrok writes the changes behind their stamp, others each on a line.
    /^[#01]/ {
        for (i = 1; i <= NF; i++)
            if ($i ~ /^#[0-9]/) tick = int((substr($i, 2) * scale + scale / 2) * 3 / 62500 + 0.5)
            else if (substr($i, 2) in wire) print wire[substr($i, 2)], tick, substr($i, 1, 1)
    }' "$1" | changes
}

# A dump without the wires that aren't compared.
fewer() {
    awk -v compared="$compared" '
    $1 == "$var" { if ($5 ~ compared) { kept[$4]; print } next }
    /^[01]/ { if (substr($1, 2) in kept) print; next }
    { print }'
}

compare() {
    read_back "$3" >"$work/read"
    if ! cmp -s "$work/said" "$work/read"; then
        echo "$1: $2 reads other edges (<: journal and trace, >: $2)" >&2
        diff "$work/said" "$work/read" | head -n 10 >&2
        exit 1
    fi
}

for name in "$@"; do
    sample=$examples/$name
    said "$sample" >"$work/said"
    "$writer" --bits --trace "$sample.trace" <"$sample.journal" >"$work/wave.vcd" || exit 1
    vcd2fst "$work/wave.vcd" "$work/wave.fst" >/dev/null && fst2vcd "$work/wave.fst" >"$work/gtkwave.vcd" || exit 1
    compare "$name" GTKWave "$work/gtkwave.vcd"
    # sigrok-cli knows all wires, and writes a dump of at most 94: so it gets those that are compared.
    wires=$(grep -c '^[$]var' "$work/wave.vcd")
    channels=$(sigrok-cli -i "$work/wave.vcd" -I vcd --show | awk '$1 == "Channels:" { print $2 }')
    if [ "$wires" -ne "${channels:-0}" ]; then
        echo "$name: sigrok sees ${channels:-no} wires of $wires" >&2
        exit 1
    fi
    fewer <"$work/wave.vcd" >"$work/fewer.vcd"
    sigrok-cli -i "$work/fewer.vcd" -I vcd -O vcd >"$work/sigrok.vcd" || exit 1
    # It takes no sample at the last stamp.
    last=$(sort -n -k2,2 "$work/said" | awk 'END { print $2 }')
    awk -v last="$last" '$2 < last' "$work/said" >"$work/earlier" && mv "$work/earlier" "$work/said"
    compare "$name" sigrok "$work/sigrok.vcd"
    echo "$name: $(wc -l <"$work/said") edges of $(grep -c '^[$]var' "$work/fewer.vcd") wires as they are, in GTKWave and in sigrok"
done
