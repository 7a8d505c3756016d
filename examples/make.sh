#!/bin/sh
# Writes the sample traces beside this script, and with the argument "journals" also what the program writes for them.
#
#   make.sh             the traces
#   make.sh journals    the traces, then NAME.journal (standard output) for each, and NAME.error (standard error) where
#                       the program refuses the trace
#
# Most samples are scripts, NAME.script, of which am32trace makes the traces (docs/SCRIPT.md). The few that a script can't
# say are made here. NAME.options, where it is there, has the options of that run.
#
# Times are in ticks of 48 MHz. AM32SIM and AM32TRACE name other programs than the repository's own.
here=$(cd "$(dirname "$0")" && pwd) || exit 1
program=${AM32SIM:-$("$here/../am32sim" path)} || exit 1
writer=${AM32TRACE:-$("$here/../am32trace" path)} || exit 1

for script in "$here"/*.script; do
    "$writer" <"$script" >"${script%.script}.trace" || exit 1
done

# What each other sample is made of. A line level is written by edge(), where its tick is 0 or more: so a signal that begins
# earlier is joined in its middle. A whole DShot600 frame is written by frame():
#   start   the tick of its first edge
#   value   0 to 2047
#   low     1 where the frame is inverted: a bit begins by falling, the checksum is complemented
#   spacing the ticks from bit to bit, 80 in a frame that is right
sample() {
    awk '
    function xor4(a, b,   r, w) {
        r = 0
        for (w = 1; w < 16; w *= 2)
            if (int(a / w) % 2 != int(b / w) % 2) r += w
        return r
    }
    function edge(t, level) { if (t >= 0) print t " E " level }
    function frame(start, value, low, spacing,   upper, sum, word, i, t) {
        upper = value * 2
        sum = xor4(xor4(upper % 16, int(upper / 16) % 16), int(upper / 256) % 16)
        if (low) sum = 15 - sum
        word = upper * 16 + sum
        for (i = 0; i < 16; i++) {
            t = start + i * spacing
            edge(t, 1 - low)
            edge(t + (int(word / 2 ^ (15 - i)) % 2 ? 60 : 30), low)
        }
    }
    function good(start, value) { frame(start, value, 0, 80) }
    # A first frame that tells the mode, then 30 frames of value 0, one every 4000 ticks; they end before tick 130000.
    function zeros(   i) { for (i = 0; i <= 30; i++) good(1000 + i * 4000, 0) }
    function stall(t, n) { print t " J " n }
    function comparator(t, level) { print t " C " level }
    function end(t) { print t " END" }
    BEGIN { '"$(cat)"' }' >"$here/$1.trace"
}

# The line goes high before the next window opens, so a frame of the other polarity begins with a falling edge.
sample wrong_polarity <<'EOF'
    good(1000, 0); edge(2270, 1); frame(5000, 700, 1, 80); edge(6300, 0); good(9000, 701); end(13000)
EOF

# Bits 95 ticks apart instead of 80: the frame takes too long.
sample too_slow <<'EOF'
    good(1000, 0); frame(5000, 700, 0, 95); good(9000, 701); end(13000)
EOF

# DShot600 every 114 us, switched on in the middle of a frame: the part of it that is heard isn't detected, and the window
# after it opens when the line has rested, so between two frames.
sample dshot600_from_the_middle <<'EOF'
    for (i = 0; i < 10; i++) good(i * 5472 - 610, 0)
    end(50000)
EOF

# Edges that no mode makes sense of: nothing is detected, and a window opens again after each pause.
sample noise <<'EOF'
    for (i = 0; i < 70; i++) edge(1000 + i * 211 + i * i % 37 * 3, 1 - i % 2)
    end(30000)
EOF

# Armed as above. Throttle starts the drive, and the comparator changes in the middle of each sector: the crossings come
# closer, so do the sectors, and none is forced.
sample spin_up <<'EOF'
    zeros(); stall(130000, 11900000); good(12040000, 1000)
    t = 12055000; gap = 19200
    for (i = 1; i <= 8; i++) { comparator(t, i % 2); t += int(gap); gap = gap * 19 / 20 }
    end(12175000)
EOF

# Armed and started as above. While blanking lasts the comparator chatters, and nobody looks. Behind it stand a spike of 10
# ticks, and then changes 9 to 19 ticks apart: no filter is accepted before the level has stood for 24 ticks.
sample comparator_noise <<'EOF'
    zeros(); stall(130000, 11900000); good(12040000, 1000)
    for (i = 0; i < 20; i++) comparator(12044000 + i * 250 + i * i % 37, 1 - i % 2)
    comparator(12051000, 1); comparator(12051010, 0)
    t = 12053000
    for (i = 0; i < 41; i++) { comparator(t, 1 - i % 2); t += 9 + i * 5 % 15 }
    end(12064000)
EOF

# Armed and started as above. The comparator is at the level that isn't expected, so each later sector is forced, 5 ms after
# the one before. Stalls keep the journal short.
sample first_sectors <<'EOF'
    zeros(); stall(130000, 11900000); good(12040000, 1000)
    stall(12050000, 230000); comparator(12284000, 1); stall(12290000, 230000); end(12526000)
EOF

# The same without an end: the 60th forced sector in a row sets the stuck mark, and the next control tick loses control.
# All switches are off when it returns. The comparator changes just behind each sector's start, to the level that isn't
# expected.
sample stuck <<'EOF'
    zeros(); stall(130000, 11900000); good(12040000, 1000)
    for (i = 0; i <= 60; i++) { stall(12044000 + i * 240100, 240050); comparator(12284090 + i * 240100, 1 - i % 2) }
    end(26698000)
EOF

# The stalls end so that PWM is entered just before the next sector is due: 2 ticks before the first one, so that COMM
# enters before PWM has raised the mask, and 8 ticks before the second one, so that it waits for the mask to fall. The
# comparator is at the level that isn't expected.
sample comm_enters_pwm <<'EOF'
    zeros(); stall(130000, 11900000); good(12040000, 1000)
    stall(12050000, 233218); comparator(12284000, 1); stall(12290000, 233220); end(12526000)
EOF

# A trace whose second frame has an impossible level: the journal ends before it.
sample refused <<'EOF'
    good(1000, 0); good(5000, 48); print "9000 E 2"; end(12000)
EOF

[ "${1:-}" = journals ] || exit 0
for trace in "$here"/*.trace; do
    name=${trace%.trace}
    # The options stand in NAME.options, words between spaces.
    # shellcheck disable=SC2046
    "$program" run $(cat "$name.options" 2>/dev/null) <"$trace" >"$name.journal" 2>"$name.error"
    [ -s "$name.error" ] || rm "$name.error"
done
