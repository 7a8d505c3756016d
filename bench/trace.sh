#!/bin/sh
# Writes a trace for measuring: trace.sh [N] [KIND], with N lines (default 1000000) beside the last one.
#
#   frames      DShot600 frames of 32 edges, one every 4000 ticks (N is rounded down to whole frames): first 3100 with
#               value 0, which arm the controller, then values through the throttle range, which drive the motor: so in a
#               tenth of the default N lines it isn't driven, and in the others it is
#   comparator  comparator changes, one every 24 ticks, with no frame and no drive: almost nothing but reading
#   idle        the last line alone, 1074 ticks for each of N, at most at tick 1073741824: the core's own steps and the journal
lines=${1:-1000000}
kind=${2:-frames}
awk -v lines="$lines" -v kind="$kind" '
function xor4(a, b,   r, w) {
    r = 0
    for (w = 1; w < 16; w *= 2)
        if (int(a / w) % 2 != int(b / w) % 2) r += w
    return r
}
function frame(start, value,   upper, word, i, t) {
    upper = value * 2
    word = upper * 16 + xor4(xor4(upper % 16, int(upper / 16) % 16), int(upper / 256) % 16)
    for (i = 15; i >= 0; i--) {
        t = start + (15 - i) * 80
        print t " E 1"
        print t + (int(word / 2 ^ i) % 2 ? 60 : 30) " E 0"
    }
}
BEGIN {
    if (kind == "comparator") {
        for (k = 1; k <= lines; k++) print k * 24 " C " k % 2
        print lines * 24 + 24 " END"
        exit
    }
    if (kind == "idle") {
        print (lines * 1074 < 1073741824 ? lines * 1074 : 1073741824) " END"
        exit
    }
    frames = int(lines / 32)
    for (k = 0; k < frames; k++) frame(1000 + k * 4000, k < 3100 ? 0 : 48 + k % 2000)
    print 1000 + frames * 4000 " END"
}'
