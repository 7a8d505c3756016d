#!/bin/sh
# Draws the pictures of README.md and docs/ by am32wave --svg.
#
#   docs/pictures.sh
#
# AM32WAVE names another program than the repository's own.
here=$(cd "$(dirname "$0")" && pwd) || exit 1
examples=$here/../examples
writer=${AM32WAVE:-$here/../am32wave}

# picture NAME SAMPLE FROM TO: docs/NAME.svg, of that stretch of the sample.
picture() {
    "$writer" --svg --from "$3" --to "$4" --trace "$examples/$2.trace" <"$examples/$2.journal" >"$here/$1.svg" || exit 1
}

# One commutation: from before a zero crossing until after the sector change that follows it.
picture wave spin_up 12154500t 12165700t
