#!/bin/sh
# Writes pages for a browser of ten samples, and an index page that says of each in a sentence what it shows.
#
#   examples/pages.sh DIR
#
# AM32WAVE names another program than the repository's own.
here=$(cd "$(dirname "$0")" && pwd) || exit 1
writer=${AM32WAVE:-$here/../am32wave}
[ -n "$1" ] || { echo "pages.sh: DIR is missing" >&2; exit 2; }
mkdir -p "$1" || exit 1
dir=$(cd "$1" && pwd) || exit 1

begin() {
    cat <<'HTML'
<!DOCTYPE html>
<html lang="en">
<head>
<meta charset="utf-8">
<meta name="viewport" content="width=device-width, initial-scale=1">
<title>A brushless motor controller, in ten runs</title>
<style>
:root { color-scheme: light dark; }
body { max-width: 44em; margin: 2em auto; padding: 0 1em; font: 16px/1.5 system-ui, sans-serif; }
li { margin: 0.6em 0; }
</style>
</head>
<body>
<h1>A brushless motor controller, in ten runs</h1>
<p>Each page shows a run of the controller: the signal line, what was heard on it, the switches of the half-bridges and the open handlers.
Click sets a marker, shift-click the second one; the wheel zooms; the keys stand at the foot of each page.</p>
<ol>
HTML
}

# page SAMPLE TITLE SENTENCE: the sample's page, and its line in the index.
page() {
    "$writer" --html --trace "$here/$1.trace" <"$here/$1.journal" >"$dir/$1.html" || exit 1
    echo "<li><a href=\"$1.html\">$2</a>: $3</li>"
}

lesson() {
    page dshot600 "A frame" "sixteen bits of DShot600, told apart by how long the line stays high, and the verdict on each window"
    page throttle_ramp "Arming" "thirty frames of zero throttle and a quarter of a second arm the controller; from there the demand rises in small steps"
    page spin_up "Six sectors" "in each sector one leg is chopped, one holds to ground, and the third coasts; after six of them the order begins anew"
    page comparator_noise "A zero crossing" "the comparator tells where the coasting leg crosses; noise is looked through, and the next sector comes a wait later"
    page comm_enters_pwm "Dead time" "a commutation comes between two steps of a chopping: measure how long both switches of a leg are off"
    page nested "Nesting" "slow handlers are interrupted by more urgent ones, and go on where these return"
    page stuck "A stuck rotor" "sixty sector changes without a crossing mean that the motor doesn't turn, and control is lost"
    page timeout "A timeout" "half a second without a good frame stops the motor and disarms, and the signal is detected anew"
    page bidirectional "A reply" "each good frame is answered on its own wire, by 21 levels that tell the electrical period"
    page save "A save" "a command asks for it, and the settings are written into the flash between the control ticks"
}

{
    begin
    lesson || exit 1
    printf '</ol>\n</body>\n</html>\n'
} >"$dir/index.html"
echo "$dir/index.html"
