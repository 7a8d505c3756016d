#!/bin/sh
# Opens the pages that am32wave writes in Chromium and checks what they show (check_browser.py says what).
#
#   docs/check_browser.sh [FOLDER]
#
# It wants Python 3 and Debian's chromium (apt-get install chromium), and is no part of the gate. Screenshots are left in FOLDER.
# AM32WAVE names another program than the repository's own.
here=$(cd "$(dirname "$0")" && pwd) || exit 1
folder=${1:-$(mktemp -d)} || exit 1
mkdir -p "$folder" || exit 1
command -v chromium >/dev/null || { echo "check_browser.sh: no chromium on the path" >&2; exit 1; }
python3 "$here/check_browser.py" "${AM32WAVE:-$here/../am32wave}" "$here/../examples" "$folder" || exit 1
echo "screenshots: $folder"
