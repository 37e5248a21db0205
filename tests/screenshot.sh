#!/usr/bin/env bash
# Pictures of the page of rights, to be looked at: light, dark and printed. No part of the gate: Chromium is large.
#
#     tests/screenshot.sh PROGRAM TABLES FOLDER [YARD..]      writes page.html, light.png, dark.png and print.pdf into FOLDER
set -euo pipefail
[ $# -ge 3 ] || { sed -n '2,4s/^# *//p' "$0" && exit 2; }
command -v chromium >/dev/null || apt-get install -y --no-install-recommends chromium fonts-dejavu-core
mkdir -p "$3" && folder=$(realpath "$3") && profile=$(mktemp -d) && trap 'rm -rf "$profile"' EXIT
yards=("${@:4}")
"$1" rights "$2" --html "$folder/page.html" --force --no-backup "${yards[@]/#/--yard=}"
browser=(chromium --headless=new --no-sandbox --disable-gpu --hide-scrollbars "--user-data-dir=$profile" "--window-size=1280,1600")
"${browser[@]}" "--screenshot=$folder/light.png" "file://$folder/page.html"
"${browser[@]}" --blink-settings=preferredColorScheme=0 "--screenshot=$folder/dark.png" "file://$folder/page.html"
"${browser[@]}" "--print-to-pdf=$folder/print.pdf" "file://$folder/page.html"
