#!/usr/bin/env bash
# Makes the README's pictures of the sheet, three rows of it: docs/sheet-right.png, and docs/sheet-narrow.png with the fault put in.
name=readme-pictures.sh
here=$(dirname "$(dirname "$(readlink -f "$0")")")
# shellcheck source=tools/common.sh
. "$here/tools/common.sh"

make_room
take_font "$here/fonts/gauge.bin"
take_program sheet
for fault in "" narrow; do
  run ${fault:+"$fault"}
  make_picture sheet_png.py "$room/sheet.cells" "$here/docs/sheet-${fault:-right}.png" +9.0 3
  say "docs/sheet-${fault:-right}.png: $made"
done
