#!/usr/bin/env bash
# Runs measure-text, draw-text and draw-sheet with right and wrong arguments, damaged fonts, and files that cannot be read or
# written, and compares the exit status and words of what they print: tools/test-programs.sh [model]. With the word model the
# sheet's program is its model in Python, tools/sheet_model.py; without it the program is held to the model. The drawing program is
# held to its model, tools/draw_model.py, either way. Ends with 0 only if all is right.
set -u
root=$(dirname "$(dirname "$(readlink -f "$0")")")
work=$(mktemp -d) || exit 2
trap 'chmod -R u+rwX "$work" && rm -rf "$work"' EXIT
chmod 755 "$work"
mkdir "$work/here" "$work/fake" "$work/model" "$work/bin" "$work/closed" "$work/full"
cd "$work/here" || exit 2
measure=$root/measure-text
draw=$root/draw-text
sheet=$root/draw-sheet
wrong=0

report() { # WHETHER IT IS RIGHT, WHAT
  if [ "$1" = yes ]; then
    echo "ok    $2"
  else
    echo "WRONG $2"
    wrong=$((wrong + 1))
  fi
}

# Words of the shell, of Python and of the system, which must not come out.
foreign='line [0-9]+:|Traceback|No such file|Permission denied|[Ii]s a directory|Read-only|No space left'

# Runs a command. Its status must be that one, and the words must stand in what it prints: on standard error if the status is 2,
# and otherwise on standard output, with nothing on standard error.
check() { # STATUS, WORDS, COMMAND
  local wanted=$1 words=$2 status said=$work/out right=yes shown
  shift 2
  "$@" > "$work/out" 2> "$work/err" < /dev/null
  status=$?
  [ "$wanted" -ne 2 ] || said=$work/err
  [ "$status" -eq "$wanted" ] || right=no
  grep -qF -e "$words" "$said" || right=no
  [ "$wanted" -eq 2 ] || [ ! -s "$work/err" ] || right=no
  ! grep -qE "$foreign" "$work/err" || right=no
  while [[ ${1##*/} != *-text && ${1##*/} != draw-sheet ]]; do shift; done
  shown=${*//"$root/"/}
  shown=${shown//"$work/copy/"/}
  shown=${shown//$'\n'/\\n}
  report "$right" "$wanted ${shown:0:60} | $words"
  [ "$right" = yes ] || { echo "  status $status" && head -n 5 "$work/out" "$work/err"; }
}

all_three() { # STATUS, WORDS, FONT
  check "$1" "$2" "$measure" -12.5 "$3"
  check "$1" "$2" "$draw" -12.5 "$3"
  check "$1" "$2" "$sheet" "$3"
}

there() { # FILE
  if [ -e "$1" ]; then report yes "there is $1"; else report no "there is $1"; fi
}

gone() { # FILE
  if [ -e "$1" ]; then report no "there is no $1"; else report yes "there is no $1"; fi
}

size_is() { # WIDTH, HEIGHT, PNG FILE
  local size
  size=$(od -An -tu1 -j16 -N8 "$3" | awk '{ print $3 * 256 + $4, $7 * 256 + $8 }')
  if [ "$size" = "$1 $2" ]; then report yes "$3 has $size pixels"; else report no "$3 has $size pixels, not $1 $2"; fi
}

# Makes a program that does something else, in a folder for PAPAYAHELM_PROGRAMS.
fake() { # PROGRAM, SHELL COMMANDS
  printf '#!/bin/sh\n%s\n' "$2" > "$work/fake/$1"
  chmod +x "$work/fake/$1"
}

# The programs are built now if they are stale.
programs=$root/target/bin
printf '#!/bin/sh\nexec python3 -B "%s" "$@"\n' "$root/tools/sheet_model.py" > "$work/model/sheet"
chmod +x "$work/model/sheet"
ln -s "$programs/measure" "$programs/draw" "$work/model"
"$measure" 4 > /dev/null
"$draw" 4 > /dev/null
if [ "${1-}" = model ]; then
  programs=$work/model
  export PAPAYAHELM_PROGRAMS=$programs
else
  "$sheet" > /dev/null
fi

gauge=$root/fonts/gauge.bin
cut=$root/crates/sheet_runs/data/cut.bin
cp "$gauge" "a font.bin"
cp "$gauge" ./-font
: > empty.bin
head -c 22 "$gauge" > short.bin
head -c 60 "$gauge" > ends.bin
head -c 324 "$gauge" > no-jump.bin # the record that ends the list, without its jump
{ head -c 4 "$gauge" && printf '\011' && tail -c +6 "$gauge"; } > header.bin
{ head -c 1 "$gauge" && printf '\000' && tail -c +3 "$gauge"; } > no-background.bin
{ cat "$gauge" && head -c 65536 /dev/zero; } > long.bin
{ cat "$gauge" && head -c 1048576 /dev/zero; } > too-long.bin
# glyphs without a pixel
{
  printf '\001\000\000\001\001\001\001\001\001' && head -c 14 /dev/zero
  for character in + - . 0 1 2 3 4 5 6 7 8 9; do printf '%s\003\000' "$character"; done
  printf '\000\000'
} > blank.bin

echo "--- arguments and fonts"
for script in "$measure" "$draw" "$sheet"; do
  check 0 "Exit status: 0" "$script" --help
  check 0 "usage: " "$script" -h
  check 2 "usage: " "$script" 5 one.bin two.bin
done
check 2 "usage: " "$measure"
check 2 "usage: " "$draw"
all_three 2 "there is no font file 'missing.bin'" missing.bin
all_three 2 "there is no font file ''" ""
all_three 2 "'.' is a folder" .
all_three 1 "fewer than 23" empty.bin
all_three 1 "fewer than 23" short.bin
all_three 1 "header is damaged" header.bin
all_three 1 "the font ends before" ends.bin
all_three 1 "more than" too-long.bin
check 1 "65,536" "$measure" -12.5 long.bin
check 0 "ok 27 0 0 0 26 7" "$draw" -12.5 long.bin
for font in "a font.bin" -font; do
  check 0 "ok 27 0 0 -7 26 7" "$measure" -12.5 "$font"
  check 0 "ok 27 0 0 0 26 7" "$draw" -12.5 "$font"
  check 0 "all is well" "$sheet" "$font"
done

echo "--- measure-text"
check 0 "ok 6 0 0 -3 5 3" "$measure" -4
check 0 "advance x 6, y 0; bounding box left 0, top -3, width 5, height 3; in t.bin, at (0, 0) on the baseline" "$measure" -4
check 0 "no pixel, so no bounding box" "$measure" ""
check 0 "ok" "$measure" -- --
check 1 "no 7 104" "$measure" -- -h
check 1 "the font has no glyph for '5' (U+0035)" "$measure" 5
check 1 "the font has no glyph for '°' (U+00B0)" "$measure" °
check 1 "the font has no glyph for a space (U+0020)" "$measure" " "
check 1 "the font has no glyph for U+0001" "$measure" $'\1'
check 1 "not UTF-8" "$measure" $'\xff'
check 1 "more than 4,096 bytes" "$measure" "$(head -c 4097 /dev/zero | tr '\0' 4)"

echo "--- draw-text"
check 0 "#####...#......#.........#" "$draw" -12.5
check 0 "advance x 27, y 0; bounding box left 0, top 0, width 26, height 7; in gauge.bin" "$draw" -12.5
check 0 "the box's corner put at (0, 0) so that all is seen" "$draw" -12.5
check 0 "#::::" "$draw" 5 background
check 0 "#####...#......#.........#" "$draw" -12.5 packed
check 0 "#...." "$draw" 5 packed background
check 1 "the font allows no background colour" "$draw" 5 background no-background.bin
check 0 "no pixel, so no bounding box" "$draw" ""
check 1 "the font has no glyph for '~' (U+007E)" "$draw" "5~"
check 1 "not UTF-8" "$draw" $'\xff'
check 1 "the text takes 599 by 7 pixels" "$draw" "$(printf '%0100d' 5)"
check 0 "the picture is draw.png" "$draw" 5 png
size_is 20 28 draw.png
check 0 "the picture is draw.pgm" "$draw" 5 pgm
there draw.pgm
gone draw.png
check 0 "the picture is draw.pgm" "$draw" 5 pgm png "a font.bin" background
there draw.png
check 1 "no glyph for '~'" "$draw" "~" png
gone draw.png
gone draw.pgm
for arguments in "5 missing.bin" "5 one.bin two.bin"; do
  touch draw.png
  # shellcheck disable=SC2086
  check 2 "" "$draw" $arguments png
  gone draw.png
done
touch draw.png
check 1 "nothing to show" "$draw" " " png
gone draw.png
mkdir draw.png
check 2 "draw.png is a folder" "$draw" 5 png
rmdir draw.png

echo "--- draw-text, aligned"
lines=$'-1.5°\n\n7. \n '
check 0 "ok 0 0 25 27" "$draw" "$lines" left
check 0 "........#####............" "$draw" "$lines" center
check 0 ".............:#:::.##...." "$draw" "$lines" background right
check 0 "no advance, since the lines are aligned; bounding box left 0, top 0, width 25, height 27; in gauge.bin" "$draw" "$lines" center
check 0 "no advance, since the lines are aligned; no pixel, so no bounding box; in gauge.bin" "$draw" $'\n ' right
check 0 ".............#####......." "$draw" "$lines" left center right
check 1 "the font has no glyph for '~' (U+007E)" "$draw" $'7\n7~' center
check 1 "the text takes 599 by 17 pixels" "$draw" "$(printf '7\n%0100d' 5)" right
check 2 "there is no font file 'centre'" "$draw" 5 centre
check 0 "the picture is draw.png" "$draw" "$lines" center png
size_is 100 108 draw.png
rm draw.png

echo "--- names padded with U+0000, on standard input: nothing is skipped"
for arguments in "gauge no 7 0: the font has no glyph for U+0000" "t no 7 0: the font has no glyph for U+0000" \
  "no-jump no 8 0: the font ends before the glyph for U+0000 does"; do
  read -r font words <<< "$arguments"
  for file in "$root/fonts/$font.bin" "$font.bin"; do
    [ ! -e "$file" ] || cp "$file" font.bin
  done
  right=yes
  [ "$("$programs/measure" < <(printf '%b' '-4\0\0\0\0\0\0'))" = "${words%%:*}" ] || right=no
  for align in "" left center right; do
    # shellcheck disable=SC2086
    [ "$("$programs/draw" $align < <(printf '%b' '-4\0\0\0\0\0\0'))" = "$words" ] || right=no
  done
  report "$right" "a padded name in $font.bin: $words"
done

echo "--- the drawings of the program and those of the model"
for font in gauge t no-background ends no-jump; do
  for file in "$root/fonts/$font.bin" "$font.bin"; do
    [ ! -e "$file" ] || cp "$file" font.bin
  done
  for words in "" left center right "background right" packed "packed center" "packed background right"; do
    right=yes
    for text in "$lines" $'-4\n4\n--' $'\n\n' $' 7\n-\n~' $'4\n\n-\n°\xc3\xa9' $'7\n\xff' "$(printf '1\n%0100d' 5)" \
      '-4\n7.5\0\0\0' '\0'; do
      # shellcheck disable=SC2086
      "$programs/draw" $words < <(printf '%b' "$text") > "$work/said"
      # shellcheck disable=SC2086
      python3 -B "$root/tools/draw_model.py" $words < <(printf '%b' "$text") | cmp - "$work/said" || right=no
    done
    report "$right" "the same words and pictures: $font $words"
  done
done

echo "--- draw-sheet"
check 0 "901 readings: 901 seen whole, 0 in part, 0 not at all, 0 refused; 0 with a difference" "$sheet"
check 0 "the picture is sheet.png: all 901 readings, 4 times enlarged" "$sheet" center
there sheet.png
check 1 "-44.9: 1 pixel differs" "$sheet" narrow
check 1 "900 with a difference" "$sheet" narrow
check 0 "all is well" "$sheet" packed
check 1 "900 with a difference" "$sheet" packed narrow
check 1 "-39.9 to -30.0: refused: the font has no glyph for '3' (U+0033)" "$sheet" "$root/fonts/symbols.bin"
check 1 "0.0: refused: the font has no glyph for '0' (U+0030)" "$sheet" "$root/fonts/symbols.bin"
check 1 "119 framed ones between them; 691 framed ones are left out" "$sheet" at 500 500
check 1 "737 seen whole, 0 in part, 0 not at all, 164 refused" "$sheet" "$cut"
check 1 "737 in part" "$sheet" "$cut" top at -9 -4
check 1 "901 not at all" "$sheet" at -100 -100
check 1 "901 not at all" "$sheet" blank.bin
check 1 "not all is well" "$sheet" at 250 0 bottom
check 0 "all is well" "$sheet" align center
check 0 "all is well" "$sheet" bottom align right center align left
check 1 "199 seen whole, 702 in part" "$sheet" top align center at 12 3
check 1 "901 not at all" "$sheet" align right at 0 0
check 1 "900 with a difference" "$sheet" narrow align right
for arguments in "at 5" "at 5 x" "at 1048577 0" "at at at" align "align top" "align at 5 5" "one.bin two.bin"; do
  touch sheet.png
  # shellcheck disable=SC2086
  check 2 "usage: " "$sheet" $arguments
  gone sheet.png
done
touch sheet.png
check 2 "there is no font file 'centre'" "$sheet" centre
gone sheet.png

if [ "${1-}" != model ]; then
  echo "--- the sheet of the program and that of the model"
  for arguments in gauge "gauge narrow" "gauge center at 2 3" "gauge at 500 500" "cut top at -9 -4" "gauge align center" \
    "gauge align right narrow" "cut bottom align center at 9 5" t "symbols bottom" header blank \
    "gauge packed" "gauge packed at 500 500" "cut packed top at -9 -4" "gauge narrow align right packed"; do
    read -r font words <<< "$arguments"
    for file in "$root/fonts/$font.bin" "$root/crates/sheet_runs/data/$font.bin" "$font.bin"; do
      [ ! -e "$file" ] || cp "$file" font.bin
    done
    # shellcheck disable=SC2086
    "$programs/sheet" $words > "$work/said" && mv sheet.cells "$work/cells"
    # shellcheck disable=SC2086
    "$work/model/sheet" $words > said
    right=yes
    cmp "$work/said" said && cmp "$work/cells" sheet.cells || right=no
    report "$right" "the same words and cells: $arguments"
  done
fi

echo "--- programs that fail"
for program in measure draw sheet; do
  # shellcheck disable=SC2016
  fake "$program" 'kill -SEGV $$'
done
export PAPAYAHELM_PROGRAMS=$work/fake
all_three 2 "was ended by signal 11" "$gauge"
for program in measure draw sheet; do fake "$program" :; done
all_three 2 "gave no answer" "$gauge"
for program in measure draw sheet; do rm "$work/fake/$program"; done
all_three 2 "cannot be run" "$gauge"
fake sheet 'echo "the pictures cannot be written"'
check 2 "the pictures cannot be written" "$sheet"
fake sheet 'echo "all is well"'
check 2 "cannot be read" "$sheet"
fake sheet 'echo "6 6" > sheet.cells && echo "all is well"'
check 2 "is not whole" "$sheet"
fake draw 'echo "ok 6 0 0 0 5 7" && echo "draw.pgm: the disk is full"'
touch draw.png
check 2 "the picture cannot be written" "$draw" 5 png
gone draw.png
if [ "${1-}" = model ]; then PAPAYAHELM_PROGRAMS=$programs; else unset PAPAYAHELM_PROGRAMS; fi

echo "--- files that cannot be read or written"
# a copy of what the scripts need, for a user who has no right to come where the repository is
copy=$work/copy
mkdir -p "$copy/tools" "$copy/crates/integers" "$copy/crates/measure/out" "$copy/target/bin"
touch "$copy/crates.txt"
cp -r "$measure" "$draw" "$sheet" "$root/fonts" "$copy"
cp "$root"/tools/*.sh "$root"/tools/*.py "$copy/tools"
cp "$programs"/measure "$programs"/draw "$programs"/sheet "$copy/target/bin"
chmod -R a+rX "$copy"
user=(env -u PAPAYAHELM_PROGRAMS)
[ "$(id -u)" -ne 0 ] || user+=(setpriv --reuid=65534 --regid=65534 --clear-groups)
cp "$gauge" closed.bin
chmod 000 closed.bin
touch "$work/closed/draw.png"
chmod 555 "$work/closed"
check 2 "no permission to read 'closed.bin'" "${user[@]}" "$copy/measure-text" 5 closed.bin
check 2 "no permission to read 'closed.bin'" "${user[@]}" "$copy/draw-text" 5 closed.bin
check 2 "the old draw.png cannot be replaced" env -C "$work/closed" "${user[@]}" "$copy/draw-text" 5 png
check 0 "ok 6 0 0 0 5 7" env -C "$work/closed" "${user[@]}" "$copy/draw-text" 5
check 2 "is read-only" env -C "$work/closed" "${user[@]}" "$copy/draw-sheet"
check 2 "no temporary folder can be made in /nowhere" env TMPDIR=/nowhere "$measure" 4
for script in "$measure" "$draw" "$sheet"; do
  # shellcheck disable=SC2016
  check 2 "cannot be written to standard output" sh -c '"$@" > /dev/full' sh "$script" --help
done
# shellcheck disable=SC2016
check 2 "cannot be written to standard output" sh -c '"$@" > /dev/full' sh "$draw" 5
# runs a command in a folder on a disk with so much room left, and lists what is there then
# shellcheck disable=SC2016
full=(unshare -rm sh -c 'mount -t tmpfs -o size=64k none "$0" && cd "$0" || exit 9
  head -c $((65536 - $1)) /dev/zero > fill
  shift
  "$@"
  status=$?
  ls -A
  exit $status' "$work/full")
if "${full[@]}" 0 true > /dev/null 2>&1; then
  check 2 "draw.png cannot be written" "${full[@]}" 0 "$draw" 5 png
  right=no
  if grep -qx fill "$work/out" && ! grep -q draw.png "$work/out"; then right=yes; fi
  report "$right" "nothing is left on the full disk"
  check 2 "sheet.png cannot be written" "${full[@]}" 0 "$sheet"
  check 2 "has no room for it" "${full[@]}" 0 env TMPDIR="$work/full" "$measure" 4
  check 2 "the picture cannot be written" "${full[@]}" 4096 env TMPDIR="$work/full" "$draw" 5 png
  check 2 "the pictures cannot be written" "${full[@]}" 8192 env TMPDIR="$work/full" "$sheet"
else
  echo "skipped: a full disk (no small disk can be mounted here)"
fi

echo "--- building"
cat > "$work/bin/rt" << 'RT'
#!/bin/sh
echo "rt: chose --jobs 2 for integers"
echo "crate integers: modules loaded=0 checked=1" && echo "logic=proved functions=1"
echo "crate types: modules loaded=1 checked=0" && echo "logic=proved functions=1"
[ ! -e ../../fail ] || {
  echo "fn measure::main: not proved"
  echo "crate measure: modules loaded=0 checked=1" && echo "logic=not-proved" && exit 1
}
cp ../../kept out/measure && chmod +x out/measure
echo "crate measure: modules loaded=0 checked=1" && echo "logic=proved functions=1"
RT
chmod +x "$work/bin/rt"
cp "$copy/target/bin/measure" "$copy/kept"
builder=(env -u PAPAYAHELM_PROGRAMS TMPDIR="$work/fake" PATH="$work/bin:$PATH" "$copy/measure-text" -4)
# shellcheck disable=SC2016
both=(sh -c '"$@" 2>&1' sh)
check 0 "ok 6 0 0 -3 5 3" "${builder[@]}"
touch "$copy/crates/integers/lib.rt"
check 0 "the first time each crate below it is proved" "${both[@]}" "${builder[@]}"
right=no
if grep -qx "  integers proved" "$work/out" && ! grep -q types "$work/out"; then right=yes; fi
report "$right" "a line for each crate that was proved"
check 0 "ok 6 0 0 -3 5 3" "${builder[@]}"
rm "$copy/target/bin/measure"
check 0 "measure proved" "${both[@]}" "${builder[@]}"
touch "$copy/crates.txt" "$copy/fail"
check 2 "the build of the program measure failed" "${builder[@]}"
check 2 "measure::main: not proved" "${builder[@]}"
rm "$copy/fail" "$work/bin/rt"
for tool in bash dirname readlink mktemp rm head find; do ln -s "$(type -P "$tool")" "$work/bin"; done
check 2 "rt of the Rattle kit is not on the PATH" env -u PAPAYAHELM_PROGRAMS PATH="$work/bin" "$copy/measure-text" -4
chmod 555 "$copy/target"
check 2 "cannot be written to" "${user[@]}" "$copy/measure-text" -4

if [ "$wrong" -eq 0 ]; then
  echo "all is right"
else
  echo "$wrong wrong"
  exit 1
fi
