# shellcheck shell=bash disable=SC2154
# What draw-sheet, draw-text and measure-text share. Each sets `name`, `here` and `synopsis` and then reads this file.
# They end with 0 if all is well, with 1 if the answer is not that, and with 2, saying why on standard error, if there is no answer.
set -uo pipefail

fail() {
  printf '%s: %s\n' "$name" "$1" >&2
  exit 2
}

usage() {
  printf 'usage: %s\n%s --help says more\n' "$synopsis" "$name" >&2
  exit 2
}

# A full disk behind standard output is no answer either.
say() {
  printf '%s\n' "$1" 2> /dev/null || fail "the answer cannot be written to standard output"
}

room=
part=
clean_up() {
  [ -z "$room" ] || rm -rf "$room"
  [ -z "$part" ] || rm -f "$part"
}
trap clean_up EXIT

temporary=${TMPDIR:-/tmp}
make_room() {
  room=$(mktemp -d 2> /dev/null) || fail "no temporary folder can be made in $temporary"
}

# Copies the font into the room, of one that is too long as much as shows that.
take_font() { # FILE
  [ -e "$1" ] || fail "there is no font file '$1'"
  [ ! -d "$1" ] || fail "'$1' is a folder, not a font file"
  [ -r "$1" ] || fail "you have no permission to read '$1'"
  head -c 1048577 2> /dev/null < "$1" > "$room/font.bin" || fail "'$1' cannot be read, or $temporary has no room for it"
}

# What rt makes itself, in the crates' out/ folders, is no source.
is_stale() { # PROGRAM
  [ ! -x "$1" ] || [ -n "$(find "$here/crates.txt" -newer "$1" -print -quit 2> /dev/null)" ] ||
    [ -n "$(find "$here/crates" -mindepth 2 -name out -prune -o -newer "$1" -print -quit 2> /dev/null)" ]
}

# A line for each crate of which rt has proved something: its name stands in one line, the verdict in a later one.
proved='/^crate /h; /^logic=proved/ { x; / checked=0$/d; s/^crate \([a-z0-9_]*\):.*/  \1 proved/p; }'

# Has rt build the program, and keeps a copy. rt also runs it, and it finds no font then. What is newer than the build's beginning
# makes it stale again, and so does a build that fails.
build() { # PROGRAM
  local log
  command -v rt > /dev/null || fail "the program $1 must be built, and rt of the Rattle kit is not on the PATH"
  log=$(mktemp 2> /dev/null) || fail "no temporary file can be made in $temporary"
  touch "$room/begun"
  echo "$name: building the program $1 (the first time each crate below it is proved, which takes minutes)" >&2
  if (cd "$here/crates/$1" && rt run) < /dev/null 2>&1 | tee "$log" | sed -nu "$proved" >&2 &&
    { cp "$here/crates/$1/out/$1" "$program.new" && mv -f "$program.new" "$program"; } 2> /dev/null; then
    touch -r "$room/begun" "$program"
    rm -f "$log"
  else
    rm -f "$program"
    grep -E ': (error|not proved|no proof)' "$log" | cut -c 1-200 | head -n 5 >&2
    fail "the build of the program $1 failed; all that rt said is in $log"
  fi
}

# Sets `program`, built again if it is older than a file of the crates. Tests name another folder with programs.
take_program() { # PROGRAM
  program=${PAPAYAHELM_PROGRAMS:-$here/target/bin}/$1
  if [ -n "${PAPAYAHELM_PROGRAMS:-}" ] || ! is_stale "$program"; then return; fi
  mkdir -p "$here/target/bin" 2> /dev/null
  [ -w "$here/target" ] || fail "the program $1 must be built, and $here/target cannot be written to"
  {
    flock 9 2> /dev/null # two runs do not build at once
    if is_stale "$program"; then build "$1"; fi
  } 9> "$here/target/lock"
}

# Runs the program in the room and keeps all that it prints in `answer`.
run() { # ARGUMENTS
  local status
  answer=$(cd "$room" && exec "$program" "$@" 2>&1)
  status=$?
  [ "$status" -le 128 ] || fail "the program ${program##*/} was ended by signal $((status - 128))"
  [ "$status" -eq 0 ] || fail "the program $program cannot be run"
}

no_answer() {
  fail "the program ${program##*/} gave no answer${answer:+ but: ${answer##*$'\n'}}"
}

# A character beside its code point, as '5' (U+0035), or the code point alone where there is nothing to see.
character() ( # CODE POINT
  LC_ALL=C.UTF-8
  printf -v code 'U+%04X' "$1"
  printf -v seen '%b' "\\U$(printf '%08x' "$1")"
  case $1 in
    9) echo "a tab ($code)" ;;
    32) echo "a space ($code)" ;;
    *)
      # accents on their own, spaces, marks of direction, private characters
      if [[ $seen != [[:graph:]] || $code =~ ^U\+(00A[0D]|03[0-6].|20(0.|2[89A-F]|6.)|FE0.|FEFF|E...|F[0-8]..|E....)$ ]]; then
        echo "$code"
      else
        echo "'$seen' ($code)"
      fi
      ;;
  esac
)

# Why a call is refused.
cause() { # NUMBER CODE POINT
  case $1 in
    1) echo "the font has fewer than 23 or more than 1,048,576 bytes" ;;
    2) echo "the font's header is damaged: a bit width or the font's bounding box is off limits" ;;
    4) echo "the text has more than 4,096 bytes or is not UTF-8" ;;
    6) echo "the font allows no background colour" ;;
    7) echo "the font has no glyph for $(character "$2")" ;;
    8) echo "the font ends before the glyph for $(character "$2") does" ;;
    *) echo "number $1 of the table of refusals in README.md" ;;
  esac
}

# What an answer's numbers are: ok [X Y] LEFT TOP WIDTH HEIGHT, or none for the last four. Only an aligned call leaves X Y out.
explain() { # ANSWER, PLACE
  local numbers advance="no advance, since the lines are aligned" box="no pixel, so no bounding box"
  read -ra numbers <<< "${1#ok }"
  case ${#numbers[@]} in
    3 | 6)
      advance="advance x ${numbers[0]}, y ${numbers[1]}"
      numbers=("${numbers[@]:2}")
      ;;
  esac
  if [ "${numbers[0]-}" != none ]; then
    box="bounding box left ${numbers[0]}, top ${numbers[1]}, width ${numbers[2]}, height ${numbers[3]}"
  fi
  say "$advance; $box; $2"
}

# Removes the pictures of an earlier run from this folder, so that none can be taken for this run's.
clear_pictures() { # NAMES
  local picture
  for picture; do
    [ ! -d "$picture" ] || fail "the picture cannot be written: $picture is a folder"
    rm -f "$picture" 2> /dev/null || fail "the old $picture cannot be replaced: the folder $PWD is read-only"
  done
  [ -w . ] || fail "the picture cannot be written: the folder $PWD is read-only"
}

# Puts a picture into this folder; it has its name only once it is whole.
deliver() { # FILE NAME
  part=.$2.$$
  if ! { cp "$1" "$part" && mv -f "$part" "$2"; } 2> /dev/null; then
    fail "$2 cannot be written in $PWD: the disk is full, or the folder is read-only"
  fi
  part=
}

# Has a picture made by a tool, and keeps what the tool says of it in `made`.
make_picture() { # TOOL, ARGUMENTS
  command -v python3 > /dev/null || fail "a PNG picture needs python3, which is not on the PATH"
  made=$(python3 -B "$here/tools/$1" "${@:2}" 2>&1) || fail "the picture cannot be made: ${made##*$'\n'}"
}
