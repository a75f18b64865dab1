#!/usr/bin/env bash
# Exercises both bindings: bindings/test.sh. It needs cc, rustc and the static library, in crates/c_api/out or in the folder
# that PAPAYAHELM_LIB_DIR names. c++, make, rustdoc, cargo, clippy and rustfmt are used if they are there. One line a check; the
# exit status is 0 only if none fails. All that it makes goes to target/bindings.
set -u -o pipefail
here=$(cd "$(dirname "$0")" && pwd)
root=$(dirname "$here")
lib=$(realpath -m "${PAPAYAHELM_LIB_DIR:-$root/crates/c_api/out}")
out=$root/target/bindings
log=$out/log
failed=0
mkdir -p "$out/c" "$out/2021" "$out/2024"
cd "$root" || exit 1

if [ ! -f "$lib/libc_api.a" ]; then
  echo "There is no libc_api.a in $lib: run \`rt lib\` in $root/crates/c_api, or set PAPAYAHELM_LIB_DIR" >&2
  exit 1
fi
for tool in cc rustc; do
  command -v $tool > /dev/null || { echo "$tool is needed" >&2; exit 1; }
done

# check NAME COMMAND..: the command succeeds.
check() {
  local name=$1
  shift
  if "$@" > "$log" 2>&1; then
    echo "ok    $name"
  else
    echo "FAIL  $name"
    tail -n 20 "$log" | sed 's/^/      /'
    failed=1
  fi
}

# fails COMMAND.. -- WORDS: the command fails and says the words.
fails() {
  local command=()
  while [ "$1" != -- ]; do
    command+=("$1")
    shift
  done
  "${command[@]}" 2>&1 | tee "$out/said" && { echo "it did not fail"; return 1; }
  grep -qF -- "$2" "$out/said" || { echo "it did not say: $2"; return 1; }
}

# prints FILE COMMAND..: the command succeeds and prints what the file holds.
prints() {
  local file=$1
  shift
  "$@" | diff - "$file"
}

# says WORDS COMMAND..: the command succeeds and prints the words.
says() {
  local words=$1
  shift
  "$@" | tee "$out/said" && grep -qF -- "$words" "$out/said"
}

# there TOOL: whether it is there. What needs it is skipped if not.
there() {
  command -v "$1" > /dev/null || { echo "skip  no $1 here"; return 1; }
}

# The calls as papayahelm.h, raw.rs and c_api declare them, each as Rust would and in one line.
in_c() {
  tr '\n' ' ' < "$here/c/papayahelm.h" | tr -s ' ' | grep -o 'uint32_t papayahelm_[a-z_]*([^)]*);' | sed \
    -e 's/const uint8_t \*\([a-z_]*\)/\1: *const u8/g' -e 's/uint8_t \*\([a-z_]*\)/\1: *mut u8/g' \
    -e 's/int64_t \*\([a-z_]*\)/\1: *mut i64/g' -e 's/uint32_t \([a-z_]*\)\([,)]\)/\1: u32\2/g' \
    -e 's/int32_t \([a-z_]*\)\([,)]\)/\1: i32\2/g' -e 's/uint8_t \([a-z_]*\)\([,)]\)/\1: u8\2/g' \
    -e 's/size_t \([a-z_]*\)\([,)]\)/\1: usize\2/g' -e 's/^uint32_t \(.*\);$/fn \1 -> u32/'
}
in_rust() {
  tr '\n' ' ' < "$1" | tr -s ' ' | grep -o 'fn papayahelm_[a-z_]*([^)]*) -> u32' | sed -e 's/( /(/' -e 's/, )/)/'
}
in_rattle() {
  in_rust crates/c_api/src/lib.rt | sed -e 's/\([a-z_]*\): &\[u8\]/\1: *const u8, \1_len: usize/g' \
    -e 's/\([a-z_]*\): &mut \[\([a-z0-9]*\)\]/\1: *mut \2, \1_len: usize/g'
}
same_calls() {
  in_c > "$out/calls"
  [ "$(wc -l < "$out/calls")" = 7 ] && in_rust "$here/rust/src/raw.rs" | diff "$out/calls" - && in_rattle | diff "$out/calls" -
}
check "papayahelm.h and raw.rs declare the seven calls as c_api has them" same_calls

# C
strict=(-Wall -Wextra -Wpedantic -Werror)
link=(-L "$lib" -lc_api)
for standard in c99 c11 c17; do
  check "papayahelm.h is clean $standard" cc -std=$standard "${strict[@]}" -x c -fsyntax-only "$here/c/papayahelm.h"
done
compile_c() { cc -std=c11 "${strict[@]}" -O2 -I "$here/c" -o "$out/c/$2" "$1" "${link[@]}"; }
compile_and_run() { "$1" "$2" "$3" && "$out/c/$3"; }
check "every call and refusal, from C" compile_and_run compile_c "$here/c/calls.c" calls
check "codes without a meaning and lists of readings, from C" compile_and_run compile_c oracle/boundary.c boundary
if there c++; then
  for standard in c++11 c++17 c++20; do
    check "papayahelm.h is clean $standard" c++ -std=$standard "${strict[@]}" -x c++ -fsyntax-only "$here/c/papayahelm.h"
  done
  compile_cpp() { c++ -std=c++11 "${strict[@]}" -O2 -x c++ -I "$here/c" -o "$out/c/$2" "$1" -x none "${link[@]}"; }
  check "every call and refusal, from C++" compile_and_run compile_cpp "$here/c/calls.c" calls_cpp
fi
if there make; then
  check "the C examples build by make" make -C "$here/c" LIB_DIR="$lib" OUT="$out/c"
  check "make says which command makes a missing library" \
    fails make -C "$here/c" LIB_DIR="$out/nowhere" OUT="$out/nowhere" -- 'rt lib'
fi
for example in redraw short icon; do
  check "the C example $example compiles without a warning" compile_c "$here/c/$example.c" $example
done
check "the C example redraw prints what is stored" prints "$here/c/redraw.txt" "$out/c/redraw" fonts/gauge.bin
check "the C example redraw, in a damaged font" \
  says 'the font ends before the glyph for this character does (U+0035)' "$out/c/redraw" crates/sheet_runs/data/cut.bin
check "the C example redraw, without a font" \
  fails "$out/c/redraw" "$out/nowhere" -- 'the font has fewer than 23 or more than 1,048,576 bytes'
short_c() { "$out/c/short" -12.5° 7.? 7.0° < fonts/gauge.bin; }
check "the C example short" says '7.?: the font has no glyph for this character (U+003F)' short_c
icon_c() { "$out/c/icon" < fonts/gauge.bin; }
check "the C example icon prints what is stored" prints "$here/c/icon.txt" icon_c

# Rust, by rustc alone
for edition in 2021 2024; do
  dir=$out/$edition
  compile() { rustc --edition "$edition" -D warnings -O "$@"; }
  compile_with() { compile --extern "papayahelm=$dir/libpapayahelm.rlib" "$@"; }
  run() { local program=$1; shift; compile_with "$@" -o "$dir/$program" && "$dir/$program"; }
  check "the package compiles without a warning, $edition" \
    compile --crate-type rlib --crate-name papayahelm -L "native=$lib" -o "$dir/libpapayahelm.rlib" "$here/rust/src/lib.rs"
  unit_tests() { compile --test --crate-name papayahelm -L "native=$lib" -o "$dir/unit" "$here/rust/src/lib.rs" && "$dir/unit"; }
  check "its own tests, $edition" unit_tests
  check "every call and refusal, from Rust $edition" run calls --test "$here/rust/tests/calls.rs"
  check "the Rust example redraw compiles, $edition" compile_with -o "$dir/redraw" "$here/rust/examples/redraw.rs"
  check "the Rust example redraw prints what is stored, $edition" prints "$here/rust/examples/redraw.txt" "$dir/redraw"
  check "the Rust example redraw, in a damaged font, $edition" \
    says "the font ends before the glyph for '5' (U+0035) does" "$dir/redraw" crates/sheet_runs/data/cut.bin
  check "the Rust example redraw, without a font, $edition" \
    fails "$dir/redraw" "$out/nowhere" -- 'the font has fewer than 23 or more than 1,048,576 bytes'
  check "the Rust example short, $edition" \
    says "7.?: the font has no glyph for '?' (U+003F)" run short "$here/rust/examples/short.rs"
  check "the Rust example icon prints what the C one does, $edition" \
    prints "$here/c/icon.txt" run icon "$here/rust/examples/icon.rs"
  check "a program without std, $edition" run no_std -C panic=abort -C lto=fat "$here/rust/no_std/main.rs"
  check "our stand-in for embedded-graphics-core compiles, $edition" \
    compile --crate-type rlib --crate-name embedded_graphics_core -o "$dir/libembedded_graphics_core.rlib" oracle/embedded_graphics_core.rs
  check "a display of embedded-graphics gets the pixels, $edition" run embedded_graphics \
    --extern "embedded_graphics_core=$dir/libembedded_graphics_core.rlib" "$here/rust/examples/embedded_graphics/main.rs"
  if there rustdoc; then
    check "the examples of the documentation, $edition" rustdoc --test --edition "$edition" --crate-name papayahelm \
      --extern "papayahelm=$dir/libpapayahelm.rlib" "$here/rust/src/lib.rs"
  fi
done

# Rust, by cargo
if there cargo; then
  export CARGO_TARGET_DIR=$out/cargo
  in_package() { (cd "$here/rust" && PAPAYAHELM_LIB_DIR=$lib "$@"); }
  offline=(--offline --locked --quiet)
  check "cargo build, with all examples" in_package cargo build "${offline[@]}" --all-targets
  check "cargo test" in_package cargo test "${offline[@]}"
  documented() { RUSTDOCFLAGS='-D warnings' in_package cargo doc "${offline[@]}" --no-deps; }
  check "cargo doc, without a warning" documented
  there cargo-clippy && check "cargo clippy, without a warning" in_package cargo clippy "${offline[@]}" --all-targets -- -D warnings
  there cargo-fmt && check "cargo fmt" in_package cargo fmt --check
  no_library() { (cd "$here/rust" && PAPAYAHELM_LIB_DIR=$out/nowhere cargo build "${offline[@]}"); }
  check "the build script says which command makes a missing library" fails no_library -- 'rt lib'
fi

[ $failed = 0 ] && echo "all as expected" || echo "not all as expected"
exit $failed
