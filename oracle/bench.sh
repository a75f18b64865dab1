#!/usr/bin/env bash
# The benchmark of docs/BENCHMARKS.md: oracle/bench.sh [FOLDER]. Prints its tables. Two builds of the Rust: as `cargo build
# --release` makes it, and with `lto=fat` and one codegen unit. Ours is the static library of `rt lib` in both.
set -eu
here=$(cd "$(dirname "$0")" && pwd)
root=$(dirname "$here")
command -v valgrind > /dev/null || { echo "bench: valgrind is needed" >&2; exit 1; }
"$here/build.sh" "${1:-$root/../shared/docs/src}"
bench=$root/target/oracle/bench
rm -rf "$bench"
mkdir -p "$bench/fonts" "$bench/release" "$bench/lto"

cp "$root/fonts/gauge.bin" "$bench/fonts"
for size in 16 24 96; do
  letters=()
  [ $size = 96 ] && letters=(-125.°)
  python3 "$root/tools/stroke_font.py" "$root/fonts/strokes.txt" $size "${letters[@]}" > "$bench/fonts/strokes$size.txt"
  python3 "$root/tools/make_font.py" "$bench/fonts/strokes$size.txt" "$bench/fonts/strokes$size.bin" > /dev/null
done

# build NAME OPTIONS OF-THE-PROGRAM: all is compiled with the options, and the program with its own besides.
build() {
  out=$bench/$1
  compile() { rustc --edition 2021 -C opt-level=3 --cap-lints allow -L "$out" "$@"; }
  core=(--extern "embedded_graphics_core=$out/libembedded_graphics_core.rlib")
  compile $2 --crate-type rlib --crate-name embedded_graphics_core --out-dir "$out" "$here/embedded_graphics_core.rs"
  compile $2 --crate-type rlib --crate-name u8g2_fonts "${core[@]}" --out-dir "$out" "$root/target/oracle/tree/lib.rs"
  compile $2 --crate-type rlib --crate-name papayahelm -L "native=$root/crates/c_api/out" --out-dir "$out" "$root/bindings/rust/src/lib.rs"
  compile $2 $3 --crate-type bin --crate-name bench "${core[@]}" --extern "u8g2_fonts=$out/libu8g2_fonts.rlib" \
    --extern "papayahelm=$out/libpapayahelm.rlib" --out-dir "$out" "$here/driver/bench.rs"
  "$out/bench" "$bench/fonts" names > "$out/names"
  "$out/bench" "$bench/fonts" stack > "$out/stack"
  "$out/bench" "$bench/fonts" time > "$out/time"
  valgrind --tool=callgrind --dump-before=bench_mark --callgrind-out-file="$out/count" \
    "$out/bench" "$bench/fonts" count 2> "$out/log"
}
build release "" ""
build lto "-C codegen-units=1" "-C lto=fat"
python3 "$here/bench_table.py" "$bench" "$root/crates/c_api/out/libc_api.a" "$root/bindings/c/papayahelm.h"
