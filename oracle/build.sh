#!/usr/bin/env bash
# Builds the oracle: the Rust files of a folder, unchanged, with overflow checks and debug assertions on, our stand-ins for
# what is not there, our static library (`rt lib` in crates/c_api), the package bindings/rust and the driver. Plain rustc; all
# else goes to target/oracle.
#   oracle/build.sh [FOLDER]     FOLDER holds src/..; default ../shared/docs/src beside the repository
set -eu
here=$(cd "$(dirname "$0")" && pwd)
root=$(dirname "$here")
folder=$(cd "${1:-$root/../shared/docs/src}" && pwd)
out=$root/target/oracle

(cd "$folder" && sha256sum --check --quiet "$here/rust.sha256") || { echo "oracle: these are not the Rust files" >&2; exit 1; }

# The Rust files by links, with our files where one is missing.
tree=$out/tree
rm -rf "$tree"
mkdir -p "$tree/utils" "$tree/content"
sed 's/^[^ ]*  src\///' "$here/rust.sha256" | while read -r file; do
  mkdir -p "$tree/$(dirname "$file")"
  ln -s "$folder/src/$file" "$tree/$file"
done
ln -s "$here/u8g2_fonts/lib.rs" "$tree/lib.rs"
ln -s "$here/u8g2_fonts/utils.rs" "$tree/utils/mod.rs"
ln -s "$here/u8g2_fonts/empty.rs" "$tree/content/args.rs"
ln -s "$here/u8g2_fonts/empty.rs" "$tree/content/character.rs"

compile() {
  rustc --edition 2021 -C opt-level=3 -C overflow-checks=on -C debug-assertions=on --cap-lints allow -L "$out" "$@"
}
compile --crate-type rlib --crate-name embedded_graphics_core -o "$out/libembedded_graphics_core.rlib" "$here/embedded_graphics_core.rs"
compile --crate-type rlib --crate-name u8g2_fonts --extern "embedded_graphics_core=$out/libembedded_graphics_core.rlib" -o "$out/libu8g2_fonts.rlib" "$tree/lib.rs"
(cd "$root/crates/c_api" && rt lib > "$out/staticlib.log" 2>&1) || { tail -n 20 "$out/staticlib.log" >&2; exit 1; }
compile --crate-type rlib --crate-name papayahelm -L "native=$root/crates/c_api/out" -o "$out/libpapayahelm.rlib" "$root/bindings/rust/src/lib.rs"
compile --crate-type bin --crate-name driver --extern "embedded_graphics_core=$out/libembedded_graphics_core.rlib" \
  --extern "u8g2_fonts=$out/libu8g2_fonts.rlib" --extern "papayahelm=$out/libpapayahelm.rlib" -o "$out/driver" "$here/driver/main.rs"
cc -Wall -Wextra -O2 -I "$root/bindings/c" -o "$out/boundary" "$here/boundary.c" -L "$root/crates/c_api/out" -lc_api
