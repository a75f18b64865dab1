#!/usr/bin/env bash
# The tests of the driver's own parts: oracle/test.sh. They need rustc alone. Their memory is limited, since shrinking must not
# hold many copies of a long font.
set -eu
here=$(cd "$(dirname "$0")" && pwd)
out=$(dirname "$here")/target/oracle
mkdir -p "$out"
rustc --edition 2021 -C opt-level=2 -C overflow-checks=on -C debug-assertions=on --cap-lints allow --test -o "$out/tests" "$here/driver/tests.rs"
ulimit -v 262144
"$out/tests" --quiet
