#!/usr/bin/env bash
# Builds the oracle and compares it with our calls: oracle/run.sh [SEED] [COUNT], default 1 and 1000000. The exit status is 0
# where no answer differs. ORACLE_RUST names the folder of the Rust files (default ../shared/docs/src beside the repository).
set -eu
here=$(cd "$(dirname "$0")" && pwd)
"$here/build.sh" ${ORACLE_RUST:+"$ORACLE_RUST"}
"$(dirname "$here")/target/oracle/boundary" || { echo "oracle: the boundary is not as papayahelm.h says" >&2; exit 1; }
"$(dirname "$here")/target/oracle/driver" compare "${1:-1}" "${2:-1000000}"
