#!/bin/sh
# Builds the proved libraries as static libraries, and measures them beside plain Rust.
set -eu
cd "$(dirname "$0")/.."
tools/static-library.sh frame_c libframe.a >&2
tools/static-library.sh carry libcarry.a >&2
# the kit's C library, which what allocates is linked with
RATTLE_LIB="$(dirname "$(rt doc)")/c"
export RATTLE_LIB
cargo run --release --offline --quiet --manifest-path bench/Cargo.toml
