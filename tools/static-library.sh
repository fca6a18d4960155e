#!/bin/sh
# Builds the static library of a crate and puts it under target/staticlib.
# usage: tools/static-library.sh CRATE ARCHIVE
set -eu
cd "$(dirname "$0")/.."
(cd "crates/$1" && rt lib)
mkdir -p target/staticlib
cp "crates/$1/out/lib$1.a" "target/staticlib/$2"
