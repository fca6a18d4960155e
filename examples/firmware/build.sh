#!/bin/sh
# Builds superframe.c against the proved library; the program is target/firmware/superframe.
set -eu
cd "$(dirname "$0")/../.."
tools/static-library.sh frame_c libframe.a
mkdir -p target/firmware
cc -std=c99 -Wall -Wextra -Werror -O2 -Iinclude -o target/firmware/superframe examples/firmware/superframe.c target/staticlib/libframe.a
