#!/bin/sh
# Builds target/bench: the comparison of the proved run with its twins. editor/build.sh comes first.
set -eu
cd "$(dirname "$0")/.."
kit=$(dirname "$(rt doc)")
rustc -O --edition 2021 -D warnings bench/main.rs -o target/bench \
    -C link-arg=target/staticlib/librun.a -C link-arg="$kit/c/liblibc_c.a"
