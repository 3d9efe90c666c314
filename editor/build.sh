#!/bin/sh
# Builds target/study and target/edges from their C programs and the proved run, which it proves and builds first as
# target/staticlib/librun.a.
set -eu
cd "$(dirname "$0")/.."
kit=$(dirname "$(rt doc)")
(cd crates/run_c && rt lib)
mkdir -p target/staticlib
cp crates/run_c/out/librun_c.a target/staticlib/librun.a
for program in study edges; do
    "${CC:-cc}" -std=c11 -O2 -Wall -Wextra -Werror -pedantic -pthread -Ieditor \
        "editor/$program.c" target/staticlib/librun.a "$kit/c/liblibc_c.a" -o "target/$program"
done
