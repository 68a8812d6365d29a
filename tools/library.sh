#!/bin/sh
# Proves the library for hosts with all that it rests on, and writes target/staticlib/libslotplan_lib.a, the archive of include/slotplan_lib.h. The crate
# `slotplan_lib_c` exports what the library `slotplan_lib` offers, and `rt lib` names an archive after its crate; hosts link it under the library's name.
cd "$(dirname "$0")/.." || exit 1

made=crates/slotplan_lib_c/out/libslotplan_lib_c.a
archive=target/staticlib/libslotplan_lib.a

(cd crates/slotplan_lib_c && rt lib) || exit 1
mkdir -p target/staticlib || exit 1
# An archive that has not changed keeps its time, so that nobody links it again.
cmp -s "$made" "$archive" || cp "$made" "$archive"
