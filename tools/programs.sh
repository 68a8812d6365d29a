#!/bin/sh
# Proves programs with all that they rest on, builds them and puts them into target/bin/.
#
# usage: tools/programs.sh NAME ..
#
# `rt run` builds a program and runs it, here on an empty input; with no change since, it proves nothing again. With SLOTPLAN_PROVED=1 in the environment the
# programs are taken that `rt ci` left in crates/NAME/out after it had proved them, as they are.
cd "$(dirname "$0")/.." || exit 1

fail() {
    echo "tools/programs.sh: $1" >&2
    exit 1
}

[ $# -gt 0 ] || fail "usage: tools/programs.sh NAME .."
mkdir -p target/bin || exit 1
for name in "$@"; do
    made=crates/$name/out/$name
    [ -f "crates/$name/src/main.rt" ] || fail "$name is no program of crates/"
    if [ "$SLOTPLAN_PROVED" != 1 ]; then
        (cd "crates/$name" && rt run </dev/null >/dev/null) || fail "rt run failed in crates/$name"
    fi
    [ -x "$made" ] || fail "$made is not there"
    # Whoever runs the program while it is replaced keeps the one that was there.
    cmp -s "$made" "target/bin/$name" || { cp "$made" "target/bin/$name.new" && mv "target/bin/$name.new" "target/bin/$name"; } || exit 1
done
