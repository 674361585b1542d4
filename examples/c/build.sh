#!/usr/bin/env bash
# Builds the library for C and the two programs of this folder, and runs them:
# check_round on a real round, whose output has to be the one that is stored,
# and hostile, which has to find every answer as the header says. Both are built
# as C99 without a warning, with the sanitizers too, and once as C++. Where there
# is a valgrind, both run under it. The status is 1 where something is not so.
#
#   examples/c/build.sh
#
# It needs rt, and cc and c++ (or what CC and CXX name).
set -eu

here=$(cd "$(dirname "$0")" && pwd)
top=$(cd "$here/../.." && pwd)
archive=$top/crates/yatesorrel_c/out/libyatesorrel_c.a
work=$(mktemp -d)
trap 'rm -rf "$work"' EXIT
cc=${CC:-cc}
cxx=${CXX:-c++}
warnings="-Wall -Wextra -pedantic -Werror -I$top/include"

# compiled NAME COMPILER OPTION...: leaves the program in $work/NAME
compiled() {
    local name=$1 compiler=$2
    shift 2
    # shellcheck disable=SC2086
    "$compiler" $warnings "$@" -x none "$archive" -o "$work/$name"
}

# run_both WORD...: runs the two programs, each below these words
run_both() {
    "$@" "$work/check_round" "$top/examples/piezometer_pair.bin" "$top/examples/piezometer_pair.tape" 100 >"$work/said"
    diff "$here/check_round.expected" "$work/said"
    "$@" "$work/hostile"
}

# built_and_run COMPILER OPTION...
built_and_run() {
    local compiler=$1
    shift
    echo "== $compiler $*"
    compiled check_round "$compiler" "$@" "$here/check_round.c"
    compiled hostile "$compiler" "$@" "$here/hostile.c"
    run_both env
}

(cd "$top/crates/yatesorrel_c" && rt lib) >"$work/rt.log" 2>&1 || {
    cat "$work/rt.log"
    exit 1
}
built_and_run "$cc" -std=c11 -O2 -fsanitize=address,undefined -fno-sanitize-recover=all
built_and_run "$cxx" -std=c++17 -O2 -x c++
built_and_run "$cc" -std=c99 -O2
if command -v valgrind >"$work/valgrind"; then
    echo "== valgrind"
    run_both valgrind -q --error-exitcode=1
fi
echo "as it should be"
