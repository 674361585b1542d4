#!/usr/bin/env bash
# Takes each round of this folder along the whole way to the borehole: compiles
# it (where there is no clang, the stored image is taken), sees that as compiled
# it does not fit its charge, places saves, certifies it with them, and runs it
# on a capacitor of that charge, cut after 30 steps, and on the mains. Both runs
# have to end by EXIT with the same log. The status is 1 where something is
# refused that should not be, or the other way round.
#
#   examples/try.sh                               prices of the operand model
#   examples/try.sh examples/field_meter.prices   prices of a meter
#
# It needs crates/yatesorrel/out/yatesorrel, which `rt run` in crates/yatesorrel builds.
set -eu

here=$(cd "$(dirname "$0")" && pwd)
program=$here/../crates/yatesorrel/out/yatesorrel
prices=${1:+$(realpath "$1")}
work=$(mktemp -d)
trap 'rm -rf "$work"' EXIT
failed=0

if [ ! -x "$program" ]; then
    echo "there is no crates/yatesorrel/out/yatesorrel; rt run in crates/yatesorrel builds it" >&2
    exit 1
fi

complain() {
    echo "NOT AS IT SHOULD BE: $*"
    failed=1
}

# ask STATUS LINES WORD...: asks the program, shows the first lines of its answer,
# and sees that it ends with the status. The answer stays in the file answer.
ask() {
    local wanted=$1 lines=$2 status=0
    shift 2
    echo "\$ yatesorrel $*"
    "$program" "$@" >answer 2>&1 || status=$?
    head -n "$lines" answer
    [ "$status" -eq "$wanted" ] || complain "status $status, not $wanted"
}

compile() {
    if command -v clang llvm-objcopy >compilers && [ "$(wc -l <compilers)" -eq 2 ]; then
        "$here/compile.sh" "$1" "$1.bin"
        cmp -s "$1.bin" "$here/$1.bin" ||
            echo "(this compiler gives other bytes than $1.bin has)"
    else
        echo "(no clang: the stored $1.bin is taken)"
        cp "$here/$1.bin" .
    fi
}

# run NAME SUPPLY WORD...: leaves the log in NAME.log
run() {
    local name=$1
    ask 0 100 run "$name.saves" "$name.tape" "${@:2}"
    grep -q '^ending exit$' answer || complain "it does not end by EXIT"
    grep '^record ' answer >"$name.log" || true
}

# try_round NAME MICROFARADS: a charge from 3 V to 1 V is 4 microjoules for each
# microfarad, and a microjoule is the unit
try_round() {
    local name=$1 budget=$(($2 * 4))
    echo "== $name, a charge of $budget units"
    compile "$name"
    cp "$here/$name.tape" .
    ask 0 1 list "$name.bin"
    ask 1 2 certify "$name.bin" "$budget" "${at[@]}"
    grep -q '^refused 10 ' answer || complain "it is not refused for its charge"
    ask 0 100 place "$name.bin" "$budget" "$name.saves" "${at[@]}"
    ask 0 2 certify "$name.saves" "$budget" "${at[@]}"
    run "$name" "capacitor:$2,3000,1000,1000000" --cut 30 "${at[@]}"
    mv "$name.log" "$name.interrupted"
    run "$name" mains "${at[@]}"
    cmp "$name.log" "$name.interrupted" || complain "the logs differ"
    echo
}

cd "$work"
at=()
if [ -n "$prices" ]; then
    cp "$prices" .
    at=(--prices "$(basename "$prices")")
fi
try_round piezometer_pair 100
try_round vnotch_weir 75
try_round eight_channel_scan 75
if [ "$failed" -eq 0 ]; then
    echo "all three as they should be"
fi
exit "$failed"
