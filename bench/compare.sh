#!/usr/bin/env bash
# Holds the C library against the twin on random and hostile inputs. It builds
# the library where its sources are newer than its archive, and the driver. The
# status is 0 where all answers are alike, 1 at the first difference, and 2 where
# too few kinds of answers were met.
#
#   bench/compare.sh                                 a million inputs, a new seed
#   bench/compare.sh --seed 7 --inputs 100000        the same inputs again
#   bench/compare.sh --seed 7 --only 4711            one of them
#
# It needs the kit's rt and a Rust toolchain, and nothing from outside.
set -eu

cd "$(dirname "$0")"
archive=../crates/yatesorrel_c/out/libyatesorrel_c.a

is_old() {
    [ ! -f "$archive" ] || [ -n "$(find ../crates -name '*.rt' -newer "$archive" -print -quit)" ]
}

if is_old; then
    (cd ../crates/yatesorrel_c && rt lib)
fi
cargo build --release --offline --quiet
exec target/release/compare "$@"
