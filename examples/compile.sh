#!/usr/bin/env bash
# Compiles the rounds of this folder into images, and prints an image's bytes
# as they stand in crates/rounds/src/NAME.rt. It needs clang with the BPF target,
# and llvm-objcopy.
#
#   examples/compile.sh            writes NAME.bin beside each NAME.c
#   examples/compile.sh NAME       the same for one, and prints its bytes
#   examples/compile.sh NAME OUT   writes the image of one to the file OUT
set -eu

compile() {
    object=$(mktemp)
    clang -target bpf -O2 -mcpu=v3 -c "$1" -o "$object"
    llvm-objcopy -O binary --only-section=.text "$object" "$2"
    rm -f "$object"
}

here=$(dirname "$0")
case $# in
0)
    for source in "$here"/*.c; do
        compile "$source" "${source%.c}.bin"
    done
    ;;
1)
    compile "$here/$1.c" "$here/$1.bin"
    od -An -v -tx1 -w8 "$here/$1.bin" | sed 's/ \(..\)/\\x\1/g; s/^/     /; s/$/\\/'
    ;;
*)
    compile "$here/$1.c" "$2"
    ;;
esac
