#!/bin/sh
# Compares the library with the processor of this machine, in 64-bit and in 32-bit mode at once: see compare.c.
#
#   tools/processor/run.sh LIBRARY [COUNT [FILE]]
#
# LIBRARY is the folder of libfeddurzai.a, or of libfeddurzai-unproved.a; COUNT is the number of byte strings in each mode, a million by default;
# FILE is raw code, from which they are cut. Required: Linux on x86-64, gcc, the right to trace a process.
set -eu
here=$(cd "$(dirname "$0")" && pwd)
archive=$1/libfeddurzai.a
[ -f "$archive" ] || archive=$1/libfeddurzai-unproved.a
work=$(mktemp -d)
trap 'rm -rf "$work"' EXIT
gcc -std=gnu11 -O2 -Wall -Wextra -Werror -I"$here/../../capi" "$here/compare.c" "$archive" -o "$work/compare"
status=0
for bits in 64 32; do
    "$work/compare" $bits "${2:-1000000}" 1 ${3:+"$3"} >"$work/$bits.log" &
    eval "pid$bits=$!"
done
wait "$pid64" || status=1
wait "$pid32" || status=1
cat "$work/64.log" "$work/32.log"
exit $status
