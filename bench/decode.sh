#!/usr/bin/env bash
# Measures how fast this library and others decode, print and encode a file of code. bench/README.md describes the output.
#
#     bench/decode.sh FILE [BITS]
set -euo pipefail

if [ $# -lt 1 ] || [ $# -gt 2 ]; then
    echo "usage: $0 FILE [BITS], with FILE raw code and BITS 16, 32 or 64" >&2
    exit 1
fi
file=$(realpath "$1")
bits=${2:-64}
rounds=${ROUNDS:-2}
top=$(realpath "$(dirname "$0")/..")
folder=${BENCH_FOLDER:-${TMPDIR:-/tmp}/feddurzai-bench}
program=$top/crates/decode_speed
mkdir -p "$folder/peers"

# Builds the measured crate by each of the two compilers.
build() {
    local compiler
    for compiler in llvm rattle; do
        (cd "$program" && rt run --backend "$compiler" -- count "$bits" <stdin)
        cp "$program/out/decode_speed" "$folder/by_$compiler"
    done
}

# Builds a peer, or reports that its library is missing: NAME SOURCE FLAG..
peer() {
    local name=$1 source=$2
    shift 2
    rm -f "$folder/peers/$name"
    cc -O2 -o "$folder/peers/$name" "$top/bench/peers/$source" "$@" 2>"$folder/peers/$name.log" || echo "$name: left out, its library is not installed or it does not compile: see $folder/peers/$name.log" >&2
}

# Runs one measurement over a file: NAME FILE PASSES. Our names are COMPILER_WORK. If COUNTER is set, runs under that command.
run() {
    case $1 in
    llvm_* | rattle_*) ${COUNTER:-} "$folder/by_${1%_*}" "${1#*_}" "$bits" "$3" <"$2" | sed "s/^feddurzai/feddurzai by ${1%_*}/" ;;
    *) [ ! -x "$folder/peers/$1" ] || ${COUNTER:-} "$folder/peers/$1" "$2" "$bits" "$3" ;;
    esac
}

# Adds MB/s and ns for each item to the lines `NAME: B bytes I items E errors S sum P passes U us`.
with_rates() {
    awk '{
        match($0, /: [0-9]+ bytes/); name = substr($0, 1, RSTART - 1); $0 = substr($0, RSTART + 2)
        passes = $9 > 0 ? $9 : 1; micros = $11 > 0 ? $11 : 1
        printf "%-32s %9d bytes %8d items %6d errors %3d passes %7.3f s %8.2f MB/s %8.1f ns/item\n",
            name, $1, $3, $5, passes, micros / 1e6, $1 * passes / micros, micros * 1000 / (($3 + $5) * passes)
    }'
}

# objdump, one pass, with its start and its output, which is discarded.
objdump_line() {
    local machine items used
    case $bits in 16) machine=i8086 ;; 32) machine=i386 ;; *) machine=i386:x86-64 ;; esac
    items=$(objdump -D -b binary -m "$machine" --no-show-raw-insn "$file" | grep -c '^ *[0-9a-f]*:')
    TIMEFORMAT='%U %S'
    used=$({ time objdump -D -b binary -m "$machine" --no-show-raw-insn "$file" >/dev/null; } 2>&1)
    echo "$used" | awk -v size="$(stat -c %s "$file")" -v items="$items" '{ printf "objdump: %d bytes %d items 0 errors 0 sum 1 passes %d us\n", size, items, ($1 + $2) * 1e6 }'
}

build >&2
"$top/capi/build.sh" "$folder/capi" >&2
peer feddurzai_c feddurzai.c -I"$top/capi" "$folder/capi/libfeddurzai.a"
peer feddurzai_c_text feddurzai.c -DWITH_TEXT -I"$top/capi" "$folder/capi/libfeddurzai.a"
peer feddurzai_c_line feddurzai.c -DWITH_LINE -I"$top/capi" "$folder/capi/libfeddurzai.a"
peer feddurzai_c_encode feddurzai.c -DWITH_ENCODE -I"$top/capi" "$folder/capi/libfeddurzai.a"
peer zydis_encode zydis.c -DWITH_ENCODE -lZydis
peer zydis_text zydis.c -DWITH_TEXT -lZydis
peer distorm_text distorm.c -DWITH_TEXT -ldistorm3
peer capstone_detail capstone.c -lcapstone
peer capstone_plain capstone.c -DNO_DETAIL -lcapstone
peer zydis_operands zydis.c -lZydis
peer zydis_plain zydis.c -DNO_OPERANDS -lZydis
peer distorm distorm.c -ldistorm3
peer llvm llvm.c $(llvm-config-14 --cflags --ldflags 2>/dev/null || true) -lLLVM-14
names="llvm_read llvm_print llvm_encode rattle_read rattle_print rattle_encode feddurzai_c feddurzai_c_text feddurzai_c_line feddurzai_c_encode zydis_operands zydis_text zydis_encode zydis_plain distorm distorm_text capstone_detail capstone_plain llvm"

for round in $(seq "$rounds"); do
    echo "round $round, processor time"
    for name in $names; do
        run "$name" "$file" 0
    done | with_rates
    objdump_line | with_rates
done

echo "each instruction encoded at its own address and decoded again"
"$folder/by_llvm" check "$bits" 1 <"$file"

if command -v valgrind >/dev/null; then
    echo "machine instructions of one pass over the first 500,000 bytes, by valgrind (two passes less one)"
    head -c 500000 "$file" >"$folder/part"
    for name in $names; do
        seen=()
        for passes in 1 2; do
            COUNTER="valgrind --tool=cachegrind --cache-sim=no --cachegrind-out-file=/dev/null" run "$name" "$folder/part" "$passes" >"$folder/line" 2>"$folder/count" || true
            seen+=("$(sed -n 's/.*I *refs: *//p' "$folder/count" | tr -d ,)")
        done
        [ -z "${seen[1]}" ] || sed 's/^[^:]*: //' "$folder/line" | awk -v name="$name" -v one="${seen[0]}" -v two="${seen[1]}" '{
            printf "%-32s %12d instructions %8.1f a byte %8.1f an item\n", name, two - one, (two - one) / $1, (two - one) / ($3 + $5) }'
    done
fi
