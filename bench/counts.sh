#!/usr/bin/env bash
# Counts the machine instructions of each thing that the library and the program do, by valgrind. Other work on the machine does
# not change the counts. bench/README.md describes the lines.
#
#     bench/counts.sh FILE [BITS]
#
# FILE is raw code; its first 500,000 bytes are used (COUNTED=n for another number). Builds are kept in $BENCH_FOLDER, or in a folder of
# $TMPDIR if it is not set, and made if they are missing.
set -euo pipefail

if [ $# -lt 1 ] || [ $# -gt 2 ]; then
    echo "usage: $0 FILE [BITS], with FILE raw code and BITS 16, 32 or 64" >&2
    exit 1
fi
command -v valgrind >/dev/null || { echo "$0: valgrind is not installed: install it (Debian: valgrind)" >&2; exit 1; }
file=$(realpath "$1")
bits=${2:-64}
top=$(realpath "$(dirname "$0")/..")
folder=${BENCH_FOLDER:-${TMPDIR:-/tmp}/feddurzai-bench}
mkdir -p "$folder"
part=$folder/counted.bin
head -c "${COUNTED:-500000}" "$file" >"$part"

# Builds a program of the repository by LLVM: CRATE ARGUMENT..
build() {
    local crate=$1
    shift
    [ -x "$folder/$crate" ] && return
    (cd "$top/crates/$crate" && rt run -- "$@" </dev/null >/dev/null)
    cp "$top/crates/$crate/out/$crate" "$folder/$crate"
}

# The machine instructions of a command, whose output is discarded: COMMAND ARGUMENT..
count() {
    valgrind --tool=cachegrind --cache-sim=no --cachegrind-out-file=/dev/null "$@" 2>&1 >/dev/null | sed -n 's/.*I *refs: *//p' | tr -d ,
}

# A line of the table: NAME INSTRUCTIONS ITEMS
line() {
    awk -v name="$1" -v all="$2" -v items="$3" 'BEGIN { printf "%-28s %9.0f\n", name, all / items }'
}

# The machine instructions of the second pass of a measurement: COMMAND ARGUMENT.., with the number of passes as the last argument
second_pass() {
    echo $(($(count "$@" 2 <"$part") - $(count "$@" 1 <"$part")))
}

# The machine instructions of a command of the program without its start: INPUT ARGUMENT.., with a file as standard input
whole() {
    local input=$1
    shift
    head -c 1 "$input" >"$folder/least.bin"
    echo $(($(count "$folder/listing_program" "$@" <"$input") - $(count "$folder/listing_program" "$@" <"$folder/least.bin" || true)))
}

build decode_speed count "$bits"
build listing_program --version
list=$folder/counted.list
"$folder/listing_program" list "$bits" 0 intel <"$part" >"$list"
lines=$(wc -l <"$list")

read=$(second_pass "$folder/decode_speed" read "$bits")
line "decode" "$read" "$lines"
print=$(second_pass "$folder/decode_speed" print "$bits")
line "Intel text, on top" $((print - read)) "$lines"
line "its pieces, on top of a text" $(($(second_pass "$folder/decode_speed" pieces "$bits") - print)) "$lines"
line "text_with, on top of a text" $(($(second_pass "$folder/decode_speed" format "$bits") - print)) "$lines"
line "encode, on top of decode" $(($(second_pass "$folder/decode_speed" encode "$bits") - read)) "$lines"
line "a line of list intel" "$(whole "$part" list "$bits" 0 intel)" "$lines"
line "a line of list att" "$(whole "$part" list "$bits" 0 att)" "$lines"

# info, recode and move end at bad code, so they get the code before the first single byte
bad=$(awk '$3 == "db" { print $1; exit }' "$list")
code=$folder/counted-code.bin
if [ -n "$bad" ]; then head -c $((16#$bad)) "$part" >"$code"; else cp "$part" "$code"; fi
line "a line of info" "$(whole "$code" info "$bits" 0)" "$("$folder/listing_program" info "$bits" 0 <"$code" | wc -l)"
line "a line of recode" "$(whole "$code" recode "$bits" 0 "$bits" 0)" "$("$folder/listing_program" recode "$bits" 0 "$bits" 0 <"$code" | wc -l)"

# the texts keep their listed addresses as long as no encoding becomes shorter: the first run of lines
texts=$folder/counted.txt
head -n "${ASM_LINES:-20000}" "$list" | cut -c49- >"$texts"
line "a line of asm" "$(whole "$texts" asm "$bits" 0)" "$(wc -l <"$texts")"

moved=$folder/counted-moved.bin
end=$(awk 'NR == 65536 { print $1; exit } $3 == "db" { print $1; exit }' "$list")
if [ -n "$end" ]; then head -c $((16#$end)) "$part" >"$moved"; else cp "$part" "$moved"; fi
line "an instruction of move" "$(whole "$moved" move "$bits" 400000 10000000)" "$("$folder/listing_program" map "$bits" 400000 10000000 <"$moved" | wc -l)"

# the library for C, built once: capi/build.sh FOLDER/capi
if [ ! -f "$folder/capi/libfeddurzai.a" ]; then "$top/capi/build.sh" "$folder/capi" >&2; fi
for work in decode many text line encode effects; do
    flags=()
    case $work in text) flags=(-DWITH_TEXT) ;; line) flags=(-DWITH_LINE) ;; encode) flags=(-DWITH_ENCODE) ;; effects) flags=(-DWITH_EFFECTS) ;; many) flags=(-DWITH_MANY) ;; esac
    cc -O2 -o "$folder/c_$work" "$top/bench/peers/feddurzai.c" -I"$top/capi" "${flags[@]}" "$folder/capi/libfeddurzai.a"
    one=$(count "$folder/c_$work" "$part" "$bits" 1)
    two=$(count "$folder/c_$work" "$part" "$bits" 2)
    line "C: $(case $work in decode) echo feddurzai_decode ;; many) echo feddurzai_decode_many ;; line) echo feddurzai_line ;; *) echo "decode and $work" ;; esac)" $((two - one)) "$lines"
done

# a routine of the same texts, at an address from which its calls reach, with labels for the branches inside it: as asm reads its lines, and as people write them
base=400000
if [ "$bits" = 16 ]; then base=4000; fi
near=$folder/counted-near.list
"$folder/listing_program" list "$bits" "$base" intel <"$part" >"$near"
cc -O2 -o "$folder/c_assemble" "$top/bench/peers/assemble.c" -I"$top/capi" "$folder/capi/libfeddurzai.a"
for style in asm free; do
    routine=$folder/counted-$style.txt
    "$top/bench/routine_texts.py" "$near" "${ASM_LINES:-20000}" "$style" >"$routine"
    one=$(count "$folder/c_assemble" "$routine" "$bits" 1)
    two=$(count "$folder/c_assemble" "$routine" "$bits" 2)
    line "C: a line of a routine, $style" $((two - one)) "$(wc -l <"$routine")"
done
