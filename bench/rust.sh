#!/bin/sh
# Counts the machine instructions that work takes in Rust and in C, by the same library over the same bytes:
#
#   bench/rust.sh FILE [FOLDER]
#
# FILE is raw 64-bit code. FOLDER has libfeddurzai.a; the default is capi/out. For each kind of work it prints the machine instructions
# per instruction in C and in Rust, and the difference in percent. `decode` fills a struct. `text` also writes the Intel text over the
# one before it. `string` appends that text to a String, which the loop in C does not do: there it writes to a buffer. `line` decodes
# and writes the text by one call. `info` decodes and reports what the instruction does, and `encode` encodes it again. `listing` is a
# whole program that writes address, bytes and text: capi/examples/disassemble.c, and the example `rewrite list` of the crate, which
# makes the same two calls; `listing, one call` is the crate's example `listing`. The listings must be equal.
#
# What a program does before its loop is counted with an empty file, and subtracted. Required: cargo, a C compiler ($CC, or gcc) and
# valgrind. Other work on the machine does not change the counts.
#
# With ROUNDS=n in the environment the processor time of the two listings follows: the least and the median of n runs, one after the
# other in turn.
set -eu
if [ "${1:-}" = --help ] || [ $# -lt 1 ] || [ $# -gt 2 ]; then
    sed -n '2,/^set/s/^# \{0,1\}//p' "$0"
    exit "$([ "${1:-}" = --help ] && echo 0 || echo 1)"
fi
here=$(cd "$(dirname "$0")" && pwd)
file=$1
folder=$(cd "${2:-$here/../capi/out}" && pwd)
work=$(mktemp -d)
trap 'rm -rf "$work"' EXIT

for source in "$here/rust/count.c" "$here/../capi/examples/disassemble.c"; do
    "${CC:-gcc}" -std=c99 -O2 -I"$here/../capi" "$source" "$folder/libfeddurzai.a" -o "$work/$(basename "$source" .c)"
done
(cd "$here/../capi/rust" && FEDDURZAI_LIB_DIR=$folder FEDDURZAI_STATIC=1 CARGO_TARGET_DIR=$work/cargo cargo build --release --offline --locked --examples) \
    >"$work/cargo.log" 2>&1 || { cat "$work/cargo.log" >&2; exit 1; }
rust=$work/cargo/release/examples
: >"$work/empty"

# counted PROGRAM WORDS..: the machine instructions of a run
counted() {
    valgrind --tool=callgrind --callgrind-out-file=/dev/null --log-file="$work/valgrind.log" "$@" >/dev/null
    sed -n 's/.*Collected : //p' "$work/valgrind.log"
}

# reports KIND C RUST: a line of the machine instructions for each instruction
reports() {
    awk -v kind="$1" -v c="$2" -v r="$3" -v n="$instructions" 'BEGIN { printf "%-17s C %7.1f   Rust %7.1f   %+.1f %%\n", kind, c / n, r / n, 100 * (r / c - 1) }'
}

instructions=$("$work/count" "$file" decode | sed 's/ .*//')
echo "$(wc -c <"$file") bytes, $instructions instructions"
for kind in decode text string line info encode; do
    of_c=$kind
    [ "$kind" != string ] || of_c=text
    [ "$("$work/count" "$file" "$of_c")" = "$("$rust/count" "$file" "$kind")" ] || { echo "rust.sh: $kind: the two programs differ" >&2; exit 1; }
    reports "$kind" $(($(counted "$work/count" "$file" "$of_c") - $(counted "$work/count" "$work/empty" "$of_c"))) \
        $(($(counted "$rust/count" "$file" "$kind") - $(counted "$rust/count" "$work/empty" "$kind")))
done

"$work/disassemble" "$file" 64 401000 >"$work/listing.c"
"$rust/rewrite" list "$file" 401000 >"$work/listing.two"
"$rust/listing" "$file" 64 401000 >"$work/listing.one"
cmp "$work/listing.c" "$work/listing.two"
cmp "$work/listing.c" "$work/listing.one"
c=$(($(counted "$work/disassemble" "$file" 64 401000) - $(counted "$work/disassemble" "$work/empty" 64 401000)))
reports listing "$c" $(($(counted "$rust/rewrite" list "$file" 401000) - $(counted "$rust/rewrite" list "$work/empty" 401000)))
reports "listing, one call" "$c" $(($(counted "$rust/listing" "$file" 64 401000) - $(counted "$rust/listing" "$work/empty" 64 401000)))

[ "${ROUNDS:-0}" -gt 0 ] || exit 0
python3 - "$ROUNDS" "$file" "$work/disassemble" "$rust/rewrite" "$rust/listing" <<'END_OF_PROGRAM'
import resource
import statistics
import subprocess
import sys

rounds, file, c, two, one = sys.argv[1:]
RUNS = {"C": [c, file, "64", "401000"], "Rust": [two, "list", file, "401000"], "Rust, one call": [one, file, "64", "401000"]}
used = {name: [] for name in RUNS}
for _ in range(int(rounds)):
    for name, words in RUNS.items():
        before = resource.getrusage(resource.RUSAGE_CHILDREN)
        subprocess.run(words, stdout=subprocess.DEVNULL, check=True)
        after = resource.getrusage(resource.RUSAGE_CHILDREN)
        used[name].append(after.ru_utime + after.ru_stime - before.ru_utime - before.ru_stime)
for name, seconds in used.items():
    print(f"listing, {name}: {min(seconds):.2f} s at least, {statistics.median(seconds):.2f} s in the median of {rounds} runs")
END_OF_PROGRAM
