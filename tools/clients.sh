#!/usr/bin/env bash
# Runs the tests of what users touch over one library: the headers, C, C++, Python with its doctests and type hints, GDB, the inspector, Rust, hooks,
# the installed files, the packages, the manual page, and the counts of machine instructions. The steps are those of capi/tests/steps.sh.
#
#   tools/clients.sh [--unproved | --library FOLDER] [STEP ..]
#
# With no option the library is capi/build.sh's, from proved crates; in a clone that is not proved the proofs come first. --unproved builds it in
# a minute without proofs, for a change to a binding; what needs proved builds is then skipped. --library takes a folder of libfeddurzai.a and .so.
# STEP is a name without `step_`: all of them are run if none is given, but hooks_in_threads, which takes a processor for each of its threads.
# JOBS=n runs n at once; the default is the number of processors.
#
# A tool that is not installed is named and its step skipped. A step that fails beside others is run once more, alone. The last line counts the steps; the status is 1 if one failed.
set -uo pipefail
if [ "${1:-}" = --help ]; then
    sed -n '2,/^set/s/^# \{0,1\}//p' "$0"
    exit 0
fi
top=$(cd "$(dirname "$0")/.." && pwd)
here=$top/capi
work=$(mktemp -d)
trap 'rm -rf "$work"' EXIT
backend=llvm
rounds=1000
styles='intel att masm'
listed=$work
lib=$work/library
proved=1
case ${1:-} in
    --unproved) proved= && shift ;;
    --library) lib=$(cd "$2" && pwd) && shift 2 || exit 1 ;;
esac
if [ -f "$lib/libfeddurzai-unproved.a" ]; then proved=; fi
# shellcheck source=capi/tests/steps.sh
. "$here/tests/steps.sh"

# the library, and the program that the listings are compared with
if [ ! -d "$lib" ]; then
    "$here/build.sh" $([ -n "$proved" ] || echo --unproved) "$lib" >"$work/build.log" 2>&1 || die_with "$work/build.log" "capi/build.sh failed"
fi
if [ -z "$proved" ]; then
    # the steps name the library as it is named when it is proved
    mkdir -p "$work/named"
    for kind in a so so.$interface; do cp "$lib/libfeddurzai-unproved.$kind" "$work/named/libfeddurzai.$kind"; done
    cp "$lib/libfeddurzai-unproved.so.$interface" "$work/named/"
    lib=$work/named
    program=$work/listing_program
    printf '#!/bin/sh\ncd %s && exec rt try -- "$@" 2>/dev/null\n' "'$top/crates/listing_program'" >"$program"
    chmod +x "$program"
else
    program=$top/crates/listing_program/out/listing_program
    [ -x "$program" ] || (cd "$top/crates/listing_program" && rt run -- --version) >"$work/program.log" 2>&1
    [ -x "$program" ] || die_with "$work/program.log" "rt did not build listing_program: the log is above"
fi
takes_code
if [ -z "$proved" ]; then
    # each run of a program that is not proved compiles it first, which takes a minute
    head -c 40000 "$file" >"$work/short.bin"
    takes_code "$work/short.bin"
    styles=intel
fi
lists_code || die "the program did not list $file"

steps=("$@")
if [ $# -eq 0 ]; then
    # the longest first
    steps=(rust_memory counts installed packages hooks hooks_sanitized rust rust_lints inspector gdb python unwind hooks32 hooks_cpp calls nulls
        examples_of_header listing examples headers codes types manual)
fi
needs_proofs=" counts installed packages manual "

run_step() {
    local name=$1
    work=$work/$name
    mkdir -p "$work"
    if [ -z "$proved" ] && [[ $needs_proofs = *" $name "* ]]; then skips "$name needs a proved library"; fi
    declare -F "step_$name" >/dev/null || die "there is no step $name"
    set -eu
    "step_$name"
}
passed=0 failed=0 skipped=0
one() {
    # in the background, since `set -e` says nothing in a condition
    (run_step "$1") >"$work/$1.out" 2>&1 &
    local status=0
    wait $! || status=$?
    echo "$status" >"$work/$1.status"
}
jobs=${JOBS:-$(nproc)}
for name in "${steps[@]}"; do
    while [ "$(jobs -rp | wc -l)" -ge "$jobs" ]; do wait -n; done
    one "$name" &
done
wait
# Hooks wait for threads of the same process: beside other steps that is at times too long. What failed is run once more, alone.
for name in "${steps[@]}"; do
    case $(cat "$work/$name.status") in 0 | 77) continue ;; esac
    sed 's/^/    /' "$work/$name.out"
    echo "failed beside other steps, run again: $name"
    rm -rf "${work:?}/$name"
    one "$name"
done
for name in "${steps[@]}"; do
    status=$(cat "$work/$name.status")
    sed 's/^/    /' "$work/$name.out"
    case $status in
        0) passed=$((passed + 1)) && echo "passed: $name" ;;
        77) skipped=$((skipped + 1)) && echo "skipped: $name" ;;
        *) failed=$((failed + 1)) && echo "FAILED: $name" ;;
    esac
done
echo "clients: $passed passed, $failed failed, $skipped skipped"
[ "$failed" -eq 0 ]
