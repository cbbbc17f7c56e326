#!/bin/sh
# Builds the C library with both compilers of the kit and tests it and what stands on it: each step of tests/steps.sh.
#
#   capi/test.sh [FILE]
#
# FILE is raw 64-bit code. The default is the .text of gdb, of python3 or of the C library: the first that is installed and that objcopy
# accepts. Required: the kit's `rt`, gcc with g++, binutils, python3. Used if installed: gcc- and g++-multilib, clang, gdb, pkg-config, pip,
# mypy, pyelftools, Graphviz, cargo, valgrind and dpkg-dev. Each step prints what it ran; the first that fails ends the run.
# tools/clients.sh runs the same steps at once, over one library, and goes on after a failure.
set -eu
if [ "${1:-}" = --help ]; then
    sed -n '2,/^set/s/^# \{0,1\}//p' "$0"
    exit 0
fi
here=$(cd "$(dirname "$0")" && pwd)
top=$(dirname "$here")
work=$(mktemp -d)
trap 'rm -rf "$work"' EXIT
listed=$work
backend=llvm
lib=$work/llvm
rounds=
styles='intel att masm'
. "$here/tests/steps.sh"

# step NAME: runs it in a folder of its own; a step that lacks a tool is no failure
step() {
    mkdir -p "$work/$backend.$1"
    status=0
    (work=$work/$backend.$1 && "step_$1") &
    wait $! || status=$?
    [ $status -eq 0 ] || [ $status -eq 77 ] || exit 1
}

step headers
takes_code "${1:-}"
program=$top/crates/listing_program/out/listing_program
[ -x "$program" ] || (cd "$top/crates/listing_program" && rt run -- --version) >"$work/program.log" 2>&1 || true
[ -x "$program" ] || { tail -5 "$work/program.log" >&2; die "rt did not build listing_program: the log is above"; }
lists_code
step codes
for backend in llvm rattle; do
    lib=$work/$backend
    "$here/build.sh" "$lib" $backend >/dev/null
    say "$backend: built, $(wc -c <"$lib/libfeddurzai.a") bytes"
    [ $backend = llvm ] || rounds=1000
    for name in calls examples_of_header nulls listing hooks hooks_in_threads hooks_sanitized hooks_cpp hooks32 examples unwind python gdb inspector rust; do
        step $name
    done
done
backend=llvm
lib=$work/llvm
for name in rust_lints rust_memory types installed packages manual; do step $name; done
say "all passed"
