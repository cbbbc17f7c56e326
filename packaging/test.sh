#!/bin/sh
# Tests the packages of packaging/build.sh in a fresh Debian system in a folder, without the kit, and without a compiler until this
# script installs one there. Root is needed.
#
#   packaging/test.sh OUT
#
# The steps: list the code of /bin/ls with the program, before a compiler is installed; run the Python package and its examples from
# the wheel, in a venv without a network, and from the Debian package; compile the C examples with pkg-config and run them, with the
# shared library and with the static one; walk the stack at each instruction of the library, and in gdb from malloc to main; run the
# GDB commands; run all commands of the inspector on gdb, the C library, libcrypto, a stripped program, an object file, a
# position-independent and a static program, a 32-bit library, a file of another machine, a truncated and 100 spoiled files, from the
# Debian package and from the wheel; build the crate for Rust with Debian's cargo and without a network, run its tests, and list /bin/ls with its example;
# remove the packages and check that no file is left; run the program and the libraries of the .tar.gz.
#
# Required: mmdebstrap, unshare, chroot, objcopy, readelf, and a Debian mirror. Variables of the environment:
#
#   SUITE                 the Debian release; the default is bookworm
#   MIRROR                a mirror; the default is that of mmdebstrap
#   MMDEBSTRAP_OPTIONS    more options for mmdebstrap, such as --aptopt=FILE behind a proxy
#   TMPDIR                the folder for the system, which takes some 1800 MB; the default is /tmp
#   PICTURES              a folder that receives the pages and graphs that the inspector draws there, to be looked at
#
# Each step prints what it checked. The first failure is printed with the output of its command, and the status is then 1.
set -eu
export LC_ALL=C.UTF-8
umask 022
if [ "${1:-}" = --help ]; then
    sed -n '2,/^set/s/^# \{0,1\}//p' "$0"
    exit 0
fi
if [ $# -ne 1 ]; then
    echo "usage: packaging/test.sh OUT    (see --help)" >&2
    exit 1
fi
here=$(cd "$(dirname "$0")" && pwd)
capi=$here/../capi
suite=${SUITE:-bookworm}

say() { printf '%s\n' "$*"; }
die() { say "test.sh: $*" >&2; exit 1; }

[ "$(id -u)" -eq 0 ] || die "root is needed for mmdebstrap and chroot; capi/test.sh has the tests that need no root"
for tool in mmdebstrap unshare chroot objcopy readelf; do
    command -v "$tool" >/dev/null || die "$tool is not installed: --help lists the required tools"
done
[ -f "$1/SHA256SUMS" ] || die "no $1/SHA256SUMS: build the packages with packaging/build.sh $1"
out=$(cd "$1" && pwd)
(cd "$out" && sha256sum --quiet -c SHA256SUMS) || die "the files of $out do not match its SHA256SUMS"
version=$(sed -n '1s/^Feddurzai //p' "$out/PROVED")
library=$(basename "$out"/libfeddurzai[0-9]*_*.deb "_${version}_amd64.deb")
interface=${library#libfeddurzai}
say "packages: version $version, $library, checksums correct"

work=$(mktemp -d "${TMPDIR:-/tmp}/feddurzai-test.XXXXXX")
root=$work/root
log=$work/log
trap 'rm -rf --one-file-system "$work"' EXIT
trap 'exit 1' INT TERM

# the output of mmdebstrap goes to the log
# shellcheck disable=SC2086
mmdebstrap --variant=apt ${MMDEBSTRAP_OPTIONS:-} "$suite" "$root" ${MIRROR:-} >"$log" 2>&1 || { tail -20 "$log" >&2; die "mmdebstrap failed: MIRROR and MMDEBSTRAP_OPTIONS may help"; }
[ -f "$root/etc/resolv.conf" ] || cp /etc/resolv.conf "$root/etc/" 2>/dev/null || true
say "system: Debian $suite, $(find "$root/var/lib/dpkg/info" -name '*.list' | wc -l) packages"

# run_in NAMESPACES WORDS..: runs a command in the system, with its own /proc and a clean environment
run_in() {
    more=$1
    shift
    # shellcheck disable=SC2016,SC2086
    unshare --mount --fork $more sh -c 'mount -t proc proc "$0/proc" && exec chroot "$0" "$@"' "$root" \
        env -i PATH=/usr/sbin:/usr/bin:/sbin:/bin HOME=/root LC_ALL=C.UTF-8 DEBIAN_FRONTEND=noninteractive \
        ${http_proxy:+"http_proxy=$http_proxy"} ${https_proxy:+"https_proxy=$https_proxy"} "$@"
}
# inside WHAT WORDS..: runs a command that must succeed; its output goes to $log
inside() {
    what=$1
    shift
    run_in "" "$@" >"$log" 2>&1 || { tail -40 "$log" >&2; die "$what: status $? of: $*"; }
}
# alone WHAT WORDS..: runs it without a network
alone() {
    what=$1
    shift
    run_in --net "$@" >"$log" 2>&1 || { tail -40 "$log" >&2; die "$what: status $? of: $*"; }
}
# says PATTERN WHAT: checks that a line of the log matches
says() {
    grep -Eq -- "$1" "$log" || { tail -40 "$log" >&2; die "$2: no line matches $1"; }
}
installs() { inside "apt-get install $*" apt-get install -y --no-install-recommends "$@"; }
has_no() {
    for tool in "$@"; do
        if run_in "" sh -c "command -v $tool" >/dev/null 2>&1; then die "the system has $tool, which this script did not install"; fi
    done
}

mkdir "$root/packages" "$root/try"
cp "$out"/*.deb "$out"/*.whl "$out"/*.crate "$out"/*.tar.gz "$root/packages/"
cp "$capi"/examples/*.py "$capi/tests/calls.py" "$capi/tests/unwind.c" "$root/try/"
has_no rt rattle gcc cc clang tcc python3
inside "apt-get update" apt-get update

# ---- the program alone
installs "/packages/feddurzai_${version}_amd64.deb"
has_no gcc cc clang tcc python3
ls=$(readlink -f "$root/bin/ls")
objcopy -O binary --only-section=.text "$ls" "$root/try/ls.bin"
at=$(readelf -W -S "$ls" | sed -n 's/^ *\[ *[0-9]*\] \.text *PROGBITS *0*\([0-9a-f]*\) .*/\1/p')
if [ -z "$at" ] || [ ! -s "$root/try/ls.bin" ]; then die "/bin/ls of the system has no .text"; fi
for style in intel att masm; do
    # shellcheck disable=SC2016
    inside "list in style $style" sh -c 'feddurzai list 64 "$0" "$1" </try/ls.bin >/try/ls."$1"' "$at" "$style"
done
[ "$(head -c 16 "$root/try/ls.intel")" = "$(printf '%016x' "0x$at")" ] || die "the listing of /bin/ls does not start at $at"
grep -q ' ret$' "$root/try/ls.intel" || die "the listing of /bin/ls has no ret"
inside "version" feddurzai --version
says "^feddurzai $version\$" "feddurzai --version"
inside "a wrong word" sh -c 'feddurzai list 64 0 nasm </dev/null; test $? -eq 1'
says '^usage: word 4$' "a wrong word"
# shellcheck disable=SC2016
inside "completion" bash -c 'source /usr/share/bash-completion/completions/feddurzai; COMP_WORDS=(feddurzai list 64 0 m); COMP_CWORD=4; _feddurzai; test "${COMPREPLY[*]}" = masm'
inside "manual" sh -c 'gzip -t /usr/share/man/man1/feddurzai.1.gz'
say "feddurzai: listed /bin/ls, $(wc -l <"$root/try/ls.intel") lines in each of three styles, without a compiler and without Python"

# ---- the wheel, without the Debian package and without a network
installs python3 python3-venv python3-pyelftools
alone "venv" python3 -m venv /try/venv
alone "pip" sh -c '/try/venv/bin/pip install --no-index --disable-pip-version-check /packages/*.whl'
# pyelftools comes from Debian
mkdir "$root/try/elftools"
ln -s /usr/lib/python3/dist-packages/elftools "$root/try/elftools/elftools"

# tries_python PYTHON WHERE FOLDER LIBRARY: tests the package in WHERE, its library in LIBRARY, and the examples of a folder
tries_python() {
    # shellcheck disable=SC2016
    alone "import" "$1" -c 'import sys, feddurzai
maps = {line.split()[-1] for line in open("/proc/self/maps") if "libfeddurzai" in line}
print(feddurzai.__file__, *maps)
sys.exit(not (feddurzai.__file__.startswith(sys.argv[1]) and len(maps) == 1 and maps.pop().startswith(sys.argv[2])))' "$2" "$4"
    alone "calls.py" "$1" /try/calls.py
    said=$(tail -1 "$log")
    for style in intel att masm; do
        # shellcheck disable=SC2016
        alone "disassemble.py" sh -c '"$0" "$1/disassemble.py" /try/ls.bin 64 "$2" "$3" >/try/python."$3"' "$1" "$3" "$at" "$style"
        cmp "$root/try/python.$style" "$root/try/ls.$style" || die "disassemble.py and the program list /bin/ls differently"
    done
    # mov eax, edi; neg eax; cmovs eax, edi; ret
    printf '\211\370\367\330\017\110\307\303' >"$root/try/abs.bin"
    alone "liveness.py" "$1" "$3/liveness.py" /try/abs.bin 64 401000
    says '^0000000000401002 +neg eax +OF SF ZF AF PF CF$' "liveness.py"
    alone "feddurzai-inspect list" env PYTHONPATH=/try/elftools "$1" -m feddurzai list /bin/ls .text
    says ' call 0x' "feddurzai-inspect list"
    alone "feddurzai-inspect needs" env PYTHONPATH=/try/elftools "$1" -m feddurzai needs /bin/ls
    says 'reached from the entry points: x86-64-v[1-4]' "feddurzai-inspect needs"
}
tries_python /try/venv/bin/python /try/venv/ /try /try/venv/
say "wheel: pip installed it without a network; the examples ran in a venv; $said"
rm -r "$root/try/venv"

# ---- the Debian package of Python
installs "/packages/${library}_${version}_amd64.deb" "/packages/python3-feddurzai_${version}_all.deb"
has_no gcc cc clang tcc
tries_python /usr/bin/python3 /usr/lib/python3/dist-packages/ /usr/share/doc/python3-feddurzai/examples /usr/lib/x86_64-linux-gnu/
say "python3-feddurzai: the examples ran; $said"

# ---- C
installs gcc libc6-dev pkg-config gdb zlib1g-dev "/packages/libfeddurzai-dev_${version}_amd64.deb"
mkdir "$root/try/c"
cat >"$root/try/c/moves.c" <<'END_OF_SOURCE'
#include <feddurzai.h>
#include <stdio.h>
int main(void)
{
    static const uint8_t code[] = {0x74, 0x10};
    uint8_t out[64];
    feddurzai_moved map[1];
    feddurzai_move_report report;
    int32_t len = feddurzai_move(64, 0x1000, code, sizeof code, 0x7fff00000000, out, sizeof out, map, 1, &report);
    printf("%d bytes\n", (int)len);
    return len != 16;
}
END_OF_SOURCE
# compiles SOURCE OUT shared|static: compiles with the flags of pkg-config, and the examples of hooks with the hooking library
compiles() {
    # shellcheck disable=SC2016
    inside "gcc $1, $3" sh -c '
        before= after= hook=
        [ "$2" = shared ] || { before=-Wl,-Bstatic; after=-Wl,-Bdynamic; }
        case $0 in */hook*) hook=$(pkg-config --variable=hook feddurzai) ;; esac
        gcc -std=gnu11 -O2 -g -Wall -Wextra -Werror -pthread $(pkg-config --cflags feddurzai) "$0" $hook \
            $before $(pkg-config --libs feddurzai) $after -ldl -o "$1"' "$1" "$2" "$3"
    if [ "$3" = shared ]; then wanted=1; else wanted=0; fi
    found=$(readelf -W -d "$root$2" | grep -c "NEEDED.*libfeddurzai.so.$interface\]" || true)
    [ "$found" -eq "$wanted" ] || die "$2 is not linked with the $3 library"
}
for kind in shared static; do
    for source in "$root"/usr/share/doc/libfeddurzai-dev/examples/*.c "$root/try/unwind.c" "$root/try/c/moves.c"; do
        name=$(basename "$source" .c)
        compiles "${source#"$root"}" "/try/c/$name" "$kind"
    done
    for style in intel att masm; do
        # shellcheck disable=SC2016
        inside "disassemble, $kind" sh -c '/try/c/disassemble /try/ls.bin 64 "$0" "$1" >/try/c."$1"' "$at" "$style"
        cmp "$root/try/c.$style" "$root/try/ls.$style" || die "disassemble.c, $kind, and the program list /bin/ls differently"
    done
    inside "hook, $kind" /try/c/hook
    inside "hook_many, $kind" /try/c/hook_many
    many=$(tail -1 "$log")
    inside "hook_libraries, $kind" /try/c/hook_libraries
    libraries=$(tail -1 "$log")
    inside "hook_threads, $kind" /try/c/hook_threads
    threads=$(tail -1 "$log")
    inside "step, $kind" /try/c/step
    stepped=$(tail -1 "$log")
    inside "assemble, $kind" /try/c/assemble
    assembled=$(tail -1 "$log")
    inside "unwind, $kind" /try/c/unwind
    walked=$(tail -1 "$log")
    # the backtrace from the malloc call within feddurzai_move
    inside "gdb, $kind" gdb -nx -batch -ex 'break feddurzai_move' -ex run -ex 'break malloc' -ex continue -ex backtrace /try/c/moves
    says '^#0 .* malloc ' "gdb, $kind: the breakpoint of malloc"
    says '^#[1-9].* feddurzai_move ' "gdb, $kind: the backtrace"
    says '^#[1-9][0-9]* .* main ' "gdb, $kind: the backtrace"
    say "libfeddurzai-dev, $kind: disassemble.c lists like the program; hook.c ran; hook_many.c: $many; step.c: $stepped; assemble.c: $assembled"
    say "libfeddurzai-dev, $kind: hook_libraries.c: $libraries; hook_threads.c: $threads"
    say "libfeddurzai-dev, $kind: $walked; the backtrace of gdb goes from malloc through feddurzai_move to main"
done

# ---- GDB's commands
inside "gdb" gdb -nx -batch -ex 'source /usr/share/feddurzai/gdb.py' -ex 'break main' -ex run -ex 'feddurzai-list' -ex 'feddurzai-flow main att' \
    -ex 'set feddurzai-effects on' -ex stepi -ex 'feddurzai-list /2' /try/c/moves
says '^=> 0x[0-9a-f]+ <main(\+[0-9]+)?>: ' "feddurzai-list"
says '^block 0x[0-9a-f]+ <main' "feddurzai-flow"
if grep -q Traceback "$log"; then tail -40 "$log" >&2; die "the GDB commands raised a Python exception"; fi
say "gdb: feddurzai-list and feddurzai-flow ran in a stopped process"

# ---- the inspector on files of the system: from the Debian package, and from the wheel in a venv
installs graphviz python3-pyelftools libc6-i386 libc6-arm64-cross
cp "$capi/tests/inspect_files.py" "$root/try/"
# inspects WHAT PYTHON COMMAND..: all commands on many kinds of files, and the page of the needs of /usr/bin
inspects() {
    what=$1
    python=$2
    shift 2
    alone "inspect_files.py, $what" "$python" /try/inspect_files.py /try/inspected "$@"
    sed "s/^/inspector, $what: /" "$log"
    alone "needs of /usr/bin, $what" "$@" needs --jobs 4 --page /try/inspected/needs.html /usr/bin
    grep -q '<svg' "$root/try/inspected/needs.html" || die "the page of the needs of /usr/bin has no chart"
    [ -z "${PICTURES:-}" ] || { mkdir -p "$PICTURES" && cp -r "$root/try/inspected/." "$PICTURES/"; }
    rm -r "$root/try/inspected"
}
inspects "Debian package" /usr/bin/python3 feddurzai-inspect
inside "the manual of feddurzai-inspect" gzip -t /usr/share/man/man1/feddurzai-inspect.1.gz
alone "venv" python3 -m venv --system-site-packages /try/venv
alone "pip" sh -c '/try/venv/bin/pip install --no-index --no-deps --ignore-installed --disable-pip-version-check /packages/*.whl'
alone "import" /try/venv/bin/python -c 'import sys, feddurzai; sys.exit(not feddurzai.__file__.startswith("/try/venv/"))'
inspects "wheel" /try/venv/bin/python /try/venv/bin/feddurzai-inspect
rm -r "$root/try/venv"

# ---- Rust: with the shared library by pkg-config, and with the static one
installs cargo rustc
inside "the crate" tar -xzf "/packages/feddurzai-$version.crate" -C /try
crate=/try/feddurzai-$version
for kind in shared static; do
    if [ "$kind" = shared ]; then wanted=0; else wanted=1; fi
    # cargo WORDS..: runs cargo in the crate
    cargo() { alone "cargo, $kind" env "FEDDURZAI_STATIC=$wanted" "CARGO_TARGET_DIR=/try/rust-$kind" cargo "$@" --offline --locked --manifest-path "$crate/Cargo.toml"; }
    cargo test
    ran=$(sed -n 's/^test result: ok\. \([0-9]*\) passed.*/\1/p' "$log" | awk '{ n += $1 } END { print n + 0 }')
    [ "$ran" -gt 0 ] || die "cargo test, $kind: no test ran"
    cargo build --release --example listing --example rewrite
    found=$(readelf -W -d "$root/try/rust-$kind/release/examples/listing" | grep -c "NEEDED.*libfeddurzai.so.$interface\]" || true)
    [ "$found" -eq $((1 - wanted)) ] || die "the example listing is not linked with the $kind library"
    for style in intel att masm; do
        # shellcheck disable=SC2016
        inside "listing, $kind" sh -c '"$0" /try/ls.bin 64 "$1" "$2" | cmp - "/try/ls.$2"' "/try/rust-$kind/release/examples/listing" "$at" "$style"
    done
    # shellcheck disable=SC2016
    inside "rewrite list, $kind" sh -c '"$0" list /try/ls.bin "$1" | cmp - /try/ls.intel' "/try/rust-$kind/release/examples/rewrite" "$at"
    say "Rust, $kind: $(run_in "" rustc --version) built the crate without a network; $ran tests passed; its listing equals the program's"
    rm -r "$root/try/rust-$kind"
done
rm -r "$root$crate"

# ---- removed
paths=$(run_in "" dpkg -L feddurzai "$library" libfeddurzai-dev python3-feddurzai | sort -u)
inside "apt-get purge" apt-get purge -y feddurzai "$library" libfeddurzai-dev python3-feddurzai
for path in $paths; do
    if [ "$path" = /. ] || { [ ! -e "$root$path" ] && [ ! -L "$root$path" ]; }; then continue; fi
    # a folder that another package also has remains
    if [ ! -d "$root$path" ] || ! run_in "" dpkg -S "$path" >/dev/null 2>&1; then die "$path remains after the removal"; fi
done
left=$(find "$root" -xdev \( -path "$root/packages" -o -path "$root/try" \) -prune -o -iname '*feddurzai*' -print)
[ -z "$left" ] || die "these files remain after the removal: $left"
# shellcheck disable=SC2016
inside "what is left" sh -c 'test -z "$(dpkg-query -W -f "\${Package}\n" | grep feddurzai)" && test -z "$(ldconfig -p | grep feddurzai)"'
say "removed: of $(printf '%s\n' "$paths" | wc -l) paths only folders of other packages remain"

# ---- the folder
inside "tar" tar -xzf "/packages/feddurzai-$version-x86_64-linux.tar.gz" -C /try
tree=/try/feddurzai-$version-x86_64-linux
# shellcheck disable=SC2016
inside "the program of the folder" sh -c '"$0/bin/feddurzai" list 64 "$1" intel </try/ls.bin | cmp - /try/ls.intel' "$tree" "$at"
# shellcheck disable=SC2016
inside "the library of the folder" sh -c 'export PKG_CONFIG_PATH=$0/lib/pkgconfig
    gcc -std=c99 -O2 $(pkg-config --cflags feddurzai) "$0/share/doc/feddurzai/examples/disassemble.c" $(pkg-config --libs feddurzai) -o /try/c/folder
    LD_LIBRARY_PATH=$0/lib /try/c/folder /try/ls.bin 64 "$1" intel | cmp - /try/ls.intel' "$tree" "$at"
# shellcheck disable=SC2016
inside "the Python package of the folder" sh -c 'PYTHONPATH=$0/share/feddurzai/python python3 "$0/share/doc/feddurzai/examples/disassemble.py" /try/ls.bin 64 "$1" intel | cmp - /try/ls.intel' "$tree" "$at"
say "folder: its program, a C client built with its feddurzai.pc, and its Python package list /bin/ls like the packaged program"
say "all passed"
