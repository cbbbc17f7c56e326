#!/bin/sh
# Installs the library for C, Python and GDB below a folder, as /usr/local:
#
#   capi/install.sh PREFIX [FOLDER]
#
#   PREFIX/include/feddurzai.h, feddurzai_hook.h
#   PREFIX/lib/libfeddurzai.a, libfeddurzai.so, libfeddurzai.so.INTERFACE, libfeddurzai.so.INTERFACE.VERSION
#   PREFIX/lib/pkgconfig/feddurzai.pc
#   PREFIX/share/feddurzai/feddurzai_hook.c     hooks in the running program, to be compiled with it
#   PREFIX/share/feddurzai/python       the Python package: pip installs this folder, and PYTHONPATH may name it
#   PREFIX/share/feddurzai/gdb.py       the commands for GDB
#
# FOLDER has the built library. The default is capi/out, which build.sh builds first if it does not exist. Required: a C compiler ($CC, or
# gcc). If DESTDIR is set, files go below DESTDIR/PREFIX, as for packages. If LIBDIR is set, such as lib/x86_64-linux-gnu, the libraries and
# feddurzai.pc go there in place of lib. packaging/build.sh makes packages.
set -eu
if [ "${1:-}" = --help ]; then
    sed -n '2,/^set/s/^# \{0,1\}//p' "$0"
    exit 0
fi
here=$(cd "$(dirname "$0")" && pwd)
if [ $# -lt 1 ] || [ $# -gt 2 ]; then
    sed -n '2,4s/^# \{0,1\}//p' "$0" >&2
    exit 1
fi
case $1 in
    /*) prefix=${1%/} ;;
    *) prefix=$(pwd)/${1%/} ;;
esac
from=${2:-$here/out}
cc=${CC:-gcc}
[ -f "$from/libfeddurzai.so" ] || "$here/build.sh" "$from"

work=$(mktemp -d)
trap 'rm -rf "$work"' EXIT

# the library itself is the only source of its numbers
cat >"$work/versions.c" <<'SOURCE'
#include "feddurzai.h"
#include <stdio.h>
int main(void)
{
    unsigned v = feddurzai_version();
    printf("%u %u.%u.%u\n", (unsigned)feddurzai_interface(), v >> 16, v >> 8 & 255, v & 255);
    if (v & FEDDURZAI_UNPROVED)
        return 2;
    return feddurzai_interface() != FEDDURZAI_INTERFACE;
}
SOURCE
"$cc" -I"$here" "$work/versions.c" "$from/libfeddurzai.a" -o "$work/versions"
status=0
"$work/versions" >"$work/versions.txt" || status=$?
case $status in
    0) ;;
    2) echo "install.sh: the library in $from was built without proofs" >&2; exit 1 ;;
    *) echo "install.sh: the library in $from has another interface than feddurzai.h" >&2; exit 1 ;;
esac
read -r interface version <"$work/versions.txt"

to=${DESTDIR:-}$prefix
share=$to/share/feddurzai
libdir=${LIBDIR:-lib}
file=libfeddurzai.so.$interface.$version
mkdir -p "$to/include" "$to/$libdir/pkgconfig" "$share/python/feddurzai/inspector"
install -m 644 "$here/feddurzai.h" "$here/hook/feddurzai_hook.h" "$to/include/"
install -m 644 "$from/libfeddurzai.a" "$to/$libdir/"
install -m 755 "$from/libfeddurzai.so" "$to/$libdir/$file"
ln -sf "$file" "$to/$libdir/libfeddurzai.so.$interface"
ln -sf "libfeddurzai.so.$interface" "$to/$libdir/libfeddurzai.so"
install -m 644 "$here/gdb.py" "$here/hook/feddurzai_hook.c" "$share/"
install -m 644 "$here/python/pyproject.toml" "$here/python/backend.py" "$share/python/"
install -m 644 "$here"/python/feddurzai/*.py "$here/python/feddurzai/py.typed" "$share/python/feddurzai/"
install -m 644 "$here"/python/feddurzai/inspector/*.py "$share/python/feddurzai/inspector/"
cat >"$to/$libdir/pkgconfig/feddurzai.pc" <<END_OF_PC
prefix=$prefix
includedir=\${prefix}/include
libdir=\${prefix}/$libdir
hook=\${prefix}/share/feddurzai/feddurzai_hook.c

Name: feddurzai
Description: Decodes, encodes, prints, analyses and relocates x86 machine code
Version: $version
Cflags: -I\${includedir}
Libs: -L\${libdir} -lfeddurzai
END_OF_PC
echo "$to: feddurzai $version, interface $interface"
