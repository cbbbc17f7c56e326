#!/bin/sh
# Builds the C library from the proved crate feddurzai_c: FOLDER/libfeddurzai.a and FOLDER/libfeddurzai.so.
#
#   capi/build.sh [FOLDER] [llvm|rattle]
#   capi/build.sh --unproved [FOLDER]
#
# The default FOLDER is capi/out. `llvm`, the default, and `rattle` are the kit's two compilers. Crates that are not proved yet are
# proved first; `rt all check --jobs 4` does that on four processors. Required: the kit's `rt`, python3, binutils, and a C compiler
# ($CC, or gcc) for the shared library.
#
# With --unproved nothing is proved, and the build takes a minute: FOLDER/libfeddurzai-unproved.a and .so are for whoever changes a
# binding. feddurzai_version has the bit FEDDURZAI_UNPROVED, and packaging/build.sh refuses them.
#
# The kit's compilers write no unwind information that a running program can use. unwind.py adds it, and changes no byte of the code.
# The same proved crate gives the same bytes.
set -eu
if [ "${1:-}" = --help ]; then
    sed -n '2,/^set/s/^# \{0,1\}//p' "$0"
    exit 0
fi
# the same order of files everywhere
export LC_ALL=C
here=$(cd "$(dirname "$0")" && pwd)
library=libfeddurzai
if [ "${1:-}" = --unproved ]; then
    library=libfeddurzai-unproved
    shift
fi
out=${1:-$here/out}
backend=${2:-llvm}
cc=${CC:-gcc}
mkdir -p "$out"
out=$(cd "$out" && pwd)

kit=${RATTLE_KIT:-}
if [ -z "$kit" ]; then
    # `rt` stands in the kit's folder bin, or is a link to it
    kit=$(dirname "$(dirname "$(readlink -f "$(command -v rt)")")")
fi
heap=$kit/c/liblibc_c.a
[ -f "$heap" ] || { echo "build.sh: no $heap: name the kit's folder in RATTLE_KIT" >&2; exit 1; }

case $backend in
    llvm) set -- ;;
    rattle) set -- --backend rattle ;;
    *) echo "build.sh: the compiler is llvm or rattle" >&2; exit 1 ;;
esac
work=$(mktemp -d)
trap 'rm -rf "$work"' EXIT
if [ "$library" = libfeddurzai ]; then
    made=$here/../crates/feddurzai_c/out/libfeddurzai_c.a
    (cd "$here/../crates/feddurzai_c" && rt lib "$@") >"$out/build.log" 2>&1 || { tail -20 "$out/build.log" >&2; exit 1; }
else
    made=$work/unproved.a
    backend="llvm, not proved"
    RATTLE_KIT=$kit python3 "$here/unproved.py" "$made" >"$out/build.log" 2>&1 || { tail -20 "$out/build.log" >&2; exit 1; }
fi

# the objects of the library, and of the kit's way to malloc, realloc and free
mkdir "$work/bare" "$work/whole"
(cd "$work/bare" && ar x "$made" && ar x "$heap")
# an object of the same name as another would have taken its place
members=$(for archive in "$made" "$heap"; do ar t "$archive"; done | wc -l)
if [ "$members" -lt 2 ] || [ "$(find "$work/bare" -type f | wc -l)" -ne "$members" ]; then
    echo "build.sh: the $members objects of $made and $heap do not have a name each" >&2
    exit 1
fi

# links FOLDER OUT: the shared library of the objects of a folder. It shows the calls alone; its soname has the number of the
# interface, so that no program loads another
interface=$(sed -n 's/^#define FEDDURZAI_INTERFACE \([0-9]*\).*/\1/p' "$here/feddurzai.h")
printf '{ global: feddurzai_*; local: *; };\n' >"$work/calls.map"
links() {
    "$cc" -shared -o "$2" "$1"/* -Wl,-soname,"$library.so.$interface" -Wl,--version-script="$work/calls.map"
}

# the library reads its own code, to give it unwind information
links "$work/bare" "$work/first.so"
for object in "$work"/bare/*; do
    FEDDURZAI_LIBRARY=$work/first.so PYTHONDONTWRITEBYTECODE=1 \
        python3 "$here/unwind.py" "$object" "$work/whole/${object##*/}" >>"$out/build.log" 2>"$work/unwind.log" || {
        cat "$work/unwind.log" >&2
        echo "build.sh: no unwind information: see $out/build.log" >&2
        exit 1
    }
    # a function without it ends a backtrace: that is said, and no reason to stop
    cat "$work/unwind.log" >&2
done

rm -f "$out/$library.a" "$out/$library".so*
(cd "$work/whole" && ar qcD "$out/$library.a" ./* && ranlib -D "$out/$library.a")
links "$work/whole" "$out/$library.so"
# under its soname too, and by no symbolic link: `rt ci` refuses a clone that has one
cp "$out/$library.so" "$out/$library.so.$interface"
echo "$out/$library.a $out/$library.so ($backend)"
