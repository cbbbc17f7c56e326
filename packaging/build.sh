#!/bin/sh
# Builds the packages in OUT from proved builds of the program and the libraries:
#
#   packaging/build.sh OUT
#
#   OUT/feddurzai_VERSION_amd64.deb             the program, its manual page, completion for bash
#   OUT/libfeddurzaiN_VERSION_amd64.deb         the shared library; N is its interface number, as in the soname
#   OUT/libfeddurzai-dev_VERSION_amd64.deb      headers, static library, feddurzai.pc, the C file of hooks, examples
#   OUT/python3-feddurzai_VERSION_all.deb       the Python package, feddurzai-inspect, GDB's commands, examples
#   OUT/feddurzai-VERSION-py3-none-manylinux_2_17_x86_64.manylinux2014_x86_64.whl
#   OUT/feddurzai-VERSION.crate                 the source of the crate for Rust
#   OUT/feddurzai-VERSION-x86_64-linux.tar.gz   all of these files in one folder
#   OUT/PROVED                                  the commit, the kit and the logic of the proofs; also in each package
#   OUT/SHA256SUMS
#
# The kit's `rt` builds the program, and capi/build.sh the libraries. In a proved clone this takes about a minute. In another clone
# the proofs come first, which take an hour or more. These variables name existing builds, which are then packaged as they are:
#
#   FEDDURZAI_PROGRAM      the folder of listing_program: crates/listing_program/out of a proved clone
#   FEDDURZAI_LIBRARIES    the folder of libfeddurzai.a and libfeddurzai.so: capi/out of a proved clone
#   FEDDURZAI_COMMIT       the commit that they were built from, if these folders are not in a clone
#
# The crates of that commit must equal those of this clone's commit, and this clone must have no uncommitted changes, since each
# package names its commit. The program and the libraries name the logic of their proofs; it must be that of `rt version`.
#
# The same commit and the same builds give the same bytes: every time stamp is SOURCE_DATE_EPOCH, or the time of the commit.
#
# Required: git, the kit's `rt`, a C compiler ($CC, or gcc), binutils, python3, dpkg-deb and dpkg-shlibdeps (Debian: dpkg-dev).
# Used if installed: lintian and man, which check the packages and the manual page, and auditwheel. Root is not needed.
set -eu
export LC_ALL=C
umask 022
if [ "${1:-}" = --help ]; then
    sed -n '2,/^set/s/^# \{0,1\}//p' "$0"
    exit 0
fi
if [ $# -ne 1 ]; then
    echo "usage: packaging/build.sh OUT    (see --help)" >&2
    exit 1
fi
here=$(cd "$(dirname "$0")" && pwd)
top=$(dirname "$here")
cc=${CC:-gcc}
multiarch=x86_64-linux-gnu
# The newest version of the C library that the shared library may need. It is in the tag of the wheel; check_wheel.py compares them.
platform=manylinux_2_17_x86_64.manylinux2014_x86_64

say() { printf '%s\n' "$*"; }
die() { say "build.sh: $*" >&2; exit 1; }

for tool in git rt "$cc" readelf strip python3 dpkg-deb dpkg-shlibdeps gzip tar sha256sum; do
    command -v "$tool" >/dev/null || die "$tool is not installed: --help lists the required tools"
done
mkdir -p "$1"
out=$(cd "$1" && pwd)
work=$(mktemp -d)
trap 'rm -rf "$work"' EXIT

# ---- the commit
git -C "$top" rev-parse --verify -q HEAD >/dev/null || die "$top is not a git clone: packages name their commit"
git -C "$top" diff --quiet HEAD -- crates crates.txt capi packaging || die "$top has uncommitted changes: commit them, or use a clean clone"
commit=$(git -C "$top" rev-parse HEAD)
crates=$(git -C "$top" rev-parse HEAD:crates)
maintainer=$(git -C "$top" log -1 --format='%an <%ae>')
SOURCE_DATE_EPOCH=${SOURCE_DATE_EPOCH:-$(git -C "$top" log -1 --format=%ct)}
export SOURCE_DATE_EPOCH

# comes_from FOLDER: checks that the files there were built from the crates of this commit
comes_from() {
    [ -d "$1" ] || die "no folder $1"
    of=${FEDDURZAI_COMMIT:-}
    if [ -z "$of" ]; then
        of=$(git -C "$1" rev-parse --verify -q HEAD 2>/dev/null) || die "$1 is not in a clone: set FEDDURZAI_COMMIT to the commit that it was built from"
        git -C "$1" diff --quiet HEAD -- ":(top)crates" ":(top)crates.txt" || die "the clone of $1 has uncommitted changes in its crates"
        theirs=$(git -C "$1" rev-parse "$of:crates")
    else
        theirs=$(git -C "$top" rev-parse --verify -q "$of:crates") || die "FEDDURZAI_COMMIT: $of is not a commit of $top"
    fi
    [ "$theirs" = "$crates" ] || die "$1 was built from the crates of $of, which differ from those of $commit: prove and build the latter"
}

# ---- the program and the libraries
if [ -n "${FEDDURZAI_PROGRAM:-}" ]; then
    comes_from "$FEDDURZAI_PROGRAM"
    programs=$(cd "$FEDDURZAI_PROGRAM" && pwd)
else
    say "building the program (rt proves crates that are not proved yet)"
    (cd "$top/crates/listing_program" && rt run -- --version) >"$work/program.log" 2>&1 || { tail -20 "$work/program.log" >&2; die "the program was not built"; }
    programs=$top/crates/listing_program/out
fi
if [ -n "${FEDDURZAI_LIBRARIES:-}" ]; then
    comes_from "$FEDDURZAI_LIBRARIES"
    libraries=$(cd "$FEDDURZAI_LIBRARIES" && pwd)
else
    say "building the libraries (rt proves crates that are not proved yet)"
    "$top/capi/build.sh" "$work/libraries" >/dev/null || die "the libraries were not built"
    libraries=$work/libraries
fi
program=$programs/listing_program
[ -x "$program" ] || die "no program $program: run 'rt run -- --version' in crates/listing_program"
for file in libfeddurzai.a libfeddurzai.so; do
    [ -f "$libraries/$file" ] || die "no $libraries/$file: run capi/build.sh, without --unproved"
done

# logic_of FILE: the logic that its section .comment names
logic_of() {
    readelf -W -p .comment "$1" 2>/dev/null | sed -n 's/^ *\[ *[0-9a-f]*\] *rattle logic=\([0-9a-f]*\).*/\1/p' | sort -u
}
kit=$(rt version)
logic=$(logic_of "$program")
[ -n "$logic" ] || die "$program names no logic: it was not built by the kit"
mkdir "$work/objects"
(cd "$work/objects" && ar x "$libraries/libfeddurzai.a")
in_archive=$(for object in "$work"/objects/*; do logic_of "$object"; done | sort -u)
case $logic in
    "${kit##* logic }"*) ;;
    *) die "$program was proved in the logic '$logic', but this kit is $kit" ;;
esac
if [ -z "$in_archive" ] && [ -f "$libraries/build.log" ]; then
    # No object names a logic: take that of the proof from which capi/build.sh built them.
    short=$(sed -n 's/^logic=proved .* sum=\([0-9a-f]*\) .*/\1/p' "$libraries/build.log" | tail -1)
    case $logic in
        "${short:-none}"*) in_archive=$logic ;;
    esac
fi
[ "$in_archive" = "$logic" ] || die "libfeddurzai.a was proved in the logic '${in_archive:-none}', but the program in '$logic'"
in_shared=$(logic_of "$libraries/libfeddurzai.so")
[ "${in_shared:-$logic}" = "$logic" ] || die "libfeddurzai.so was proved in the logic '$in_shared', but the program in '$logic'"
calls=$(nm -D --defined-only "$libraries/libfeddurzai.so" | grep -c ' feddurzai_' || true)
[ "$calls" -gt 0 ] || die "libfeddurzai.so exports none of the calls: build it with capi/build.sh of this clone"
frames=$(readelf --debug-dump=frames "$libraries/libfeddurzai.so" | grep -c ' FDE ' || true)
[ "$frames" -ge "$calls" ] || die "libfeddurzai.so has unwind information for $frames functions but exports $calls calls: build it with capi/build.sh of this clone"

"$here/check_manual.py" "$program"

# ---- the files of each package, as installed
root=$work/root
DESTDIR=$root LIBDIR=lib/$multiarch "$top/capi/install.sh" /usr "$libraries" >"$work/install.log"
version=$(sed -n 's/.*: feddurzai \([0-9.]*\), interface [0-9]*$/\1/p' "$work/install.log")
interface=$(sed -n 's/.*, interface \([0-9]*\)$/\1/p' "$work/install.log")
[ "$("$program" --version | sed -n 1p)" = "feddurzai $version" ] || die "the program and the library (version $version) have different versions"
library=libfeddurzai$interface

{
    say "Feddurzai $version"
    say
    say "commit   $commit"
    say "crates   $crates (the tree of crates/ in it)"
    say "kit      ${kit%% logic *}"
    say "logic    $logic"
    say
    say "The program and the library are compiled from crates that this kit proved in this logic. The proofs do not cover the kit's"
    say "compiler and its few functions over the C library; the linker; unwind.py, which adds unwind information and changes no byte"
    say "of code; and strip, which removes local symbols. The headers, the hooking library in C, the Python package, the crate for Rust"
    say "and the GDB commands are tested but not proved. docs/proofs.md in the sources says what is proved, what is only tested, and what is neither."
    say
    say "Checksums of the files as built, before strip:"
    (cd "$programs" && sha256sum listing_program)
    (cd "$libraries" && sha256sum libfeddurzai.a libfeddurzai.so)
} >"$work/PROVED"
cat >"$work/copyright" <<'END_OF_COPYRIGHT'
Copyright: the authors of Feddurzai.

No licence has been chosen for Feddurzai; the choice is its owner's. Until then this package grants no rights beyond those that the
law gives without a licence.
END_OF_COPYRIGHT
{
    say "feddurzai ($version) unstable; urgency=medium"
    say
    say "  * Built from commit $commit."
    say
    say " -- $maintainer  $(git -C "$top" log -1 --format=%cD)"
} >"$work/changelog"

# package NAME: makes its folder with the files that every package has
package() {
    docs=$work/$1/usr/share/doc/$1
    mkdir -p "$work/$1/DEBIAN" "$docs"
    install -m 644 "$work/copyright" "$work/PROVED" "$docs/"
    gzip -9nc "$work/changelog" >"$docs/changelog.gz"
}

# moves PACKAGE PATH..: moves files from the installed tree into a package
moves() {
    to=$work/$1
    shift
    for path in "$@"; do
        mkdir -p "$to/$(dirname "$path")"
        mv "$root/$path" "$to/$path"
    done
}

package feddurzai
install -D -m 755 "$program" "$work/feddurzai/usr/bin/feddurzai"
strip --strip-unneeded "$work/feddurzai/usr/bin/feddurzai"
mkdir -p "$work/feddurzai/usr/share/man/man1"
gzip -9nc "$here/feddurzai.1" >"$work/feddurzai/usr/share/man/man1/feddurzai.1.gz"
install -D -m 644 "$here/feddurzai.bash" "$work/feddurzai/usr/share/bash-completion/completions/feddurzai"

package "$library"
shared=usr/lib/$multiarch/libfeddurzai.so.$interface.$version
strip --strip-unneeded "$root/$shared"
chmod 644 "$root/$shared"
moves "$library" "$shared" "usr/lib/$multiarch/libfeddurzai.so.$interface"
say "libfeddurzai $interface $library (>= $version)" >"$work/$library/DEBIAN/shlibs"
say "activate-noawait ldconfig" >"$work/$library/DEBIAN/triggers"

package libfeddurzai-dev
moves libfeddurzai-dev usr/include/feddurzai.h usr/include/feddurzai_hook.h usr/share/feddurzai/feddurzai_hook.c "usr/lib/$multiarch/libfeddurzai.a" "usr/lib/$multiarch/libfeddurzai.so" \
    "usr/lib/$multiarch/pkgconfig/feddurzai.pc"
install -D -m 644 -t "$work/libfeddurzai-dev/usr/share/doc/libfeddurzai-dev/examples" "$top"/capi/examples/*.c

package python3-feddurzai
modules=$work/python3-feddurzai/usr/lib/python3/dist-packages
mkdir -p "$modules"
mv "$root/usr/share/feddurzai/python/feddurzai" "$modules/"
moves python3-feddurzai usr/share/feddurzai/gdb.py
install -D -m 755 -t "$work/python3-feddurzai/usr/share/doc/python3-feddurzai/examples" "$top"/capi/examples/*.py
mkdir -p "$work/python3-feddurzai/usr/bin" "$work/python3-feddurzai/usr/share/man/man1"
gzip -9nc "$here/feddurzai-inspect.1" >"$work/python3-feddurzai/usr/share/man/man1/feddurzai-inspect.1.gz"
cat >"$work/python3-feddurzai/usr/bin/feddurzai-inspect" <<'END_OF_SCRIPT'
#!/usr/bin/python3
import sys

from feddurzai.inspector.command import main

sys.exit(main())
END_OF_SCRIPT
chmod 755 "$work/python3-feddurzai/usr/bin/feddurzai-inspect"
cat >"$work/python3-feddurzai/DEBIAN/postinst" <<'END_OF_SCRIPT'
#!/bin/sh
set -e
if command -v py3compile >/dev/null 2>&1; then
    py3compile -p python3-feddurzai
fi
END_OF_SCRIPT
cat >"$work/python3-feddurzai/DEBIAN/prerm" <<'END_OF_SCRIPT'
#!/bin/sh
set -e
if command -v py3clean >/dev/null 2>&1; then
    py3clean -p python3-feddurzai
else
    find /usr/lib/python3/dist-packages/feddurzai -name __pycache__ -prune -exec rm -rf {} +
fi
END_OF_SCRIPT
chmod 755 "$work/python3-feddurzai/DEBIAN/postinst" "$work/python3-feddurzai/DEBIAN/prerm"
rm -r "$root/usr/share/feddurzai/python"
left=$(find "$root" -type f -o -type l)
[ -z "$left" ] || die "capi/install.sh installs files that no package has: $left"

# ---- the wheel
mkdir "$work/notes"
cp "$work/PROVED" "$work/notes/PROVED"
cp "$work/copyright" "$work/notes/COPYRIGHT"
wheel=$(FEDDURZAI_LIBRARY=$work/$library/$shared PYTHONDONTWRITEBYTECODE=1 PYTHONPATH=$top/capi/python python3 -c '
import sys
import backend
print(backend.build_wheel(sys.argv[1], {"platform": sys.argv[2], "notes": sys.argv[3]}))
' "$work" "$platform" "$work/notes")
"$here/check_wheel.py" "$work/$wheel"
# the metadata of the wheel, so that pip lists the Debian package as installed
info=feddurzai-$version.dist-info
python3 -c 'import sys, zipfile; sys.stdout.buffer.write(zipfile.ZipFile(sys.argv[1]).read(sys.argv[2]))' "$work/$wheel" "$info/METADATA" >"$work/METADATA"
install -D -m 644 -t "$modules/$info" "$work/METADATA"

# ---- the crate for Rust: a tar archive of its sources, as `cargo package` makes one
crate=feddurzai-$version
grep -qx "version = \"$version\"" "$top/capi/rust/Cargo.toml" || die "the crate for Rust and the library (version $version) have different versions"
grep -qx "pub const INTERFACE: u32 = $interface;" "$top/capi/rust/src/generated.rs" || die "the crate for Rust needs another interface than $interface: run capi/codes.py"
# sources FOLDER: copies the tracked files of the crate, and what every package has
sources() {
    git -C "$top" ls-files capi/rust | while IFS= read -r file; do
        install -D -m 644 "$top/$file" "$1/${file#capi/rust/}"
    done
    install -m 644 "$work/copyright" "$work/PROVED" "$1/"
}
sources "$work/crate/$crate"
# archives FOLDER NAME FILE: a compressed tar archive whose bytes depend on the files alone
archives() {
    tar --sort=name --mtime="@$SOURCE_DATE_EPOCH" --owner=0 --group=0 --numeric-owner --format=gnu -C "$1" -cf "$3.tar" "$2"
    gzip -9n <"$3.tar" >"$3"
    rm "$3.tar"
}
archives "$work/crate" "$crate" "$work/$crate.crate"

# ---- all files in one folder
name=feddurzai-$version-x86_64-linux
tree=$work/tree/$name
"$top/capi/install.sh" "$tree" "$libraries" >/dev/null
strip --strip-unneeded "$tree/lib/libfeddurzai.so.$interface.$version"
# the folder may be unpacked anywhere
# shellcheck disable=SC2016
sed -i 's,^prefix=.*,prefix=${pcfiledir}/../..,' "$tree/lib/pkgconfig/feddurzai.pc"
install -D -m 755 -t "$tree/bin" "$work/feddurzai/usr/bin/feddurzai"
install -D -m 644 -t "$tree/share/man/man1" "$here/feddurzai.1"
install -D -m 644 "$here/feddurzai.bash" "$tree/share/bash-completion/completions/feddurzai"
install -D -m 644 -t "$tree/share/doc/feddurzai" "$work/copyright" "$work/PROVED"
install -D -m 644 -t "$tree/share/doc/feddurzai/examples" "$top"/capi/examples/*.c
install -D -m 755 -t "$tree/share/doc/feddurzai/examples" "$top"/capi/examples/*.py
sources "$tree/share/feddurzai/rust"
archives "$work/tree" "$name" "$work/$name.tar.gz"

# ---- the Debian packages
# needs FILE: the packages that a program or a library depends on
needs() {
    mkdir -p "$work/shlibs/debian"
    printf 'Source: feddurzai\n\nPackage: feddurzai\nArchitecture: amd64\n' >"$work/shlibs/debian/control"
    (cd "$work/shlibs" && dpkg-shlibdeps -O "$1" 2>"$work/shlibs.log") | sed -n 's/^shlibs:Depends=//p'
    [ ! -s "$work/shlibs.log" ] || cat "$work/shlibs.log" >&2
}

# debian PACKAGE ARCHITECTURE SECTION DEPENDS: builds the package; standard input has the fields of its description
debian() {
    folder=$work/$1
    # as dpkg counts: the KiB of each file, and 1 for each folder
    size=$(find "$folder" -path "$folder/DEBIAN" -prune -o -mindepth 1 -printf '%y %s\n' | awk '{ n += $1 == "f" ? int(($2 + 1023) / 1024) : 1 } END { print n }')
    {
        say "Package: $1"
        say "Source: feddurzai"
        say "Version: $version"
        say "Architecture: $2"
        say "Maintainer: $maintainer"
        say "Installed-Size: $size"
        say "Depends: $4"
        say "Section: $3"
        say "Priority: optional"
        cat
    } >"$folder/DEBIAN/control"
    (cd "$folder" && find usr -type f -print0 | sort -z | xargs -0 md5sum) >"$folder/DEBIAN/md5sums"
    find "$folder" -print0 | xargs -0 touch -h -d "@$SOURCE_DATE_EPOCH"
    dpkg-deb --root-owner-group -Zxz --threads-max=1 --build "$folder" "$work/${1}_${version}_$2.deb" >/dev/null
}

debian feddurzai amd64 devel "$(needs "$work/feddurzai/usr/bin/feddurzai")" <<'END_OF_FIELDS'
Description: decode, encode, analyse and relocate x86 machine code
 Feddurzai disassembles 16, 32 and 64-bit x86 code in three styles, shows the
 effects of instructions and the control flow, assembles text, and relocates
 code. The program is proved to write what its definitions state.
END_OF_FIELDS
debian "$library" amd64 libs "$(needs "$work/$library/$shared")" <<'END_OF_FIELDS'
Multi-Arch: same
Description: x86 decoder, encoder and relocator - shared library
 Feddurzai decodes, encodes, prints and relocates 16, 32 and 64-bit x86 code,
 and makes hooks. Each call is proved to meet its contract for all values of
 its arguments.
END_OF_FIELDS
debian libfeddurzai-dev amd64 libdevel "$library (= $version), libc6-dev | libc-dev" <<'END_OF_FIELDS'
Multi-Arch: same
Description: x86 decoder, encoder and relocator - files for development
 Feddurzai decodes, encodes, prints and relocates 16, 32 and 64-bit x86 code,
 and makes hooks.
 .
 This package contains the headers for C and C++, the static library, the
 pkg-config file, the C file of the hooking library, and examples.
END_OF_FIELDS
debian python3-feddurzai all python "python3:any, $library (>= $version)" <<'END_OF_FIELDS'
Suggests: gdb, graphviz, python3-distributed, python3-pyelftools
Description: x86 decoder, encoder and relocator - Python package
 Feddurzai decodes, encodes, prints and relocates 16, 32 and 64-bit x86 code,
 and makes hooks.
 .
 This package contains the Python 3 package, the command feddurzai-inspect,
 which inspects ELF files, commands for GDB (/usr/share/feddurzai/gdb.py), and
 examples.
END_OF_FIELDS

# ---- the checks and the output
if command -v lintian >/dev/null; then
    as_root=
    [ "$(id -u)" -ne 0 ] || as_root=--allow-root
    # shellcheck disable=SC2086
    lintian $as_root --fail-on error --tag-display-limit 0 "$work"/*.deb || die "lintian has errors"
    say "lintian: no errors"
else
    say "lintian is not installed: the packages were not checked with it"
fi
rm -f "$out"/*.deb "$out"/*.whl "$out"/*.crate "$out"/*.tar.gz "$out/PROVED" "$out/SHA256SUMS"
cp "$work"/*.deb "$work/$wheel" "$work/$crate.crate" "$work/$name.tar.gz" "$work/PROVED" "$out/"
(cd "$out" && sha256sum -- *.deb *.whl *.crate *.tar.gz PROVED >SHA256SUMS)
say "$out: feddurzai $version of commit $commit"
cat "$out/SHA256SUMS"
