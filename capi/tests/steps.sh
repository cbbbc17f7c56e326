# The steps of the tests of what is built on the library for C, as functions. capi/test.sh runs them over proved builds by both compilers,
# and tools/clients.sh all at once over one library. The caller sets
#
#   here      the folder capi                  top       the clone
#   lib       the folder of libfeddurzai.*     work      a folder for what a step writes, its own in each step
#   file      raw 64-bit code                  front     its first bytes
#   listed    the folder of their listings by the program: program.intel, program.att, program.masm and front.intel
#   program   the program                      rounds    how often hook_threads.c hooks and removes
#   styles    the styles that are listed: intel, and att and masm besides
#   backend   what a line of a step begins with
#
# A step ends with status 77 if a tool that it needs is not installed.
warn='-Wall -Wextra -pedantic -Werror'
sanitized='-g -fsanitize=address,undefined -fno-sanitize-recover=all'
sanitizers='address and undefined behaviour sanitizers'
# nothing is written beside the sources
export PYTHONDONTWRITEBYTECODE=1

say() { printf '%s\n' "$*"; }
die() { say "${0##*/}: $*" >&2; exit 1; }
# die_with FILE WORDS: the same, with a file in front
die_with() { cat "$1" >&2; shift; die "$@"; }
# skips WORDS: ends a step, since something that it needs is not there
skips() { say "$backend: skipped: $*"; exit 77; }
has() { command -v "$1" >/dev/null; }
interface=$(sed -n 's/^#define FEDDURZAI_INTERFACE \([0-9]*\).*/\1/p' "$here/feddurzai.h")

# takes_code [FILE]: $file and $front, raw code to list: the file, or the .text of the first program of these that is installed
takes_code() {
    file=${1:-}
    if [ -z "$file" ]; then
        for binary in "$(command -v gdb || true)" "$(readlink -f "$(command -v python3)")" "$(gcc -print-file-name=libc.so.6)"; do
            [ -n "$binary" ] && [ -f "$binary" ] || continue
            objcopy -O binary --only-section=.text "$binary" "$work/code.bin" 2>/dev/null || continue
            file=$work/code.bin
            say "code: the .text of $binary, $(wc -c <"$file") bytes"
            break
        done
        [ -n "$file" ] || die "found no code to list: name a file of raw code"
    fi
    front=$work/front.bin
    head -c 300000 "$file" >"$front"
}

# lists_code: what the program lists, in $listed
lists_code() {
    for style in $styles; do
        "$program" list 64 401000 $style <"$file" >"$listed/program.$style"
    done
    if cmp -s "$file" "$front"; then
        cp "$listed/program.intel" "$listed/front.intel"
    else
        "$program" list 64 401000 intel <"$front" >"$listed/front.intel"
    fi
    say "program: $(wc -l <"$listed/program.intel") lines in the style $styles"
}

# ---- what needs no library

# step_headers: both headers by themselves, and the examples in the comments of one
step_headers() {
    printf '#include "feddurzai.h"\nint main(void) { return FEDDURZAI_INTERFACE != %s; }\n' "$interface" >"$work/header.c"
    gcc -std=c99 $warn -I"$here" -c "$work/header.c" -o "$work/header.o"
    say "header: interface $interface, C99, no warning"
    if has g++; then
        g++ -x c++ -std=c++11 $warn -I"$here" -c "$work/header.c" -o "$work/header.o"
        say "header: C++11, no warning"
    fi
    sed -n 's/^ \*     //p' "$here/feddurzai.h" | sed 's/^ *//' | while IFS= read -r line; do
        grep -qF -- "$line" "$here/tests/header_examples.c" || die "feddurzai.h has an example that tests/header_examples.c lacks: $line"
    done
    say "header: each line of its examples is in tests/header_examples.c"
    printf '#include "feddurzai_hook.h"\nint main(void) { return feddurzai_hook_error_text(0) == 0; }\n' >"$work/hook_header.c"
    gcc -std=c99 $warn -I"$here" -I"$here/hook" -c "$work/hook_header.c" -o "$work/hook_header.o"
    said="header C99"
    if has g++; then
        g++ -x c++ -std=c++11 $warn -I"$here" -I"$here/hook" -c "$work/hook_header.c" -o "$work/hook_header.o"
        said="$said and C++11"
    fi
    for compiler in gcc clang; do
        has "$compiler" || continue
        for standard in c11 gnu11; do
            for level in -O0 -O2; do
                "$compiler" -std=$standard $level $warn -I"$here" -I"$here/hook" -c "$here/hook/feddurzai_hook.c" -o "$work/hook_library.o"
            done
        done
        said="$said, $compiler"
    done
    say "hooking library: $said, no warning"
}

# step_codes: the codes of the header, of the Python package and of the crate for Rust
step_codes() {
    "$program" rows | "$here/codes.py" --check || die "the codes of feddurzai.h, of the Python package or of the Rust crate differ from the rows: run capi/codes.py"
    say "header, Python and Rust: the codes are those of the program's rows"
}

# ---- C and C++

# tries_nulls COMPILER STANDARD: every function with NULL, zeros and small rooms, under the sanitizers
tries_nulls() {
    language=c
    [ "$1" = gcc ] || language=c++
    "$1" "$2" $sanitized $warn -I"$here" -x $language "$here/tests/nulls.c" -x none "$lib/libfeddurzai.a" -o "$work/nulls" 2>"$work/cc.log" \
        || die_with "$work/cc.log" "$1 $2 did not compile tests/nulls.c: the log is above"
    "$work/nulls" >"$work/nulls.log" || die_with "$work/nulls.log" "$backend: a call with NULL, a zero or a small buffer returned something else than expected"
    say "$backend: $(cat "$work/nulls.log") ($1 $2, $sanitizers)"
}

# step_calls: every call with valid and invalid arguments
step_calls() {
    gcc -std=c99 $sanitized $warn -I"$here" "$here/tests/calls.c" "$lib/libfeddurzai.a" -o "$work/calls" 2>"$work/cc.log" \
        || die_with "$work/cc.log" "the C compiler did not compile tests/calls.c: the log is above"
    "$work/calls" >"$work/calls.log" || die_with "$work/calls.log" "$backend: a call returned something else than expected"
    say "$backend: $(cat "$work/calls.log") ($sanitizers)"
}

# step_examples_of_header: each example in the header's comments
step_examples_of_header() {
    gcc -std=c99 $sanitized $warn -I"$here" "$here/tests/header_examples.c" "$lib/libfeddurzai.a" -o "$work/header_examples"
    "$work/header_examples" >"$work/examples.log" || die_with "$work/examples.log" "$backend: an example of feddurzai.h printed something else than expected"
    say "$backend: $(tail -1 "$work/examples.log")"
}

# step_nulls: the functions of the header that look for NULL are compiled with the caller, as C and as C++
step_nulls() {
    tries_nulls gcc -std=c99
    if has g++; then
        tries_nulls g++ -std=c++11
    fi
}

# step_listing: the listing of a real file against the program's
step_listing() {
    gcc -std=c99 -O2 $warn -I"$here" "$here/examples/disassemble.c" "$lib/libfeddurzai.a" -o "$work/disassemble"
    for style in $styles; do
        "$work/disassemble" "$file" 64 401000 $style >"$work/c.$style"
        cmp "$work/c.$style" "$listed/program.$style" || die "$backend: examples/disassemble.c lists differently from the program in style $style"
    done
    say "$backend: examples/disassemble.c lists as the program does, in the style $styles"
}

# step_examples: the other examples in C
step_examples() {
    gcc -std=gnu99 -O2 $warn -I"$here" "$here/examples/step.c" "$lib/libfeddurzai.a" -o "$work/step"
    "$work/step" >"$work/step.log" || die_with "$work/step.log" "$backend: examples/step.c: a stepped instruction had another result"
    say "$backend: examples/step.c: $(tail -1 "$work/step.log")"

    gcc -std=gnu99 -O2 $warn -I"$here" "$here/examples/assemble.c" "$lib/libfeddurzai.a" -o "$work/assemble"
    "$work/assemble" >"$work/assemble.log" || die_with "$work/assemble.log" "$backend: examples/assemble.c: the function counts wrong"
    say "$backend: examples/assemble.c: $(tail -1 "$work/assemble.log")"
}

# step_unwind: at each instruction that runs, the stack is walked to main by the unwind information that build.sh adds
step_unwind() {
    gcc -std=gnu99 -O1 $warn -I"$here" "$here/tests/unwind.c" "$lib/libfeddurzai.so" -Wl,-rpath,"$lib" -o "$work/unwind"
    # the .debug_frame of `rattle` calls registers undefined that are saved late: their values are not compared
    compared=registers
    [ "$backend" = llvm ] || compared=frames
    "$work/unwind" $compared >"$work/unwind.log" || die_with "$work/unwind.log" "$backend: tests/unwind.c: the stack was not unwound to main"
    say "$backend: $(cat "$work/unwind.log")"
}

# ---- Python

# step_python: the package's tests, and its examples
step_python() {
    export FEDDURZAI_LIBRARY="$lib/libfeddurzai.so"
    python3 "$here/examples/disassemble.py" "$front" 64 401000 intel >"$work/python.intel"
    cmp "$work/python.intel" "$listed/front.intel" || die "$backend: examples/disassemble.py lists differently from the program"
    python3 "$here/tests/calls.py" "$here/python" >"$work/python.log" 2>&1 || die_with "$work/python.log" "$backend: tests/calls.py failed"
    say "$backend: examples/disassemble.py lists as the program does; $(cat "$work/python.log")"
    # mov eax, edi; neg eax; cmovs eax, edi; ret: RAX is dead before the first, the flags before the second
    printf '\211\370\367\330\017\110\307\303' >"$work/abs.bin"
    python3 "$here/examples/liveness.py" "$work/abs.bin" 64 401000 | sed 's/  */ /g' >"$work/liveness.log"
    printf '%s\n' '0000000000401000 mov eax, edi rax OF SF ZF AF PF CF' '0000000000401002 neg eax OF SF ZF AF PF CF' \
        '0000000000401004 cmovs eax, edi' '0000000000401007 ret' | cmp - "$work/liveness.log" || die_with "$work/liveness.log" "$backend: examples/liveness.py printed something else than expected"
    say "$backend: examples/liveness.py reports the dead registers of a function of four instructions"
    python3 "$here/examples/assemble.py" >"$work/assemble.log" 2>&1 || die_with "$work/assemble.log" "$backend: examples/assemble.py failed"
    say "$backend: examples/assemble.py: $(tail -1 "$work/assemble.log")"
}

# step_types: the Python package's type hints
step_types() {
    has mypy || skips "the package's type hints: mypy is not installed"
    mypy --strict --cache-dir "$work/mypy" "$here/python/feddurzai" >"$work/mypy.log" || die_with "$work/mypy.log" "mypy: the type hints have errors"
    say "Python: the type hints: $(cat "$work/mypy.log")"
}

# ---- hooks

# hooked NAME SOURCE OPTIONS..: compiles a program with the hooking library and runs it with the words $words; its output goes to
# $work/NAME.log
words=
hooked() {
    name=$1
    source=$2
    shift 2
    gcc -std=gnu11 $warn -pthread -I"$here" -I"$here/hook" "$@" "$source" "$here/hook/feddurzai_hook.c" "$lib/libfeddurzai.a" -ldl -o "$work/$name" 2>"$work/cc.log" \
        || die_with "$work/cc.log" "$backend: $name was not compiled: the log is above"
    # shellcheck disable=SC2086
    "$work/$name" $words >"$work/$name.log" 2>&1 || die_with "$work/$name.log" "$backend: $name failed"
}

# step_hooks: the examples and tests of the hooking library; code is written through /proc/self/mem, and then by page rights alone
step_hooks() {
    hooked hook "$here/examples/hook.c" -O2
    say "$backend: examples/hook.c: $(tail -1 "$work/hook.log")"
    for name in hook_many hook_libraries; do
        hooked $name "$here/examples/$name.c" -O2
        say "$backend: examples/$name.c: $(sed -n 's/\(functions hooked\) at once.*/\1/p' "$work/$name.log" | paste -sd, -); $(tail -1 "$work/$name.log")"
    done
    for way in "" -DFEDDURZAI_HOOK_BY_RIGHTS; do
        hooked hooks "$here/tests/hooks.c" -O2 -DFEDDURZAI_HOOK_WAITS=100 $way
        say "$backend: $(cat "$work/hooks.log")${way:+ ($way)}"
        hooked hook_forms "$here/tests/hook_forms.c" -O2 $way
        say "$backend: $(cat "$work/hook_forms.log")${way:+ ($way)}"
    done
    gcc -std=gnu11 -O2 $warn -fno-builtin -I"$here" "$here/tests/hook_unlisted.c" "$lib/libfeddurzai.a" -ldl -o "$work/hook_unlisted"
    "$work/hook_unlisted" >"$work/hook_unlisted.log" 2>&1 || die_with "$work/hook_unlisted.log" "$backend: tests/hook_unlisted.c failed"
    say "$backend: tests/hook_unlisted.c: $(tail -1 "$work/hook_unlisted.log")"
}

# step_hooks_in_threads: hooks that are installed and removed while threads call; $rounds of them, or the example's ten thousand
step_hooks_in_threads() {
    words=$rounds
    for way in "" -DFEDDURZAI_HOOK_BY_RIGHTS; do
        hooked hook_threads "$here/examples/hook_threads.c" -O2 $way
        say "$backend: examples/hook_threads.c${way:+, $way}: $(paste -sd ';' "$work/hook_threads.log" | sed 's/;/; /g')"
        words=1000
    done
    words=
}

# step_hooks_sanitized: the tests of the hooking library under the sanitizers
step_hooks_sanitized() {
    hooked hooks_sanitized "$here/tests/hooks.c" -O1 $sanitized -DFEDDURZAI_HOOK_WAITS=100
    say "$backend: $(cat "$work/hooks_sanitized.log") ($sanitizers)"
    hooked hook_forms_sanitized "$here/tests/hook_forms.c" -O1 $sanitized
    say "$backend: $(cat "$work/hook_forms_sanitized.log") ($sanitizers)"
}

# step_hooks_cpp: functions through which C++ exceptions pass
step_hooks_cpp() {
    has g++ || skips "hooks of C++: g++ is not installed"
    gcc -std=gnu11 -O2 $warn -I"$here" -I"$here/hook" -c "$here/hook/feddurzai_hook.c" -o "$work/feddurzai_hook.o"
    g++ -std=c++11 -O2 $warn -pthread -I"$here" -I"$here/hook" "$here/tests/hooks_cpp.cpp" "$work/feddurzai_hook.o" "$lib/libfeddurzai.a" -ldl -o "$work/hooks_cpp"
    "$work/hooks_cpp" >"$work/hooks_cpp.log" 2>&1 || die_with "$work/hooks_cpp.log" "$backend: tests/hooks_cpp.cpp failed"
    say "$backend: $(tail -1 "$work/hooks_cpp.log")"
}

# hooks_file NAME: hooks the functions of a 32-bit program in its file; it prints what it printed before
hooks_file() {
    "$work/hooks32" "$work/$1" "$work/$1.out" >"$work/hooks32.log" || die_with "$work/hooks32.log" "$backend: tests/hooks32.c failed"
    chmod +x "$work/$1.out"
    "$work/$1.out" >"$work/after32.log" || die_with "$work/after32.log" "$backend: tests/$1: a hook was not called, or an object not destroyed"
    cmp "$work/before32.log" "$work/after32.log" || die "$backend: tests/$1: a hooked function returns something else"
    hooked32=$(grep -c ': hooked' "$work/hooks32.log")
}

# step_hooks32: functions of 32-bit programs, also such as throw, hooked in their files
step_hooks32() {
    if ! gcc -m32 -std=gnu11 -O2 -fPIC -no-pie $warn "$here/tests/hooked32.c" -o "$work/hooked32" 2>"$work/cc.log" || ! "$work/hooked32" >"$work/before32.log"; then
        skips "32-bit hooks: gcc -m32 does not compile (gcc-multilib), or the system does not run its program"
    fi
    gcc -std=gnu11 -O2 $warn -I"$here" -I"$here/hook" "$here/tests/hooks32.c" "$here/hook/feddurzai_hook.c" "$lib/libfeddurzai.a" -ldl -o "$work/hooks32"
    hooks_file hooked32
    # position-independent code whose first call is a thunk
    grep -q '^pic_sum: hooked' "$work/hooks32.log" || die_with "$work/hooks32.log" "$backend: tests/hooks32.c: a function that begins with a thunk is not hooked"
    said="$hooked32 functions hooked, their results are the same"
    if ! g++ -m32 -std=c++11 -O2 -fPIC -no-pie $warn "$here/tests/hooked32_cpp.cpp" -o "$work/hooked32_cpp" 2>"$work/cc.log" || ! "$work/hooked32_cpp" >"$work/before32.log"; then
        say "$backend: 32-bit code: $said; skipped C++: g++ -m32 does not compile (g++-multilib)"
        return
    fi
    hooks_file hooked32_cpp
    grep -q '^throws: hooked' "$work/hooks32.log" || die_with "$work/hooks32.log" "$backend: tests/hooked32_cpp.cpp: the function that throws is not hooked"
    say "$backend: 32-bit code: $said; C++ exceptions pass $hooked32 more"
}

# ---- GDB

# makes_debugged [-g]: a program to look into. It has a call, a call through the PLT, and bytes at the end of what can be read
makes_debugged() {
    gcc -O1 "$@" -no-pie -o "$work/debugged" -xc - <<'END'
#define _GNU_SOURCE
#include <string.h>
#include <sys/mman.h>
int global = 5;
char *edge;
__attribute__((noinline)) int called(int x) { return x > 2 ? global + x : global; }
int main(void)
{
    edge = (char *)mmap(0, 8192, PROT_READ | PROT_WRITE, MAP_PRIVATE | MAP_ANONYMOUS, -1, 0) + 4093;
    munmap(edge + 3, 4096);
    memcpy(edge, "\x90\x48\x83", 3);
    return called(3) != 8;
}
END
}

# in_gdb WANTED COMMAND..: commands of gdb.py in a process that is stopped in `called`; a line that they write matches WANTED
in_gdb() {
    wanted=$1
    shift
    for command in "$@"; do printf '%s\n' "$command"; done >"$work/gdb.commands"
    gdb -nx -batch -ex "source $gdb_script" -ex 'break called' -ex run -x "$work/gdb.commands" "$work/debugged" >"$work/gdb.log" 2>&1 || true
    grep -Eq -- "$wanted" "$work/gdb.log" || die_with "$work/gdb.log" "GDB: after '$*' no line of the output above matches $wanted"
    ! grep -q Traceback "$work/gdb.log" || die_with "$work/gdb.log" "GDB: '$*' ended with a Python exception"
}

# lines_are COUNT: how many lines of a listing the last commands wrote
lines_are() {
    [ "$(grep -c '^[ =][ >] 0x.*: [0-9a-f]* ' "$work/gdb.log")" = "$1" ] || die_with "$work/gdb.log" "GDB: the output above does not list $1 instructions"
}

# tries_gdb SCRIPT
tries_gdb() {
    has gdb || skips "the GDB commands: gdb is not installed"
    gdb_script=$1
    for debug in -g0 -g; do
        makes_debugged $debug
        in_gdb 'call 0x[0-9a-f]+ <called>' 'feddurzai-list main'
        # the function at $pc, to its last instruction
        in_gdb '^=> 0x[0-9a-f]+ <called(\+[0-9]+)?>: ' 'feddurzai-list'
        in_gdb '^   0x[0-9a-f]+ <called\+[0-9]+>: c3 +ret$' 'feddurzai-list'
        in_gdb '^block 0x[0-9a-f]+ <called>' 'feddurzai-flow called att'
        in_gdb '^=> 0x[0-9a-f]+: ' 'feddurzai-flow'
    done
    in_gdb '%rsp$' 'feddurzai-list main 4 att'
    in_gdb '<main' 'feddurzai-list /3 main'
    lines_are 3
    in_gdb '^=> ' 'feddurzai-list /2'
    lines_are 2
    # on a terminal the list has colours, and without them it is the plain one
    if has script; then
        in_gdb '<main' 'feddurzai-list main'
        grep '^[ =][ >] 0x' "$work/gdb.log" >"$work/plain.list"
        TERM=xterm script -qc "gdb -nx -batch -ex 'source $gdb_script' -ex 'set style enabled on' -ex 'break called' -ex run -ex 'feddurzai-list main' $work/debugged" \
            /dev/null </dev/null >"$work/coloured.log" 2>&1 || true
        escape=$(printf '\033')
        grep -q "$escape\[[0-9;]*mcall$escape" "$work/coloured.log" || die_with "$work/coloured.log" "GDB: feddurzai-list has no colours on a terminal"
        sed "s/$escape\[[0-9;]*m//g" "$work/coloured.log" | tr -d '\r' | grep '^[ =][ >] 0x' | cmp -s - "$work/plain.list" \
            || die_with "$work/coloured.log" "GDB: without its colours feddurzai-list lists something else"
    fi
    # what can be read before a fault, and the end of the bytes
    in_gdb '^   0x[0-9a-f]+: 4883 +\(the bytes end here\)$' 'feddurzai-list edge 20'
    grep -Eq '^   0x[0-9a-f]+000: no memory can be read from here on$' "$work/gdb.log" || die_with "$work/gdb.log" "GDB: 'feddurzai-list edge 20' does not report unreadable memory"
    lines_are 2
    in_gdb '^   0x[0-9a-f]+: 4883 +\(the bytes end here\)$' 'feddurzai-list edge 3'
    in_gdb 'no memory can be read there' 'feddurzai-list edge+3 20'
    # errors in words
    in_gdb '^nowhere: No symbol "nowhere" in current context' 'feddurzai-list nowhere 20'
    in_gdb '^usage: feddurzai-list' 'feddurzai-list main 20 30'
    in_gdb '^/x is not a count of instructions' 'feddurzai-list /x main'
    in_gdb '^1048577 bytes are more than 1048576' 'feddurzai-list main 1048577'
    wrong_bits='python
try:
    gdb.execute("set feddurzai-bits 17")
except gdb.error as error:
    print(error)
end'
    in_gdb ' not 17: it stays 32$' 'set feddurzai-bits 32' "$wrong_bits" 'show feddurzai-bits'
    grep -q 'feddurzai lists is 32\.$' "$work/gdb.log" || die_with "$work/gdb.log" "GDB: 'set feddurzai-bits 17' is not refused"
    # what the instruction that ran last did, and what each does
    in_gdb '^ > 0x[0-9a-f]+ <called(\+[0-9]+)?>: ' 'set feddurzai-effects on' stepi 'feddurzai-list'
    grep -Eq '^      (read|wrote|touches) ' "$work/gdb.log" || die_with "$work/gdb.log" "GDB: 'set feddurzai-effects on' shows no effects"
    in_gdb '^      reads rsp, .*ss:\[rsp\] 8 bytes; writes rsp$' 'set feddurzai-effects all' 'feddurzai-list called'
    ! grep -q '^ > ' "$work/gdb.log" || die_with "$work/gdb.log" "GDB: 'set feddurzai-effects all' marks the current line only"
    wrong_effects='python
try:
    gdb.execute("set feddurzai-effects maybe")
except gdb.error as error:
    print(error)
end'
    in_gdb 'Undefined item: "maybe"' 'set feddurzai-effects all' "$wrong_effects" 'show feddurzai-effects'
    grep -q 'feddurzai-effects is all)\.$' "$work/gdb.log" || die_with "$work/gdb.log" "GDB: 'set feddurzai-effects maybe' is not refused"
    say "$backend: feddurzai-list and feddurzai-flow ran in a stopped process, with and without debug information"
}

# step_gdb: GDB's commands, from the clone
step_gdb() {
    export FEDDURZAI_LIBRARY="$lib/libfeddurzai.so"
    tries_gdb "$here/gdb.py"
}

# ---- the inspector

inspector() { PYTHONPATH=$here/python FEDDURZAI_LIBRARY=$lib/libfeddurzai.so "$with_elftools" -m feddurzai "$@"; }

# step_inspector: the inspector's commands on a program with symbols and stripped, and on files that it refuses
step_inspector() {
    with_elftools=
    for python in python3 /usr/bin/python3; do
        "$python" -c 'import elftools' 2>/dev/null && { with_elftools=$python; break; }
    done
    [ -n "$with_elftools" ] || skips "the inspector: pyelftools is not installed"
    makes_debugged -g0
    inspector list "$work/debugged" main >"$work/main.log"
    for line in 'e8[0-9a-f]{8} +call 0x[0-9a-f]+ <called>' 'call 0x[0-9a-f]+ <mmap@plt>' 'mov qword \[rel 0x[0-9a-f]+\], r[a-z]x <edge>'; do
        grep -Eq "$line\$" "$work/main.log" || die_with "$work/main.log" "inspector: no line of the output above matches $line"
    done
    inspector list "$work/debugged" called --colour always | grep -q "$(printf '\033')\[36mret" || die "inspector: --colour always writes no colours"
    inspector list "$work/debugged" | grep -Eq '^[0-9a-f]{16} +[0-9]+ called$' || die "inspector: the list of functions lacks 'called'"
    ! inspector list "$work/debugged" nowhere 2>"$work/refused.log" || die "inspector: an unknown name is not refused"
    grep -q '^feddurzai-inspect: .*: no function and no code section is named' "$work/refused.log" || die_with "$work/refused.log" "inspector: an unknown name is refused without a reason"
    ! inspector list "$here/test.sh" 2>"$work/refused.log" || die "inspector: a file that is not ELF is not refused"
    grep -q '^feddurzai-inspect: .*: not an ELF file$' "$work/refused.log" || die_with "$work/refused.log" "inspector: a file that is not ELF is refused without a reason"

    # a stripped file, by the address of a function
    strip -o "$work/stripped" "$work/debugged"
    at=$(inspector list "$work/debugged" | awk '$3 == "called" { sub(/^0*/, "", $1); print $1 }')
    inspector list "$work/stripped" "0x$at" | grep -v '>:$' | sed 's/ <.*//' >"$work/stripped.log"
    inspector list "$work/debugged" called | grep -v '>:$' | sed 's/ <.*//' | cmp - "$work/stripped.log" || die "inspector: a stripped file is listed differently"

    # a section, against the program
    inspector list "$work/debugged" .text | grep -v '>:$' | sed 's/^ *//; s/ .*//' >"$work/section.log"
    objcopy -O binary --only-section=.text "$work/debugged" "$work/debugged.bin"
    "$program" list 64 "$(head -1 "$work/section.log")" intel <"$work/debugged.bin" | sed 's/ .*//' | cmp - "$work/section.log" || die "inspector: .text is listed differently from the program"

    inspector needs "$work/debugged" | grep -q 'reached from the entry points: x86-64-v1,' || die "inspector: needs does not report x86-64-v1 for a program without vector code"
    inspector hookable "$work/debugged" called | grep -Eq "^0*$at +[0-9]+ near +called$" || die "inspector: hookable does not report 'called' as hookable"
    "$with_elftools" "$here/tests/inspector.py" "$here/python" "$lib/libfeddurzai.so" >"$work/inspector.log" 2>&1 || die_with "$work/inspector.log" "$backend: tests/inspector.py failed"
    if ! has dot; then
        say "$backend: the inspector lists, reports needs and hooks; $(tail -1 "$work/inspector.log"); skipped pictures: Graphviz is not installed"
        return
    fi
    inspector graph "$work/debugged" called -o "$work/called.svg"
    [ "$(grep -c 'class="edge"' "$work/called.svg")" -ge 2 ] || die_with "$work/called.svg" "inspector: the graph has fewer than 2 edges"
    inspector page "$work/debugged" called -o "$work/called.html"
    # each link goes to a line that is there
    grep -o 'href="#a[0-9a-f]*"' "$work/called.html" | sed 's/.*#\(.*\)"/id="\1"/' | sort -u >"$work/links"
    [ "$(wc -l <"$work/links")" -ge 5 ] || die "inspector: the page has fewer than 5 links"
    while read -r link; do grep -q "$link" "$work/called.html" || die "inspector: the page has no target for its link $link"; done <"$work/links"
    say "$backend: the inspector lists, draws a graph and a page, reports needs and hooks; $(tail -1 "$work/inspector.log")"
}

# ---- Rust

# runs_cargo LOG WORDS..: runs cargo in the crate for Rust, with the variables of the environment; nothing is written beside its sources
runs_cargo() {
    cargo_log=$1
    shift
    (cd "$here/rust" && CARGO_TARGET_DIR=$work/cargo cargo "$@") >"$cargo_log" 2>&1 || die_with "$cargo_log" "$backend: cargo $*"
}

# tests_in LOG: how many tests a run of cargo passed
tests_in() {
    sed -n 's/^test result: ok\. \([0-9]*\) passed.*/\1/p' "$1" | awk '{ n += $1 } END { print n + 0 }'
}

# step_rust: the tests of the crate, its documentation, and its listing against the program's
step_rust() {
    has cargo || skips "the crate for Rust: cargo is not installed"
    export FEDDURZAI_LIB_DIR="$lib"
    runs_cargo "$work/cargo.log" test --offline --locked
    say "$backend: the crate for Rust: $(tests_in "$work/cargo.log") tests passed ($(cargo --version))"
    runs_cargo "$work/cargo.log" build --offline --locked --release --example listing --example rewrite
    for style in $styles; do
        "$work/cargo/release/examples/listing" "$file" 64 401000 $style | cmp - "$listed/program.$style" || die "$backend: the listing in Rust differs in style $style"
    done
    "$work/cargo/release/examples/rewrite" list "$file" 401000 | cmp - "$listed/program.intel" || die "$backend: the example rewrite lists differently"
    say "$backend: the examples listing and rewrite of the crate list as the program does"
    unset FEDDURZAI_LIB_DIR
}

# step_rust_lints: what does not depend on the compiler of the library: warnings, other features, and memory by valgrind
step_rust_lints() {
    has cargo || skips "the crate for Rust: cargo is not installed"
    export FEDDURZAI_LIB_DIR="$lib"
    RUSTDOCFLAGS="-D warnings" runs_cargo "$work/cargo.log" doc --offline --locked --no-deps
    RUSTFLAGS="-D warnings" runs_cargo "$work/cargo.log" check --offline --locked --no-default-features
    RUSTFLAGS="-D warnings" runs_cargo "$work/cargo.log" check --offline --locked --no-default-features --features alloc
    said="no warning in its documentation, without std and without alloc"
    if cargo clippy --version >/dev/null 2>&1; then
        runs_cargo "$work/cargo.log" clippy --offline --locked --all-targets -- -D warnings
        said="$said, nor by clippy"
    fi
    say "the crate for Rust: $said"
    unset FEDDURZAI_LIB_DIR
}

# step_rust_memory: tests of the crate by valgrind
step_rust_memory() {
    has cargo || skips "the crate for Rust by valgrind: cargo is not installed"
    has valgrind || skips "the crate for Rust by valgrind: valgrind is not installed"
    export FEDDURZAI_LIB_DIR="$lib"
    CARGO_TARGET_X86_64_UNKNOWN_LINUX_GNU_RUNNER="valgrind -q --smc-check=all --error-exitcode=9" \
        runs_cargo "$work/cargo.log" test --offline --locked --test encoding --test formatting --test information --test moving --test examples
    say "the crate for Rust: $(tests_in "$work/cargo.log") tests by valgrind, no invalid access"
    unset FEDDURZAI_LIB_DIR
}

# ---- what is installed, from its files alone

# step_installed: clients in C, Rust, Python and GDB of the files that install.sh installs
step_installed() {
    backend=installed
    prefix=$work/prefix
    "$here/install.sh" "$prefix" "$lib" >"$work/install.log" || die_with "$work/install.log" "install.sh failed: its output is above"
    shared=$(readlink -f "$prefix/lib/libfeddurzai.so")
    others=$(nm -D --defined-only "$shared" | awk '$3 !~ /^feddurzai_/ { print $3 }')
    [ -z "$others" ] || die "installed: the shared library also exports $others"
    soname=$(readelf -d "$shared" | sed -n 's/.*soname: \[\(.*\)\].*/\1/p')
    [ "$soname" = "libfeddurzai.so.$interface" ] && [ -e "$prefix/lib/$soname" ] || die "installed: the soname is $soname"
    say "installed: $(sed 's/^[^:]*: //' "$work/install.log"), $(basename "$shared") exports $(nm -D --defined-only "$shared" | wc -l) calls and nothing else"

    client=$work/client
    mkdir "$client"
    cp "$here/examples/disassemble.c" "$here/tests/client.py" "$client/"
    cd "$client"
    if has pkg-config; then
        export PKG_CONFIG_PATH="$prefix/lib/pkgconfig"
        gcc -std=c99 -O2 $warn $(pkg-config --cflags feddurzai) disassemble.c $(pkg-config --libs feddurzai) -o shared
        LD_LIBRARY_PATH=$prefix/lib ./shared "$file" 64 401000 intel | cmp - "$listed/program.intel" || die "installed: the client's listing differs"
        gcc -std=c99 -O2 $warn $(pkg-config --cflags feddurzai) disassemble.c "$(pkg-config --variable=libdir feddurzai)/libfeddurzai.a" -o static
        ./static "$file" 64 401000 intel | cmp - "$listed/program.intel" || die "installed: the static client's listing differs"
        cp "$here/examples/hook.c" "$client/"
        gcc -std=gnu11 -O2 $warn -pthread $(pkg-config --cflags feddurzai) hook.c "$(pkg-config --variable=hook feddurzai)" $(pkg-config --libs feddurzai) -ldl -o hook
        LD_LIBRARY_PATH=$prefix/lib ./hook >"$work/hook.log" || die_with "$work/hook.log" "installed: the hooking library"
        say "installed: the hooking library by pkg-config: $(tail -1 "$work/hook.log")"
        say "installed: a client in C by pkg-config, version $(pkg-config --modversion feddurzai), shared and static, lists as the program does"
        if has cargo; then
            # a copy of the sources, which stands in no clone
            cp -r "$here/rust" "$client/rust"
            rm -rf "$client/rust/target"
            (cd "$client/rust" && LD_LIBRARY_PATH=$prefix/lib CARGO_TARGET_DIR=$work/cargo-client cargo test --offline --locked) >"$work/cargo.log" 2>&1 \
                || die_with "$work/cargo.log" "installed: cargo test"
            say "installed: the crate for Rust by pkg-config and the shared library: $(tests_in "$work/cargo.log") tests passed"
        fi
    else
        say "installed: skipped the C clients: pkg-config is not installed"
    fi
    PYTHONPATH=$prefix/share/feddurzai/python python3 client.py "$prefix" || die "installed: the Python client failed"
    say "installed: a Python client runs with PYTHONPATH"
    if python3 -m venv "$work/venv" 2>/dev/null && [ -x "$work/venv/bin/pip" ]; then
        pip() { "$work/venv/bin/pip" --quiet --no-input --disable-pip-version-check "$@"; }
        pip install --no-index "$prefix/share/feddurzai/python" >"$work/pip.log" 2>&1 || die_with "$work/pip.log" "installed: pip did not install the package"
        "$work/venv/bin/python" client.py "$work/venv" || die "installed: the Python client failed with the package that pip installed"
        "$work/venv/bin/python" "$here/tests/calls.py" >"$work/python.log" 2>&1 || die_with "$work/python.log" "installed: tests/calls.py failed with the package that pip installed"
        pip uninstall --yes feddurzai
        # from the clone, as a package whose sources stay there
        FEDDURZAI_LIBRARY=$lib/libfeddurzai.so pip install --no-index --editable "$here/python" >"$work/pip.log" 2>&1 || die_with "$work/pip.log" "pip install --editable failed, or tests/calls.py with it"
        FEDDURZAI_LIBRARY=$lib/libfeddurzai.so "$work/venv/bin/python" "$here/tests/calls.py" >"$work/python.log" 2>&1 || die_with "$work/python.log" "pip install --editable failed, or tests/calls.py with it"
        say "installed: pip installs the folder without a network, and the client runs"
    else
        say "installed: skipped pip: this Python has no venv"
    fi
    cd "$top"
    tries_gdb "$prefix/share/feddurzai/gdb.py"
}

# ---- packages

packages() {
    FEDDURZAI_COMMIT=HEAD FEDDURZAI_PROGRAM=$(dirname "$program") FEDDURZAI_LIBRARIES=$lib "$top/packaging/build.sh" "$1" >"$work/packages.log" 2>&1 \
        || die_with "$work/packages.log" "packages: packaging/build.sh"
}

# step_packages: packages of the commit, as far as they are tried without root
step_packages() {
    backend=packages
    has dpkg-shlibdeps || skips "dpkg-dev is not installed"
    git -C "$top" diff --quiet HEAD -- crates crates.txt capi packaging 2>/dev/null \
        || skips "packages name their commit, and this is no clone, or it has uncommitted changes"
    packages "$work/packages"
    grep -Ev '^[0-9a-f]{64} |^/' "$work/packages.log" | sed 's/^/packages: /'
    # the same bytes, at another time, by another umask and in another time zone
    (umask 077 && TZ=Asia/Tokyo packages "$work/packages again")
    diff -r "$work/packages" "$work/packages again" >"$work/packages.log" || die_with "$work/packages.log" "packages: two builds of one commit differ"
    say "packages: $(wc -l <"$work/packages/SHA256SUMS") files, the same bytes by two builds"

    unpacked=$work/unpacked
    for package in "$work"/packages/*.deb; do dpkg-deb -x "$package" "$unpacked"; done
    "$unpacked/usr/bin/feddurzai" list 64 401000 intel <"$file" | cmp - "$listed/program.intel" || die "packages: the program lists otherwise"
    LD_LIBRARY_PATH=$unpacked/usr/lib/x86_64-linux-gnu PYTHONPATH=$unpacked/usr/lib/python3/dist-packages \
        python3 "$here/tests/calls.py" >"$work/python.log" 2>&1 || die_with "$work/python.log" "packages: python3-feddurzai"
    gcc -std=gnu99 -O1 $warn -I"$unpacked/usr/include" "$here/tests/unwind.c" -L"$unpacked/usr/lib/x86_64-linux-gnu" -lfeddurzai -o "$work/unwind"
    LD_LIBRARY_PATH=$unpacked/usr/lib/x86_64-linux-gnu "$work/unwind" >"$work/unwind.log" || die_with "$work/unwind.log" "packages: unwind information"
    say "packages: what is in those for Debian lists as the program does; $(cat "$work/python.log"); $(cat "$work/unwind.log")"

    mkdir "$work/folder"
    tar -xzf "$work"/packages/*.tar.gz -C "$work/folder" --strip-components=1
    if has pkg-config; then
        export PKG_CONFIG_PATH="$work/folder/lib/pkgconfig"
        gcc -std=c99 -O2 $warn $(pkg-config --cflags feddurzai) "$here/examples/disassemble.c" $(pkg-config --libs feddurzai) -o "$work/in_folder"
        LD_LIBRARY_PATH=$work/folder/lib "$work/in_folder" "$file" 64 401000 intel | cmp - "$listed/program.intel" || die "packages: a client of the folder lists otherwise"
    fi
    PYTHONPATH=$work/folder/share/feddurzai/python python3 "$here/tests/client.py" "$work/folder" || die "packages: the folder's Python package"
    say "packages: the folder of the .tar.gz has clients in C and Python"
    if python3 -m venv "$work/venv of the wheel" 2>/dev/null && [ -x "$work/venv of the wheel/bin/pip" ]; then
        "$work/venv of the wheel/bin/python" -m pip --quiet --no-input --disable-pip-version-check install --no-index "$work"/packages/*.whl >"$work/pip.log" 2>&1 \
            || die_with "$work/pip.log" "packages: pip does not take the wheel"
        "$work/venv of the wheel/bin/python" "$here/tests/calls.py" >"$work/python.log" 2>&1 || die_with "$work/python.log" "packages: the wheel"
        say "packages: pip takes the wheel with no network; $(cat "$work/python.log")"
    else
        say "packages: no venv with pip here, the wheel is not tried"
    fi
}

# step_manual: the manual page and the completion against the program
step_manual() {
    "$top/packaging/check_manual.py" "$program" >"$work/manual.log" 2>&1 || die_with "$work/manual.log" "packaging/check_manual.py: the manual page and the program differ"
    say "manual: $(tail -1 "$work/manual.log")"
}

# step_counts: machine instructions against those of bench/counted.txt
step_counts() {
    backend=counts
    has valgrind || skips "valgrind is not installed"
    "$top/bench/compare_counts.py" --program "$program" --library "$lib" --folder "$work/bench" "$file" >"$work/counts.log" 2>&1 || {
        [ $? -eq 77 ] && skips "$(tail -1 "$work/counts.log")"
        die_with "$work/counts.log" "counts: a thing takes more machine instructions than bench/counted.txt says"
    }
    say "counts: $(tail -1 "$work/counts.log")"
}
