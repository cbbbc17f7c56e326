#!/usr/bin/env bash
# Runs all tests without proofs, four crates at a time: a few minutes in a fresh clone. It proves nothing; `rt ci` does.
#
#     tools/quick_tests.sh [CRATE ..]
#
# Without names it takes every crate that has tests. A line for each crate says how many tests passed; the output of a crate whose tests
# fail follows. The status is 1 if a test failed or gave no answer. JOBS is the number of crates at a time.
set -euo pipefail

if [ "${1:-}" = --help ] || [ "${1:-}" = -h ]; then
    sed -n '2,7s/^# \{0,1\}//p' "$0"
    exit 0
fi
command -v rt >/dev/null || { echo "$0: no command rt: install the Rattle kit and put its folder bin in PATH" >&2; exit 1; }
top=$(cd "$(dirname "$0")/.." && pwd)
logs=$(mktemp -d)
trap 'rm -rf "$logs"' EXIT

# The tests of a crate: a line on standard output, and the log if one fails. The longest test goes over 16 million bytes.
run_crate() {
    local name=$1 log=$2/$1.log
    cd "$3/crates/$name"
    if rt try --test --seconds 900 --steps 1000000000000 >"$log" 2>&1; then
        echo "$name: $(grep -cE '^test .*ok$' "$log") tests passed"
    else
        echo "$name: FAILED"
        cat "$log"
        return 1
    fi
}
export -f run_crate

if [ $# -gt 0 ]; then names=("$@"); else
    mapfile -t names < <(cd "$top/crates" && grep -rlE '^ *#\[test\]' --include='*.rt' -- */src | cut -d/ -f1 | sort -u)
fi
printf '%s\n' "${names[@]}" | xargs -P "${JOBS:-4}" -I{} bash -c 'run_crate "$@"' _ {} "$logs" "$top"
