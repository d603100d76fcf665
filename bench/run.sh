#!/usr/bin/env bash
# usage: run.sh PORTAL [LINES]
# Runs PORTAL and the plain program on one script of LINES lines (400,000),
# fails where their answers differ, and prints the time and instructions of
# both: the median of five runs, user and system time together.
set -euo pipefail

if [ $# -lt 1 ]; then
    echo "usage: $0 PORTAL [LINES]" >&2
    exit 2
fi
portal=$(command -v -- "$1") || { echo "$0: cannot run $1" >&2; exit 2; }
lines=${2:-400000}
here=$(cd "$(dirname "$0")" && pwd)
work=$(mktemp -d)
trap 'rm -rf "$work"' EXIT

python3 -B "$here/script.py" --lines "$lines" >"$work/script"
rustc -O -o "$work/plain" "$here/plain.rs"

"$portal" <"$work/script" >"$work/portal.answers"
"$work/plain" <"$work/script" >"$work/plain.answers"
if ! cmp "$work/portal.answers" "$work/plain.answers"; then
    echo "the answers differ" >&2
    exit 1
fi
echo "lines: $(wc -l <"$work/script"), the same answers from both"

# milliseconds of user and system time, the median of five runs
milliseconds() {
    local TIMEFORMAT='%3U %3S'
    for _ in 1 2 3 4 5; do
        { time "$1" <"$work/script" >/dev/null; } 2>&1
    done | awk '{ printf "%.0f\n", ($1 + $2) * 1000 }' | sort -n | sed -n 3p
}

# instructions by perf, or else by valgrind, or nothing
instructions() {
    local count=
    if command -v perf >/dev/null; then
        perf stat -x, -e instructions:u -o "$work/perf" -- "$1" <"$work/script" >/dev/null 2>&1 || true
        count=$(awk -F, '$3 ~ /^instructions/ && $1 ~ /^[0-9]+$/ { print $1 }' "$work/perf" 2>/dev/null || true)
    fi
    if [ -z "$count" ] && command -v valgrind >/dev/null; then
        valgrind --tool=callgrind --callgrind-out-file=/dev/null "$1" <"$work/script" 2>"$work/valgrind" >/dev/null || true
        count=$(awk '/Collected/ { print $NF }' "$work/valgrind")
    fi
    echo "$count"
}

report() {
    printf '%-8s %6s ms %16s\n' "$1" "$2" "${3:+$3 instructions}"
}

# a ratio with two decimals, where there is one
ratio() {
    awk -v a="${1:-0}" -v b="${2:-0}" 'BEGIN { if (a > 0 && b > 0) printf "%.2f", a / b; else printf "-" }'
}

portal_ms=$(milliseconds "$portal")
plain_ms=$(milliseconds "$work/plain")
portal_count=$(instructions "$portal")
plain_count=$(instructions "$work/plain")
report portal "$portal_ms" "$portal_count"
report plain "$plain_ms" "$plain_count"
echo "ratio: time $(ratio "$portal_ms" "$plain_ms"), instructions $(ratio "$portal_count" "$plain_count")"
