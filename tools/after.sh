#!/bin/sh
# What the gate runs behind `rt ci`, on the programs that it built: one tool after the other, each within its time, with one line for each.
# What a tool tells is shown where it finds something. With `needs` it only looks whether what the tools need is there.
set -u
tools=$(cd "$(dirname "$0")" && pwd)
told=$(mktemp)
trap 'rm -f "$told"' EXIT
lacking=0
if ! python3 -c 'import sys; sys.exit(sys.version_info < (3, 9))' 2> /dev/null; then
    echo "after: no python3 of version 3.9 or later" >&2
    lacking=1
fi
if ! echo 'int main(void) { return 0; }' | "${CC:-cc}" -x c -o "$told" - 2> /dev/null; then
    echo "after: no C compiler ${CC:-cc}" >&2
    lacking=1
fi
if [ $lacking = 1 ] || [ "${1:-}" = needs ]; then
    exit $lacking
fi
failed=0
# (the client's tests tell processor time on an idle machine)
export AUD_SLOWER=10

# Runs a tool for at most so many seconds: on an idle machine it takes a minute or less. All that it started is stopped then.
limit=1800
after() {
    begun=$(date +%s)
    timeout -k 10 "$limit" "$tools/check" "$@" > "$told" 2>&1 < /dev/null
    status=$?
    took=$(($(date +%s) - begun))
    if [ $status = 0 ]; then
        echo "after: $took s: $(tail -n 1 "$told")"
        return
    fi
    failed=$((failed + 1))
    [ $status != 124 ] || echo "after: not done within $limit seconds" >> "$told"
    grep -v '^good ' "$told" | tail -n 40
    echo "after: $took s: FAILED with status $status: tools/check $*"
}

after refused
after refused-connection
after refused-desk
after refused-halls
after refused-threads
after model 1 60 each
after halls
after stack 1280
after stack 1280 large
after course
after client
if [ $failed != 0 ]; then
    echo "after: $failed tools failed" >&2
    exit 1
fi
