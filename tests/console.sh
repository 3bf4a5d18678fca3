#!/bin/sh
# Holds the built program to stored outputs that it did not write itself, and to input that is no text and has no end of line.
# Says nothing where all is well; the first thing that is not ends it with status 1.
cd "$(dirname "$0")/.." || exit 1
sil=target/bin/sil
work=$(mktemp -d) || exit 1
trap 'rm -rf "$work"' EXIT

fail() {
    echo "tests/console.sh: $*"
    exit 1
}

# Each stored run, from a file and from standard input: the same lines. Where there is Python, the stored output is worked anew.
for calls in examples/*.sil tests/data/*.sil; do
    want=${calls%.sil}.expected
    "$sil" "$calls" >"$work/out" || fail "$calls: status $?"
    cmp "$work/out" "$want" || fail "$calls: not what was worked out"
    "$sil" <"$calls" >"$work/out" || fail "$calls from standard input: status $?"
    cmp "$work/out" "$want" || fail "$calls from standard input: not what was worked out"
    if command -v python3 >"$work/path"; then
        python3 tests/exact.py "$calls" | cmp - "$want" || fail "$want: the exact calculation answers otherwise"
    fi
done

# The stored run of the program, and every cut and every change of a short card: as the exact calculation has them.
if command -v python3 >"$work/path"; then
    python3 -B tests/exact.py crates/sil/stdin | cmp - crates/sil/stdout || fail "crates/sil/stdout: the exact calculation answers otherwise"
    python3 -B tests/card_changes.py | cmp - crates/card_changes/stdout || fail "card_changes: the exact calculation counts otherwise"
fi

# Bytes of every kind, at any place, from a fixed seed: each line is answered as the exact calculation answers it.
if command -v python3 >"$work/path"; then
    python3 tests/random_bytes.py 11 200000 >"$work/bytes"
    python3 tests/exact.py "$work/bytes" >"$work/want"
    "$sil" "$work/bytes" >"$work/out" || fail "random bytes: status $?"
    cmp "$work/out" "$work/want" || fail "random bytes: not what was worked out"
fi

# A line of twenty million bytes is one line that is no call, and the next line is read.
{
    head -c 20000000 /dev/zero
    printf '\nmode H\n'
} | "$sil" >"$work/out" || fail "a long line: status $?"
printf 'not a call: line is longer than 4096 bytes\ndone\n' | cmp - "$work/out" || fail "a long line"

# A line is answered while more input is still to come.
mkfifo "$work/keys"
"$sil" <"$work/keys" >"$work/answer" &
exec 3>"$work/keys"
printf 'clear\n' >&3
turns=0
until [ -s "$work/answer" ] || [ $turns -ge 100 ]; do
    sleep 0.1
    turns=$((turns + 1))
done
[ "$(cat "$work/answer")" = done ] || fail "a line is not answered before the next comes"
exec 3>&-
wait $! || fail "keys: status $?"

# A file that is not there, and a word too many, are told on standard error, with status 1.
refused() {
    "$sil" "$@" >"$work/out" 2>"$work/err"
    [ $? -eq 1 ] || fail "$*: the status is not 1"
    [ ! -s "$work/out" ] && [ -s "$work/err" ] || fail "$*: not told on standard error alone"
}
refused "$work/none"
refused examples/roll_gap_stop.sil examples/roll_gap_stop.sil
exit 0
