#!/usr/bin/env bash
# Runs the built program on order files at the edges and compares what it prints.
# Build it first: rt run, in crates/goregister
set -eu
cd "$(dirname "$0")/.."
program=crates/goregister/out/goregister
failed=0

# expect NAME EXPECTED: standard input is the order file
expect() {
    local got
    if got=$("$program" && echo .) && [ "$got" = "$2"$'\n.' ]; then
        echo "ok      $1"
    else
        echo "FAILED  $1: got ${got:0:200}"
        failed=1
    fi
}

# fails NAME REST..: runs the program, which must end with status 1 and say why on standard error
fails() {
    local name=$1 status=0 said
    shift
    said=$("$@" 2>&1 >/dev/null) || status=$?
    if [ "$status" = 1 ] && [ -n "$said" ]; then
        echo "ok      $name ($said)"
    else
        echo "FAILED  $name: status $status, said '$said'"
        failed=1
    fi
}

days() { for _ in $(seq "$1"); do printf 'D\0\0\0\1'; done; }
accept() { printf 'YAA\0\0\0\2\0\0\0\1'; }

# the sample is the same in both places, and is what its text says
cmp crates/goregister/stdin examples/sample.orders || failed=1
python3 tools/orders.py < examples/sample.txt | cmp - examples/sample.orders || failed=1

expect 'the sample' 'LAWFUL 000010' < examples/sample.orders
expect 'an empty file' 'LAWFUL 000000' < /dev/null
expect 'cut inside the last order' $'REFUSED 000009 000179 02\nLAWFUL 000009' < <(head -c 227 examples/sample.orders)
expect 'cut after a command byte' $'REFUSED 000001 000007 02\nLAWFUL 000001' < <(head -c 8 examples/sample.orders)
expect 'an unknown command byte' $'REFUSED 000002 000010 01\nLAWFUL 000002' < <(days 2; printf 'B'; days 3)
expect 'an unlawful operand, and on' $'REFUSED 000001 000005 03\nLAWFUL 000002' < <(days 1; printf 'Aaa\0\0\0\1'; days 1)
expect 'two refusals' $'REFUSED 000000 000000 03\nREFUSED 000001 000009 01\nLAWFUL 000000' < <(printf 'P\0\0\0\0\0\0\0\22X')
expect '65,536 bytes' 'LAWFUL 013106' < <(days 13105; accept)
expect '65,537 bytes' 'TOO LONG' < <(days 13105; accept; printf 'D')
expect 'input without end' 'TOO LONG' < /dev/zero
fails 'output that cannot be written' bash -c "$program < examples/sample.orders > /dev/full"
fails 'input that cannot be read' bash -c "$program < /"
[ "$failed" = 0 ] && echo 'all as expected'
exit "$failed"
