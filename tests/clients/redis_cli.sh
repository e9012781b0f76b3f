#!/bin/sh
# redis-cli and redis-benchmark: the word is the port.
set -eu
ask() { redis-cli -p "$port" "$@"; }
check() { [ "$1" = "$2" ] || { echo "$1, wanted $2" >&2; exit 1; }; }
port=$1

check "$(ask ping)" PONG
check "$(ask set key:0 hello)" OK
check "$(ask get key:0)" hello
check "$(ask get key:1)" ""

for number in $(seq 100 299); do echo "set key:$number value-$number"; done | ask | sort -u >"$TMPDIR/said"
check "$(cat "$TMPDIR/said")" OK
for number in 100 199 299; do check "$(ask get "key:$number")" "value-$number"; done

head -c 4000000 /dev/zero | tr '\0' x >"$TMPDIR/large"
check "$(ask -x set key:7 <"$TMPDIR/large")" OK
check "$(ask get key:7 | cksum)" "$(echo "$(cat "$TMPDIR/large")" | cksum)"
check "$(ask mset key:1 a key:2 b)" OK
check "$(ask mget key:1 key:2 nothing | tr '\n' ' ')" "a b  "
for wanted in 1 2 3; do check "$(ask incr counter)" "$wanted"; done
check "$(ask del key:1 key:2 nothing)" 2
ask incr key:103 | grep -q "not an integer"
redis-benchmark -p "$port" -q -n 2000 -c 5 -P 16 -r 100 -t set,get,incr >"$TMPDIR/benchmark" 2>&1
grep -q "GET: .*requests per second" "$TMPDIR/benchmark"
echo ok
