#!/usr/bin/env bash
# Serves one connection by one run of the program, sends it four requests by another, and compares the replies: a put of {"a":1}, the
# query $.a, a get and the usage. Both runs have to end with 0. The program is the one that bin/build makes, or the one that the
# environment's PATH_SERVER names.
set -u
cd "$(dirname "$0")/.."
[ -n "${PATH_SERVER:-}" ] || bin/path_server --proved --help >/dev/null || exit 2
program=${PATH_SERVER:-crates/path_program/out/path_program}
key=00112233445566778899aabbccddeeff
requests="0000002001 00000001 $key 0163 0164 7b2261223a317d
0000001a05 00000002 $key 0163 242e61
0000001902 00000003 $key 0163 0164
0000001507 00000004 $key"
replies="000000050000000001
0000001a0000000002 00000001 0164 00000006 245b2761275d 00000001 31
0000000c0000000003 7b2261223a317d
000000110000000004 00000001 00000001 00000007"

fail() {
    echo "two_programs: $*" >&2
    kill "$server" 2>/dev/null
    exit 1
}

exec 3< <(exec "$program" serve 127.0.0.1:0 "$key" 1)
server=$!
read -r -t 10 word address <&3 || fail "no line within ten seconds"
[ "$word" = listening ] || fail "another line: $word $address"
got=$(echo "${requests// /}" | "$program" call "$address") || fail "call ended with $?"
[ "$got" = "${replies// /}" ] || fail "other replies: $got"
wait "$server" || fail "serve ended with $?"
[ -z "$(cat <&3)" ] || fail "serve printed more than a line"
echo "two_programs: four replies as they should be"
