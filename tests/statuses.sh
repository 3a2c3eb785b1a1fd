#!/usr/bin/env bash
# Runs the program on inputs of each exit status and each name that it prints, and compares the status, the output and the first line on
# standard error. What a second line says of the place is for tests/mistakes.py. The program is the one that bin/build makes, or the one that the environment's PATH_SERVER names.
set -u
cd "$(dirname "$0")/.."
[ -n "${PATH_SERVER:-}" ] || bin/path_server --proved --help >/dev/null || exit 2
program=${PATH_SERVER:-crates/path_program/out/path_program}
room=$(mktemp -d)
trap 'rm -rf "$room"' EXIT
tried=0
failed=0

# STATUS, wanted output, wanted line on standard error (`any` for whatever there is), then the command line; the input is $room/input
compare() {
    local status=$1 output=$2 line=$3
    shift 3
    local got
    got=$("$program" "$@" <"$room/input" 2>"$room/errors"; echo "$?")
    tried=$((tried + 1))
    if [ "$got" != "$output$status" ] || { [ "$line" != any ] && [ "$(head -n "$(printf '%s\n' "$line" | wc -l)" "$room/errors")" != "$line" ]; }; then
        printf 'path_server %.100s: %.200s %s\n' "$*" "$got" "$(cat "$room/errors")" >&2
        failed=$((failed + 1))
    fi
}

# STATUS, wanted output, wanted line on standard error, input, then the command line
expect() {
    printf '%b' "$4" >"$room/input"
    compare "$1" "$2" "$3" "${@:5}"
}

# NUMBER TEXT: the text so many times
times() {
    head -c "$1" /dev/zero | sed "s/\\x0/$2/g"
}

newline='
'
expect 0 "\$['a'][1]	20$newline" '' '{"a":[10,20]}' query '$.a[1]'
expect 0 "\$[0]	[1,${newline}2]$newline\$[1]	3$newline" '' '[[1,\n2],3]' query '$[*]'
expect 0 '' '' '[1]' query '$[?@>1]'

expect 1 '' 'path_server: NotUtf8' '"\xff"' query '$'
expect 1 '' 'path_server: NotJson' '[1' query '$'
expect 1 '' 'path_server: TooDeep' "$(times 257 '[')$(times 257 ']')" query '$'
expect 0 '' '' "$(times 128 '[')$(times 128 ']')" query '$.a'
expect 1 '' 'path_server: NumberLimit' "$(times 257 1)" query '$'
expect 1 '' 'path_server: NumberLimit' '1e1000000000' query '$'
expect 1 '' 'path_server: LoneSurrogate' '"\\ud83d"' query '$['
expect 1 '' 'path_server: DuplicateName' '{"a":1,"\\u0061":2}' query '$'
expect 2 '' 'path_server: NotWellFormed' '[1]' query '$['
expect 2 '' 'path_server: NotValid' '[1]' query '$[?count(@)]'
expect 2 '' 'path_server: QueryTooLong' '[1]' query "\$$(times 4096 ' ').a"
expect 0 "path_server 1.0.0$newline" '' '' --version
expect 3 '' any ''
expect 3 '' any '' query '$' '$'
expect 3 '' any '' query
expect 3 '' any '' question '$'
expect 3 '' "path_server: BadCommandLine${newline}word 2 is not UTF-8" '' query "$(printf '\377')"
expect 3 '' "path_server: BadCommandLine${newline}word 3 is not UTF-8" '' query "$(printf 'é%.0s' {1..300})" "$(printf '\303')" "$(printf '\377')"

key=00112233445566778899aAbBccDdEeFf
other=ffeeddccbbaa99887766554433221100
usage="00000015 07 00000004 $key"
bad_keys="path_server: BadKeys${newline}key"
written='is not 32 hexadecimal digits'
expect 0 "1 000000110000000004000000000000000000000000$newline" '' "1 open\n1 ${usage// /}\n1 close\n" replay "$key"
expect 0 "4294967295 00000005ff00000000$newline" '' "4294967295 open\n4294967295 00600001" replay "$key,$other"
expect 0 '' '' '' replay "$key"
expect 1 '' 'path_server: BadLine 1' '1  open' replay "$key"
expect 1 '' 'path_server: BadLine 2' '1 open\n\n1 close\n' replay "$key"
expect 1 '' 'path_server: BadLine 1' '01 open' replay "$key"
expect 1 '' 'path_server: BadLine 1' '4294967296 open' replay "$key"
expect 1 '' 'path_server: BadLine 3' '1 open\n1 \n1 0' replay "$key,$key"
expect 3 '' "path_server: RepeatedKey${newline}key 2 is key 1 again" '1 open' replay "$key,$key"
expect 3 '' 'path_server: TooManyKeys' '1 open' replay "$(printf '%032x,' $(seq 256))$other"
expect 3 '' "$bad_keys 1 $written" '1 open' replay "${key}0"
expect 3 '' "$bad_keys 2 $written" '' replay "$key,"
expect 3 '' "$bad_keys 1 $written" '' replay ''
{ times 67108864 0; printf 0; } >"$room/input"
compare 1 '' 'path_server: TooLong' replay "$key"

{ times 4194304 ' '; printf 1; } >"$room/input"
compare 1 '' 'path_server: TooLong' query '$'
{ times 4194303 ' '; printf 1; } >"$room/input"
compare 0 "\$	1$newline" '' query '$'
{ times 128 '['; times 128 ']'; } >"$room/input"
compare 2 '' 'path_server: Costly' query '$..*..*..*..*'

unread="path_server: ReadFault${newline}standard input: is a directory"
unwritten="path_server: WriteFault${newline}standard output: no storage space"
compare_fault() {
    tried=$((tried + 1))
    [ "$2" = "4$1" ] || { printf 'not %s and 4: %.200s\n' "$1" "$2" >&2; failed=$((failed + 1)); }
}
compare_fault "$unread" "$("$program" query '$' </ 2>"$room/errors"; echo "$?$(cat "$room/errors")")"
compare_fault "$unwritten" "$(printf '[1]' | "$program" query '$' 2>"$room/errors" >/dev/full; echo "$?$(cat "$room/errors")")"
compare_fault "$unwritten" "$("$program" --help 2>"$room/errors" >/dev/full; echo "$?$(cat "$room/errors")")"
# a text of 1,048,576 bytes is read into a buffer of that size, for which 4,000 KiB of address space have no room
{ times 1048575 ' '; printf 1; } >"$room/input"
(
    ulimit -v 4000
    exec "$program" query '$' <"$room/input" >"$room/output" 2>"$room/errors"
)
compare_fault 'path_server: NoMemory' "$?$(cat "$room/errors")"

expect 3 '' any '' serve
expect 3 '' any '' serve 127.0.0.1:0 "$key"
expect 3 '' any '' serve 127.0.0.1:0 "$key" 0
expect 3 '' any '' serve 127.0.0.1:0 "$key" 1000001
expect 3 '' any '' serve 127.0.0.1:0 "$key" one
for count in 18446744073709551617 -1 1.5 ''; do
    expect 3 '' any '' serve 127.0.0.1:0 "$key" "$count"
done
expect 3 '' any '' call
expect 3 '' "$bad_keys 3 $written" '' serve 127.0.0.1:0 "$key,$other,$key " 1
expect 3 '' 'path_server: BadKeys' '' serve nowhere '' 1
expect 3 '' "path_server: RepeatedKey${newline}key 3 is key 2 again" '' serve nowhere "$other,$key,$key" 1
expect 3 '' 'path_server: TooManyKeys' '' serve nowhere "$(printf '%032x,' $(seq 256))$other" 1
expect 4 '' "path_server: NetFault${newline}nowhere: invalid input parameter" '' serve nowhere "$key" 1
expect 4 '' 'path_server: NetFault' '' serve 127.0.0.1:65536 "$key" 1
expect 4 '' 'path_server: NetFault' '' serve '' "$key" 1
expect 4 '' "path_server: NetFault${newline}nowhere: invalid input parameter" '' call nowhere
expect 4 '' 'path_server: NetFault' 'no frame' call 127.0.0.1:
if [ "$(id -u)" = 0 ]; then
    echo "not run: a port that needs leave: root has it"
else
    expect 4 '' 'path_server: NetFault' '' serve 127.0.0.1:1 "$key" 1
fi

# A server of so many connections: its address is $address, its process $server.
start_server() {
    exec 3< <(exec "$program" serve 127.0.0.1:0 "$key" "$1" 2>"$room/server")
    server=$!
    read -r -t 10 _ address <&3
}

# The server ends with 0, and has printed no more.
expect_served() {
    wait "$server"
    local ended="$?$(cat <&3 "$room/server")"
    tried=$((tried + 1))
    [ "$ended" = 0 ] || { printf 'serve: %.200s\n' "$ended" >&2; failed=$((failed + 1)); }
}

put="00000020 01 00000001 $key 0163 0164 7b2261223a317d"
start_server 6
expect 4 '' 'path_server: NetFault' '' serve "$address" "$key" 1
expect 0 '' '' '' call "$address"
expect 0 "000000050000000001$newline" '' "${put// /}\n" call "$address"
expect 1 '' 'path_server: BadLine 2' "${put// /}\n00000005\n" call "$address"
expect 1 '' 'path_server: BadLine 1' "${put// /}00\n" call "$address"
expect 0 "000000110000000004000000010000000100000007$newline" '' "${usage// /}" call "$address"
{ times 67108864 0; printf 0; } >"$room/input"
compare 1 '' 'path_server: TooLong' call "$address"
expect_served
expect 4 '' 'path_server: NetFault' '' call "$address"
compare_fault "$unwritten" "$("$program" serve 127.0.0.1:0 "$key" 1 2>"$room/errors" >/dev/full; echo "$?$(cat "$room/errors")")"
start_server 1
compare_fault "$unwritten" "$(echo "${usage// /}" | "$program" call "$address" 2>"$room/errors" >/dev/full; echo "$?$(cat "$room/errors")")"
expect_served
compare_fault "$unread" "$("$program" call nowhere </ 2>"$room/errors"; echo "$?$(cat "$room/errors")")"

# The server that the command line asks for ends with 0 once its standard input is closed.
expect_listens() {
    local got
    got=$("$program" listen 127.0.0.1:0 "$@" 2>&1 < <(:) | sed 's/^listening 127.0.0.1:[0-9]*$/listening/'; echo "${PIPESTATUS[0]}")
    tried=$((tried + 1))
    [ "$got" = "listening${newline}served 0 connections, 0 requests${newline}0" ] || { printf 'listen %s: %.200s\n' "$*" "$got" >&2; failed=$((failed + 1)); }
}

expect 3 '' any '' listen 127.0.0.1:0
expect 3 '' any '' listen 127.0.0.1:0 --log
expect 3 '' any '' listen 127.0.0.1:0 "$key" "$other"
expect 3 '' any '' listen 127.0.0.1:0 "$key" --idle
for words in '--connections 0' '--connections 1000001' '--memory 14680071' '--memory 0' '--memory 1.5' '--memory 13M' '--memory M' '--memory 64MB' '--memory 1.5G' '--memory 1048577G' '--memory 18446744073709551617' '--idle 0' '--idle 31536001' \
    '--stall 0' '--stall 31536001' '--frame-time 0' '--frame-time 31536001' '--spare 0' '--spare 31536001' '--spare -1' '--stall ten'; do
    expect 3 '' any '' listen 127.0.0.1:0 "$key" $words
done
for words in '--connections 1' '--memory 14680072' '--memory 64M' '--memory 15000k' '--memory 1G' '--idle 31536000' '--stall 1' '--frame-time 31536000' '--spare 1' '--log'; do
    expect_listens "$key" $words
done
expect 3 '' "$bad_keys 2 $written" '' listen 127.0.0.1:0 "$key,"
expect 4 '' "path_server: NetFault${newline}nowhere: invalid input parameter" '' listen nowhere "$key"
expect 4 '' "path_server: ReadFault${newline}$room/none: entity not found" '' listen 127.0.0.1:0 --keys "$room/none"
printf '%s\n' "$key" >"$room/keys"
expect 3 '' "path_server: RepeatedKey${newline}key 3 is key 1 again" '' listen 127.0.0.1:0 "$other,$key" --keys "$room/keys"
printf '# tenants\r\n\r\n%s\r\n  # more\n\n %s \n' "$key" "$other" >"$room/keys"
expect_listens --keys "$room/keys"
printf '%s,%s' "$key" "$other" >"$room/keys"
expect_listens --keys "$room/keys"
printf '# tenants\r\n\r\n%s\r\n  # more\n%s,%s\n' "$key" "$other" "${key%?}" >"$room/keys"
expect 3 '' "path_server: BadKeys${newline}$room/keys: line 5" '' listen 127.0.0.1:0 --keys "$room/keys"
printf '# none\n' >"$room/keys"
expect 3 '' 'path_server: NoKeys' '' listen 127.0.0.1:0 --keys "$room/keys"
for place in $(seq 1000 1256); do printf '%032d\n' "$place"; done >"$room/keys"
expect 3 '' 'path_server: TooManyKeys' '' listen 127.0.0.1:0 --keys "$room/keys"
times 70000 0 >"$room/keys"
expect 3 '' 'path_server: BadKeys' '' listen 127.0.0.1:0 --keys "$room/keys"
compare_fault "$unwritten" "$("$program" listen 127.0.0.1:0 "$key" 2>"$room/errors" >/dev/full; echo "$?$(cat "$room/errors")")"

echo "$tried cases, $failed of them differ"
exit $((failed > 0))
