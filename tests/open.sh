#!/usr/bin/env bash
# The command `open` on set edge-256, on real files: each status that files alone can bring about.
. "$(dirname "$0")/checks.bash"

# packed ADD: the numbers 4v + ADD for v = 0 to 255, 10 bits each, four of them in 5 bytes.
packed() {
  local v n hex=""
  for ((v = 0; v < 256; v += 4)); do
    n=$(((4 * v + $1) + ((4 * v + 4 + $1) << 10) + ((4 * v + 8 + $1) << 20) + ((4 * v + 12 + $1) << 30)))
    hex+=$(printf '%02x%02x%02x%02x%02x' $((n & 255)) $((n >> 8 & 255)) $((n >> 16 & 255)) $((n >> 24 & 255)) $((n >> 32)))
  done
  bytes "$hex"
}

magic=53504952 name=08656467652d323536
row0() { head -c 768 /dev/zero; }
secret() { head -c 512 /dev/zero | tr '\0' "\\$1"; }

{ bytes "${magic}0105${name}08020000000000000000000000000000"; secret 001; } > state
{ bytes "${magic}0105${name}08020000000000000100000000000000"; secret 001; } > state1
packed 0 > exact; packed 2 > half
is "the first entries of 4v" 0010800003 "$(at exact 0 5)"; is "the first entries of 4v + 2" 0218a08003 "$(at half 0 5)"
{ bytes "${magic}0103${name}100800000000000001000000000000000004000000000000"; times 4 exact; row0; } > reply
{ bytes "${magic}0103${name}100800000000000001000000000000000004000000000000"; times 4 half; row0; } > reply_half
for ((v = 0; v < 256; v++)); do printf '%02x' $v; done > hex; bytes "$(cat hex)" > byte_row; times 4 byte_row > steps
bytes "$(cut -c3- < hex)00" > next_row; times 4 next_row > next_steps

expect "numbers 4v" 0 "record 1024 bytes" open state reply out; same "numbers 4v" out steps
expect "numbers 4v + 2, an exact half above" 0 "record 1024 bytes" open state reply_half half_out; same "numbers 4v + 2" half_out next_steps
expect "index 1 of 1 record" 11 "absent: index 1, count 1" open state1 reply no; absent "index 1" no
head -c 2086 reply > cut
expect "a reply without its last byte" 9 "bad frame: input 2, code 1, place 2086" open state cut no; absent "a reply cut" no
{ cat reply; printf '\0'; } > longer
expect "a byte after the reply" 9 "bad frame: input 2, code 14, place 2087" open state longer no
{ head -c 31 state; bytes 03; tail -c 511 state; } > bad_secret
expect "a secret byte 3" 9 "bad frame: input 1, code 7, place 31" open bad_secret reply no
: > empty
expect "an empty state" 9 "bad frame: input 1, code 1, place 0" open empty reply no
expect "a reply in the state's place" 9 "bad frame: input 1, code 4, place 5" open reply reply no
bytes "${magic}0104${name}09000000000000000c1700000000000000" > peer
expect "a refusal of the server" 12 "peer refused: code 12, place 23" open state peer no; absent "a refusal" no
expect "a bad state before a refusal of the server" 9 "bad frame: input 1, code 1, place 0" open empty peer no
expect "words missing" 2 "usage" open a b
expect "no words" 2 "usage"
expect "a word more" 2 "usage" open state reply out more
expect "another command" 2 "usage" close state reply out
expect "help is no command" 2 "usage" --help
expect "no state file" 7 "file fault" open missing reply no; absent "no state file" no
expect "no reply file" 7 "file fault" open state missing no; absent "no reply file" no
expect "an empty name" 7 "file fault" open "" reply no
expect "a folder that isn't there" 7 "file fault" open state reply missing/out
expect "a full device" 7 "file fault" open state reply /dev/full
cp state both
expect "the record in the state's place" 0 "record 1024 bytes" open both reply both; same "the record in the state's place" both steps
"$program" open state reply out > /dev/full 2> stderr; [ $? = 14 ] && passed=$((passed + 1)) || { failed=$((failed + 1)); echo "FAILED standard output full"; }
same "standard output full" out steps

truncate -s 1G huge
seconds=$SECONDS
(ulimit -v 200000; expect "a file of 1 GiB" 9 "bad frame: input 2, code 2, place 0" open state huge no; [ "$failed" = 0 ]) && passed=$((passed + 1)) || failed=$((failed + 1))
[ $((SECONDS - seconds)) -le 5 ] && passed=$((passed + 1)) || { failed=$((failed + 1)); echo "FAILED a file of 1 GiB took long"; }

closing
