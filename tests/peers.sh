#!/usr/bin/env bash
# The commands `serve` and `fetch` over loopback: a server beside a client of each kind of set; a client that resets its connection in the midst of a
# frame, and one behind it that is answered; hostile input. Each wait has its bound, and each process is ended by its id.
. "$(dirname "$0")/checks.bash"

port=$((20000 + RANDOM % 20000))

# listening: a process listens on the port.
listening() { grep -q " 0100007F:$(printf '%04X' "$port") 00000000:0000 0A " /proc/net/tcp; }

# start DB SESSIONS: starts a server of that database on a port that is free, whose lines go to the file lines.
start() {
  local tries
  for ((tries = 0; tries < 20; tries++)); do
    port=$((port + 1))
    listening && continue
    timeout 120 "$program" serve "127.0.0.1:$port" "$1" "$2" 2 > lines 2> stderr &
    server=$!
    for ((wait = 0; wait < 100; wait++)); do
      listening && return
      kill -0 "$server" 2> stderr || break
      sleep 0.05
    done
  done
  echo "FAILED: no port was free"; exit 1
}

# served NAME STATUS LINES: the server ends with that status and has put these lines.
served() { wait "$server"; is "$1: the status" "$2" "$?"; is "$1: the lines" "$3" "$(cat lines)"; }

# fetched NAME SET INDEX WANTED: the record at an index is that file.
fetched() {
  expect "$1" 0 "record $(stat -c %s "$4") bytes" fetch "127.0.0.1:$port" "$2" "$3" seed:seed got; same "$1" "$4" got
}

# reset BYTES: a client sends these bytes and resets its connection.
reset() {
  timeout 20 perl -e 'use Socket; socket(S, PF_INET, SOCK_STREAM, 0); connect(S, sockaddr_in($ARGV[0], inet_aton("127.0.0.1"))) or exit 1;
    syswrite S, pack("H*", $ARGV[1]); select undef, undef, undef, 0.3; setsockopt(S, SOL_SOCKET, SO_LINGER, pack("ii", 1, 0)); close S' "$port" "$1"
}

# talk FILE ANSWER: a client sends the file, closes its side, and keeps what comes.
talk() {
  timeout 60 perl -e 'use Socket; $SIG{PIPE} = "IGNORE"; socket(S, PF_INET, SOCK_STREAM, 0); connect(S, sockaddr_in($ARGV[0], inet_aton("127.0.0.1"))) or exit 1;
    open F, "<", $ARGV[1]; binmode F; while (sysread F, $b, 65536) { syswrite S, $b } shutdown S, 1; while (sysread S, $b, 65536) { print $b }' "$port" "$1" > "$2"
}

# fill OCTAL COUNT: so many bytes of that value.
fill() { head -c "$2" /dev/zero | tr '\0' "\\$1"; }

fill 000 32 > seed
front=535049520104

# ---- a server with three sessions beside a client of each kind of set

for ((k = 0; k < 16; k++)); do fill "$(printf %03o "$k")" 256; done > sixteen
"$program" prepare tiny-spiral 256 sixteen spiral_db > said
fill 252 4096 > many; "$program" prepare tiny-pack 256 many pack_db > said; "$program" prepare tiny-streampack 1024 many stream_pack_db > said
bytes 5a > one; "$program" prepare tiny-stream 1 one stream_db > said
all="session 1: 1 answered, done
session 2: 1 answered, done
session 3: 1 answered, done"
fill 017 256 > fifteenth; fill 252 256 > short_aa; fill 252 1024 > long_aa
start stream_db 3; for k in 1 2 3; do fetched "tiny-stream" tiny-stream 0 one; done; served "tiny-stream" 0 "$all"
start spiral_db 3; for k in 1 2 3; do fetched "tiny-spiral" tiny-spiral 15 fifteenth; done; served "tiny-spiral" 0 "$all"
start pack_db 3; for k in 1 2 3; do fetched "tiny-pack" tiny-pack 3 short_aa; done; served "tiny-pack" 0 "$all"
start stream_pack_db 3; for k in 1 2 3; do fetched "tiny-streampack" tiny-streampack 3 long_aa; done; served "tiny-streampack" 0 "$all"

# ---- a client that goes away in the midst of a frame: the next one is answered

start spiral_db 3
reset 535049520102; is "a reset within a header" 0 "$?"
fetched "after a reset" tiny-spiral 15 fifteenth
"$program" ask tiny-spiral 15 seed:seed state setup query > said
reset "$(head -c 20000 setup | od -An -v -tx1 | tr -d ' \n')"
served "resets" 8 "session 1: 0 answered, link fault
session 2: 1 answered, done
session 3: 0 answered, link fault
link fault"

# ---- what a client is told

start spiral_db 4
expect "a server of another set" 12 "peer refused: code 11, place 0" fetch "127.0.0.1:$port" tiny-stream 0 seed:seed no; absent "a server of another set" no
expect "an index past the set" 4 "index 16 is not below 16" fetch "127.0.0.1:$port" tiny-spiral 16 seed:seed no
expect "a set that isn't known" 3 "unknown set" fetch "127.0.0.1:$port" nosuch 0 seed:seed no
expect "a query that is too noisy" 6 "$("$program" ask edge-256 0 seed:seed no no no)" fetch "127.0.0.1:$port" edge-256 0 seed:seed no; absent "a query that is too noisy" no
expect "no seed" 7 "file fault" fetch "127.0.0.1:$port" tiny-spiral 0 seed:missing no
expect "a record that can't be written" 7 "file fault" fetch "127.0.0.1:$port" tiny-spiral 15 seed:seed missing/out
: > empty; talk empty answer; is "an empty session" "" "$(hex answer)"
fetched "the last of four" tiny-spiral 15 fifteenth
served "what a client is told" 0 "session 1: 0 answered, refused 11 at 0
session 2: 1 answered, done
session 3: 0 answered, done
session 4: 1 answered, done"
head -c 2048 sixteen > eight; "$program" prepare tiny-spiral 256 eight half_db > said
start half_db 1
expect "an index past the database" 11 "absent: index 8, count 8" fetch "127.0.0.1:$port" tiny-spiral 8 seed:seed no; absent "an index past the database" no
served "an index past the database" 0 "session 1: 1 answered, done"
expect "no server" 8 "link fault" fetch "127.0.0.1:$port" tiny-spiral 15 seed:seed no; absent "no server" no
expect "an address that is none" 8 "link fault" fetch nowhere tiny-spiral 15 seed:seed no

# ---- hostile input: each session is refused at its place, and the next one is served

name=0b74696e792d73706972616c
"$program" answer spiral_db setup query reply 1 > said
"$program" ask tiny-pack 3 seed:seed other_state other_setup other_query > said
cat setup query > both

# refused CODE PLACE: the Refuse frame of tiny-spiral.
refused() { local n=$2 le="" k; for ((k = 0; k < 8; k++)); do le+=$(printf '%02x' $((n & 255))); n=$((n >> 8)); done; printf '%s' "${front}${name}0900000000000000$(printf '%02x' "$1")$le"; }

lines_wanted=""
# hostile NAME INPUT ANSWERED CODE PLACE: the file is refused with this code and place, behind so many replies.
hostile() {
  talk "$2" answer
  is "$1" "$(for ((j = 0; j < $3; j++)); do hex reply; done)$(refused "$4" "$5")" "$(hex answer)"
  session=$((session + 1)); lines_wanted+="session $session: $3 answered, refused $4 at $5"$'\n'
}
session=0
start spiral_db 14
bytes 53504953 > input; hostile "a byte of the magic" input 0 2 3
bytes 5350495203 > input; hostile "another version" input 0 3 4
bytes 535049520106 > input; hostile "a database" input 0 4 5
bytes 53504952010200 > input; hostile "a name of no bytes" input 0 5 7
bytes 5350495201020b74696e792d7370697261"49" > input; hostile "a name with a capital" input 0 5 7
bytes "535049520102${name}ff0d000000000000" > input; hostile "a body too long" input 0 6 18
bytes "535049520101${name}ffffffffffffffff" > input; hostile "a body of 2^64 - 1 bytes" input 0 6 18
head -c 10 query > input; hostile "a header that is cut" input 0 1 10
head -c 3609 query > input; hostile "a query without its last byte" input 0 1 3609
{ head -c 40 setup; bytes 0100df1e20f1ed; tail -c +48 setup; } > input; hostile "a third residue of q" input 0 7 40
{ cat setup; head -c 3603 query; bytes 0100df1e20f1ed; } > input; hostile "a last residue of q" input 0 7 1659437
hostile "a query before a setup" query 0 12 0
{ cat setup other_query; } > input; hostile "a query of another set" input 0 11 1655834
{ cat setup query query; bytes 00; } > input; hostile "a byte behind two queries" input 2 2 1663054
served "hostile input" 0 "${lines_wanted%$'\n'}"

# ---- a query of zeros: a set with keys wants them first, one without keys answers

bytes 00 > byte; "$program" prepare spiral-2048 1 byte long_db > said; "$program" prepare stream-2048 1 byte long_stream_db > said
{ bytes 5350495201020b73706972616c2d3230343800"70000000000000"; fill 000 28672; } > input
start long_db 1; talk input answer; served "no setup" 0 "session 1: 0 answered, refused 12 at 0"
is "no setup" "${front}0b73706972616c2d3230343809000000000000000c0000000000000000" "$(hex answer)"
{ bytes 5350495201020b73747265616d2d3230343800"40830000000000"; fill 000 8601600; } > input
start long_stream_db 1; talk input answer; served "a query of zeros" 0 "session 1: 1 answered, done"
is "a query of zeros" "5350495201030b73747265616d2d32303438 32810" "$(at answer 0 18) $(stat -c %s answer)"

# ---- words

expect "no sessions" 2 "usage" serve "127.0.0.1:$port" spiral_db 0 1
expect "no workers" 2 "usage" serve "127.0.0.1:$port" spiral_db 1 0
expect "no database" 7 "file fault" serve "127.0.0.1:$port" missing 1 1
expect "a database that is none" 9 "bad frame: input 1, code 4, place 5" serve "127.0.0.1:$port" query 1 1
expect "an address that is none" 8 "link fault" serve nowhere spiral_db 1 1

closing
