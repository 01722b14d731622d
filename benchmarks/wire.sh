#!/usr/bin/env bash
# The wire: how fast a setup of spiral-2048 is decoded, in pieces of 65,536 bytes and of 1 (least of ten); the peak memory of a server of that set with 512 records of 8192
# bytes that serves one client; and the time of a `fetch` over loopback beside that of `local` (least of five).
. "$(dirname "$0")/measure.bash"
bench=$top/crates/wire_bench/out/wire_bench
workers=${1:-1}

head -c 32 /dev/zero > seed
for ((k = 0; k < 512; k++)); do head -c 8192 /dev/zero | tr '\0' "\\$(printf %03o $((k % 256)))"; done > records
"$program" prepare spiral-2048 8192 records db > said
"$program" ask spiral-2048 300 seed:seed state setup query > said

for size in 65536 1; do
  "$bench" setup "$size" | awk -v size="$size" '{ printf "decoding a setup in pieces of %d bytes: %.0f MB/s\n", size, $1 / $3 * 1000 }'
done

measure "local" local db 300 seed:seed wire out "$workers" 65536
least() { sort -n | head -n 1; }
for ((k = 0; k < 5; k++)); do
  start=$(date +%s%N); "$program" local db 300 seed:seed wire out "$workers" 65536 > said; end=$(date +%s%N); echo $(((end - start) / 1000000))
done | least | sed 's/^/local, least of five: /; s/$/ ms/'

port=$((20000 + RANDOM % 20000))
"$program" serve "127.0.0.1:$port" db 6 "$workers" > lines &
server=$!
trap 'kill "$server" 2> said; rm -rf "$work"' EXIT
for ((k = 0; k < 5; k++)); do
  for ((wait = 0; wait < 600; wait++)); do # the first time the database is brought into product form before it listens
    start=$(date +%s%N); "$program" fetch "127.0.0.1:$port" spiral-2048 300 seed:seed fetched > said && break
    sleep 0.05
  done
  end=$(date +%s%N); echo $(((end - start) / 1000000))
done | least | sed 's/^/fetch, least of five: /; s/$/ ms/'
awk '/^VmHWM/ { print "serve, peak memory: " $2 " KiB" }' "/proc/$server/status"
cmp -s out fetched && echo "the records are the same"
"$program" fetch "127.0.0.1:$port" spiral-2048 300 seed:seed fetched > said
wait "$server"
cat lines
