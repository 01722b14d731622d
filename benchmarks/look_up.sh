#!/usr/bin/env bash
# Time and peak memory of the four commands of a look-up, on a database as large as the set allows, beside the time of a plain
# read of the database file. SETS chooses the sets: SETS="tiny-stream" benchmarks/look_up.sh
. "$(dirname "$0")/measure.bash"
declare -A most=([tiny-spiral]=16 [tiny-pack]=16 [tiny-stream]=8 [tiny-streampack]=8 [spiral-2048]=512 [pack-2048]=512 [stream-2048]=512 [streampack-2048]=512 [big-2048]=4096)
declare -A capacity=([tiny-spiral]=256 [tiny-pack]=256 [tiny-stream]=1024 [tiny-streampack]=1024 [spiral-2048]=8192 [pack-2048]=32768 [stream-2048]=15360 [streampack-2048]=49152 [big-2048]=8192)
head -c 32 /dev/zero > seed
for set in ${SETS:-tiny-stream}; do
  head -c $((most[$set] * capacity[$set])) /dev/urandom > records
  measure "prepare $set" prepare "$set" "${capacity[$set]}" records database
  measure "ask $set" ask "$set" 1 seed:seed state setup query
  for workers in 1 4; do
    measure "answer $set, $workers workers" answer database setup query reply "$workers"
  done
  measure "open $set" open state reply record
  start=$(date +%s%N)
  cat database > copy
  printf '%-28s %8d ms\n' "cat the database" $((($(date +%s%N) - start) / 1000000))
  cmp -s record <(tail -c +$((capacity[$set] + 1)) records | head -c "${capacity[$set]}") || echo "the record isn't the one asked for"
done
