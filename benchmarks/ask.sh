#!/usr/bin/env bash
# Time and peak memory of `ask` from a seed of zeros, and of `noise`, which deals and measures the same query but writes nothing.
. "$(dirname "$0")/measure.bash"
head -c 32 /dev/zero > seed
for set in tiny-stream stream-2048; do
  measure "ask $set" ask "$set" 0 seed:seed state setup query
  measure "noise $set" noise "$set" 0 seed:seed
done
