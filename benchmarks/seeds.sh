#!/usr/bin/env bash
# Looks records up with so many random seeds on a set, the whole way: each query is refused with 6 or its record comes back right. Prints
# how many of each, and fails on any other end. benchmarks/seeds.sh [COUNT] [SET..]
top=$(cd "$(dirname "$0")/.." && pwd)
program=$top/crates/spiral_tool/out/spiral_tool
count=${1:-1000}
shift
work=$(mktemp -d) || exit 1
trap 'rm -rf "$work"' EXIT
cd "$work" || exit 1
declare -A most=([tiny-stream]=8 [edge-256]=4) capacity=([tiny-stream]=1024 [edge-256]=1024)
wrong=0
for set in "${@:-edge-256}"; do
  size=${capacity[$set]}
  head -c $((most[$set] * size)) /dev/urandom > records
  "$program" prepare "$set" "$size" records database > said || exit 1
  : > setup
  right=0 refused=0
  for ((k = 0; k < count; k++)); do
    head -c 32 /dev/urandom > seed
    index=$((k % most[$set]))
    "$program" ask "$set" $index seed:seed state setup query > said
    status=$?
    if [ $status = 6 ]; then
      refused=$((refused + 1))
    elif [ $status = 0 ] && "$program" answer database setup query reply 1 > said && "$program" open state reply record > said &&
      cmp -s record <(tail -c +$((index * size + 1)) records | head -c "$size"); then
      right=$((right + 1))
    else
      wrong=$((wrong + 1))
      echo "$set: seed $(od -An -v -tx1 seed | tr -d ' \n'), index $index: status $status, or another record"
    fi
  done
  echo "$set: $right right, $refused refused of $count"
done
[ "$wrong" = 0 ]
