#!/usr/bin/env bash
# Nanoseconds of what the ring does with a polynomial of degree 2048, modulo both primes: the transform, its inverse, a product added, and the two
# ways between coefficients and residues. Each is the least of ten averages over 2000 repetitions, or as many as are named.
program=$(cd "$(dirname "$0")/.." && pwd)/crates/transform_bench/out/transform_bench
if [ ! -x "$program" ]; then
  echo "$(basename "$0"): $program isn't built; run rt ci first" >&2
  exit 1
fi
"$program" "${1:-2000}"
