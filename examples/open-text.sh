#!/usr/bin/env bash
# Builds the program and lets it open a reply that is made here from a text: a whole reply frame whose secret is 0
# and whose numbers are 4 times the text's bytes, so that the opened record is the text.
#   examples/open-text.sh [TEXT]      (1 to 1024 bytes)
set -u
. "$(dirname "$0")/build.bash"
text=${1-"A private look-up that can't come back wrong."}
LC_ALL=C
length=${#text}
if [ "$length" -lt 1 ] || [ "$length" -gt 1024 ]; then
  echo "The text has $length bytes; a record of this set has 1 to 1024." >&2
  exit 2
fi

build_program
work=$(mktemp -d) || exit 1
trap 'rm -rf "$work"' EXIT
cd "$work" || exit 1

# bytes HEX: these bytes; number N: eight bytes of N, the least first, as hexadecimal digits.
bytes() { printf '%b' "$(printf '%s' "$1" | sed 's/../\\x&/g')"; }
number() { local k; for k in 0 8 16 24 32 40 48 56; do printf '%02x' $(($1 >> k & 255)); done; }

name=08656467652d323536 # the length of "edge-256" and its letters
{
  bytes "535049520105$name$(number 520)$(number 0)"
  head -c 512 /dev/zero | tr '\0' '\1' # a secret number 0 is the byte 1
} > state

{
  bytes "535049520103$name$(number 2064)$(number 1)$(number "$length")"
  { printf '%s' "$text"; head -c $((1024 - length)) /dev/zero; } | od -An -v -tu1 -w4 | while read -r a b c d; do
    n=$((4 * a + (4 * b << 10) + (4 * c << 20) + (4 * d << 30))) # four numbers of 10 bits
    bytes "$(printf '%02x%02x%02x%02x%02x' $((n & 255)) $((n >> 8 & 255)) $((n >> 16 & 255)) $((n >> 24 & 255)) $((n >> 32)))"
  done
  head -c 768 /dev/zero # row 0
} > reply

echo "\$ spiral_tool open state reply record"
"$program" open state reply record
status=$?
if [ "$status" != 0 ]; then
  echo "The program ended with status $status." >&2
  exit "$status"
fi
echo "\$ cat record"
cat record
echo
if [ "$(cat record)" != "$text" ]; then
  echo "The record isn't the text." >&2
  exit 1
fi
