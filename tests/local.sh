#!/usr/bin/env bash
# The command `local`, a whole look-up in one process, on real files: what it writes is what the four commands write one after the other, in each
# cutting and by each number of workers.
. "$(dirname "$0")/checks.bash"

# fill OCTAL COUNT: so many bytes of that value. filled COUNT: records 0 to COUNT - 1, each of 256 bytes of its number.
fill() { head -c "$2" /dev/zero | tr '\0' "\\$1"; }
filled() { for ((i = 0; i < $1; i++)); do fill "$(printf %03o "$i")" 256; done; }

head -c 32 /dev/zero > seed
filled 16 > sixteen; "$program" prepare tiny-spiral 256 sixteen db > said
filled 8 > eight; "$program" prepare tiny-spiral 256 eight half_db > said

# ---- the four kinds of sets

bytes 5a > one; "$program" prepare tiny-stream 1 one one_db > said
expect "a set without keys" 0 "record 1 bytes" local one_db 0 seed:seed wire out 1 4096; is "a set without keys" 5a "$(hex out)"
expect "a set with keys" 0 "record 256 bytes" local db 15 seed:seed wire out 1 4096; fill 017 256 > wanted; same "a set with keys" wanted out
fill 252 4096 > many; "$program" prepare tiny-pack 256 many pack_db > said; fill 252 256 > wanted
expect "a packing set" 0 "record 256 bytes" local pack_db 3 seed:seed pack_wire pack_out 2 1000; same "a packing set" wanted pack_out
"$program" prepare tiny-streampack 1024 many stream_pack_db > said; fill 252 1024 > wanted
expect "a packing set that streams" 0 "record 1024 bytes" local stream_pack_db 3 seed:seed pack_wire pack_out 1 7; same "a packing set that streams" wanted pack_out

# ---- the bytes of both directions

"$program" ask tiny-spiral 15 seed:seed state setup query > said
"$program" answer db setup query reply 1 > said
cat setup query reply > both; same "the setup, the query and the reply" both wire
for cut in 1 6 7 8 1048576; do
  for workers in 1 2 3 64; do
    expect "pieces of $cut, $workers workers" 0 "record 256 bytes" local db 15 seed:seed cut_wire cut_out "$workers" "$cut"
    same "pieces of $cut, $workers workers" wire cut_wire; same "pieces of $cut, $workers workers: the record" out cut_out
  done
done

# ---- a query of edge-256 by hand (docs/WIRE.md): eleven secrets of 1, the others 0

{ repeat 0200000000000000 11; repeat 0100000000000000 501; head -c $((8 * (29184 - 512))) /dev/zero; } > words
for ((v = 0; v < 256; v++)); do printf '%02x' $v; done > row; bytes "$(cat row)$(cat row)$(cat row)$(cat row)" > steps
"$program" prepare edge-256 1024 steps steps_db > said
expect "words by hand" 0 "record 1024 bytes" local steps_db 0 words:words edge_wire edge_out 1 1; same "words by hand" steps edge_out
"$program" ask edge-256 0 words:words state setup query > said; "$program" answer steps_db setup query reply 1 > said
tail -c 2087 edge_wire > edge_reply; same "words by hand: the reply" reply edge_reply
fill 377 2764800 > ones
expect "one uniform number everywhere" 0 "record 256 bytes" local db 15 words:ones ones_wire ones_out 1 65536; same "one uniform number everywhere" out ones_out

# ---- what is refused: nothing is written

expect "an index past the set" 4 "index 16 is not below 16" local db 16 seed:seed no no_out 1 1; absent "an index past the set" no_out
expect "an index past the database" 11 "absent: index 8, count 8" local half_db 8 seed:seed no no_out 1 1; absent "an index past the database" no; absent "an index past the database" no_out
head -c 31 seed > short
expect "a seed of 31 bytes" 5 "words short: need 345600, have 0" local db 0 seed:short no no_out 1 1; absent "a seed of 31 bytes" no
expect "a query that is too noisy" 6 "$("$program" ask edge-256 0 seed:seed no no no)" local steps_db 0 seed:seed no no_out 1 1; absent "a query that is too noisy" no
head -c 9 db > cut_db
expect "a database that is cut" 9 "bad frame: input 1, code 1, place 9" local cut_db 0 seed:seed no no_out 1 1; absent "a database that is cut" no
expect "no database" 7 "file fault" local missing 0 seed:seed no no_out 1 1
expect "no seed" 7 "file fault" local db 0 seed:missing no no_out 1 1; absent "no seed" no
expect "a transcript that can't be written" 7 "file fault" local db 0 seed:seed missing/wire no_out 1 1; absent "a transcript that can't be written" no_out
expect "a record that can't be written" 7 "file fault" local db 15 seed:seed stood missing/out 1 1; same "a record that can't be written" wire stood
expect "pieces of 0 bytes" 2 "usage" local db 0 seed:seed no no_out 1 0
expect "pieces of more than 1048576 bytes" 2 "usage" local db 0 seed:seed no no_out 1 1048577
expect "no workers" 2 "usage" local db 0 seed:seed no no_out 0 1
expect "65 workers" 2 "usage" local db 0 seed:seed no no_out 65 1
expect "a word too few" 2 "usage" local db 0 seed:seed no no_out 1
"$program" local db 15 seed:seed full_wire full_out 1 1000 > /dev/full 2> stderr; is "standard output full" 14 $?; same "standard output full" out full_out

# ---- a stated length reserves nothing

"$program" ask tiny-spiral 15 seed:seed state setup query > said
{ bytes 535049520101"0b74696e792d73706972616c"ffffffffffffffff; fill 000 64; } > endless
(ulimit -v 200000; expect "a setup of 2^64 - 1 bytes" 9 "bad frame: input 2, code 6, place 18" answer db endless query no 1; [ "$failed" = 0 ]) && passed=$((passed + 1)) || failed=$((failed + 1))

closing
