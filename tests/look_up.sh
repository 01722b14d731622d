#!/usr/bin/env bash
# The commands `prepare` and `answer`, and whole look-ups through the four commands, on real files.
. "$(dirname "$0")/checks.bash"

# ---- databases

front=53504952010608656467652d323536 # of a Database of edge-256, up to the body length
bytes 0102030405060708 > eight
expect "two records" 0 "database edge-256 2 records of 4 bytes" prepare edge-256 4 eight db
is "the frame of two records" "${front}180000000000000002000000000000000400000000000000""0102030405060708" "$(hex db)"
head -c 7 eight > seven; head -c 20 /dev/zero > twenty; : > empty
expect "no whole records" 13 "bad records: code 10, length 4, number 7" prepare edge-256 4 seven no; absent "no whole records" no
expect "too many records" 13 "bad records: code 9, length 4, number 4" prepare edge-256 4 twenty no; absent "too many records" no
expect "too long records" 13 "bad records: code 8, length 1025, number 1024" prepare edge-256 1025 eight no; absent "too long records" no
expect "records of no byte" 13 "bad records: code 8, length 0, number 1024" prepare edge-256 0 eight no; absent "records of no byte" no
expect "no record" 0 "database edge-256 0 records of 4 bytes" prepare edge-256 4 empty none
is "the frame of no record" "${front}100000000000000000000000000000000400000000000000" "$(hex none)"
expect "a set that isn't known" 3 "unknown set" prepare nosuch 4 eight no
expect "a set's name with a capital" 3 "unknown set" prepare tiny-spiraI 4 eight no
expect "a length past its range" 2 "usage" prepare edge-256 4294967296 eight no
expect "a length with a leading zero" 2 "usage" prepare edge-256 04 eight no
expect "no input" 7 "file fault" prepare edge-256 4 missing no; absent "no input" no
expect "a bad length before a missing input" 13 "bad records: code 8, length 0, number 1024" prepare edge-256 0 missing no
expect "a database that can't be written" 7 "file fault" prepare edge-256 4 eight missing/db
cp eight both
expect "the database in the input's place" 0 "database edge-256 2 records of 4 bytes" prepare edge-256 4 both both; same "the database in the input's place" both db
"$program" prepare edge-256 4 eight full_out > /dev/full 2> stderr; is "standard output full" 14 $?; same "standard output full" full_out db

# ---- a query of edge-256 by hand, of index 0 and of index 3 (docs/WIRE.md)

{ repeat 0200000000000000 11; repeat 0100000000000000 501; head -c $((8 * (29184 - 512))) /dev/zero; } > words
"$program" ask edge-256 0 words:words state setup query > said
for ((v = 0; v < 256; v++)); do printf '%02x' $v; done > row; bytes "$(cat row)$(cat row)$(cat row)$(cat row)" > steps
expect "a database of steps" 0 "database edge-256 1 records of 1024 bytes" prepare edge-256 1024 steps steps_db
expect "an answer by hand" 0 "reply edge-256 2087 bytes" answer steps_db setup query reply 1
# Row 0 is 0, and value v in rows 1 and 2 becomes 4v in 10 bits: four of these in 5 bytes.
{
  bytes 53504952010308656467652d323536100800000000000001000000000000000004000000000000
  for entry in 1 2 3 4; do
    for ((v = 0; v < 256; v += 4)); do
      n=$((4 * v + (4 * v + 4 << 10) + (4 * v + 8 << 20) + (4 * v + 12 << 30)))
      printf '%02x%02x%02x%02x%02x' $((n & 255)) $((n >> 8 & 255)) $((n >> 16 & 255)) $((n >> 24 & 255)) $((n >> 32))
    done
  done > entries
  bytes "$(cat entries)"
  head -c 768 /dev/zero
} > wanted
same "the reply by hand" reply wanted
expect "the record by hand" 0 "record 1024 bytes" open state reply out; same "the record by hand" out steps
"$program" ask edge-256 3 words:words state3 setup3 query3 > said
expect "an answer for a record that isn't there" 0 "reply edge-256 2087 bytes" answer steps_db setup3 query3 reply3 1
expect "a record that isn't there" 11 "absent: index 3, count 1" open state3 reply3 no; absent "a record that isn't there" no

# ---- a look-up on tiny-stream from a seed of zeros, by each number of workers

head -c 32 /dev/zero > seed; bytes 5a > one
expect "one record of one byte" 0 "database tiny-stream 1 records of 1 bytes" prepare tiny-stream 1 one one_db
expect "a query from a seed" 0 "query tiny-stream setup 0 bytes query 172058 bytes" ask tiny-stream 0 seed:seed st su qu
for workers in 1 2 3 64; do
  expect "$workers workers" 0 "reply tiny-stream 2858 bytes" answer one_db su qu "re$workers" "$workers"
  same "the same reply by $workers workers" "re$workers" re1
done
expect "one byte back" 0 "record 1 bytes" open st re1 byte; same "one byte back" byte one
expect "no workers" 2 "usage" answer one_db su qu no 0
expect "too many workers" 2 "usage" answer one_db su qu no 65; absent "too many workers" no
expect "workers with a leading zero" 2 "usage" answer one_db su qu no 01
expect "a word too few" 2 "usage" answer one_db su qu no
expect "a word too many" 2 "usage" answer one_db su qu no 1 more

# Each record of a database comes back, for every index.
{ for ((k = 0; k < 8; k++)); do head -c 5 /dev/zero | tr '\0' "\\$(printf %03o $((k + 65)))"; done; } > eight_records
"$program" prepare tiny-stream 5 eight_records eight_db > said
for ((k = 0; k < 8; k++)); do
  head -c 31 /dev/zero > seed_k; bytes "$(printf %02x $k)" >> seed_k
  "$program" ask tiny-stream $k seed:seed_k st su qu > said && "$program" answer eight_db su qu re 2 > said && "$program" open st re record_k > said
  is "record $k" "$(tail -c +$((5 * k + 1)) eight_records | head -c 5)" "$(cat record_k)"
done

# ---- a look-up on stream-2048, whose values of 15 bits don't divide a byte: the last of three records, the last byte of each its own

{ for k in 1 2 3; do head -c 15359 /dev/zero | tr '\0' "\\$k"; bytes "f$k"; done; } > three_records
expect "records of 15 bits" 0 "database stream-2048 3 records of 15360 bytes" prepare stream-2048 15360 three_records three_db
expect "a query of 15 bits" 0 "query stream-2048 setup 0 bytes query 8601626 bytes" ask stream-2048 2 seed:seed long_state long_setup long_query
expect "an answer of 15 bits" 0 "reply stream-2048 32810 bytes" answer three_db long_setup long_query long_reply 2
tail -c 15360 three_records > third
expect "a record of 15 bits" 0 "record 15360 bytes" open long_state long_reply record_3; same "a record of 15 bits" record_3 third

# ---- a look-up among as many and as long records as stream-2048 has, of which no two are alike: each has its number in it

for ((k = 0; k < 512; k++)); do printf "%-15360s" "record $k of the set's 512"; done | tr ' ' '.' > all_records
expect "all records" 0 "database stream-2048 512 records of 15360 bytes" prepare stream-2048 15360 all_records all_db
for k in 0 291 511; do
  expect "a query among all records" 0 "query stream-2048 setup 0 bytes query 8601626 bytes" ask stream-2048 $k seed:seed all_state all_setup all_query
  expect "an answer of all records" 0 "reply stream-2048 32810 bytes" answer all_db all_setup all_query all_reply 4
  tail -c +$((15360 * k + 1)) all_records | head -c 15360 > wanted_k
  expect "record $k of 512" 0 "record 15360 bytes" open all_state all_reply record_k; same "record $k of 512" record_k wanted_k
done

# ---- look-ups on tiny-spiral, whose query is one ciphertext that the server expands with the keys in SETUP

for ((k = 0; k < 16; k++)); do head -c 256 /dev/zero | tr '\0' "\\$(printf %03o $k)"; done > sixteen
expect "sixteen records" 0 "database tiny-spiral 16 records of 256 bytes" prepare tiny-spiral 256 sixteen keys_db
expect "a query to expand" 0 "query tiny-spiral setup 1655834 bytes query 3610 bytes" ask tiny-spiral 15 seed:seed keys_state keys keys_query
for workers in 1 2 3 64; do
  expect "an expanded query by $workers workers" 0 "reply tiny-spiral 1834 bytes" answer keys_db keys keys_query "keys_reply$workers" "$workers"
  same "the same reply to it by $workers workers" "keys_reply$workers" keys_reply1
done
tail -c 256 sixteen > wanted_15
expect "the last of sixteen" 0 "record 256 bytes" open keys_state keys_reply1 record_15; same "the last of sixteen" record_15 wanted_15
expect "a query for the first" 0 "query tiny-spiral setup 1655834 bytes query 3610 bytes" ask tiny-spiral 0 seed:seed other_state first_keys first_query
same "the keys depend on no index" first_keys keys
expect "an index past the last" 4 "index 16 is not below 16" ask tiny-spiral 16 seed:seed no no no
head -c 2048 sixteen > eight_of_16
expect "half of them" 0 "database tiny-spiral 8 records of 256 bytes" prepare tiny-spiral 256 eight_of_16 half_db
expect "a query for the ninth" 0 "query tiny-spiral setup 1655834 bytes query 3610 bytes" ask tiny-spiral 8 seed:seed other_state other_keys ninth_query
expect "an answer for the ninth" 0 "reply tiny-spiral 1834 bytes" answer half_db other_keys ninth_query other_reply 1
expect "the ninth of eight" 11 "absent: index 8, count 8" open other_state other_reply no
# Secrets of all -1, no errors, and one number everywhere.
head -c 2764800 /dev/zero | tr '\0' '\377' > ones
expect "a query of greatest words" 0 "query tiny-spiral setup 1655834 bytes query 3610 bytes" ask tiny-spiral 15 words:ones other_state other_keys other_query
expect "its answer" 0 "reply tiny-spiral 1834 bytes" answer keys_db other_keys other_query other_reply 2
expect "its record" 0 "record 256 bytes" open other_state other_reply record_15; same "its record" record_15 wanted_15
absent "an index past the last" no

# ---- a look-up on spiral-2048: one of 512 records

for ((k = 0; k < 512; k++)); do head -c 8192 /dev/zero | tr '\0' "\\$(printf %03o $((k % 256)))"; done > long_records
expect "512 long records" 0 "database spiral-2048 512 records of 8192 bytes" prepare spiral-2048 8192 long_records long_db
expect "a query for one of them" 0 "query spiral-2048 setup 7225370 bytes query 28698 bytes" ask spiral-2048 300 seed:seed long_state long_keys long_query
expect "its answer" 0 "reply spiral-2048 22570 bytes" answer long_db long_keys long_query long_reply 2
head -c 8192 /dev/zero | tr '\0' '\054' > wanted_300
expect "record 300" 0 "record 8192 bytes" open long_state long_reply record_300; same "record 300" record_300 wanted_300

# ---- look-ups on the sets that pack: one scalar ciphertext for each entry of the result, which the server packs with the lift keys in SETUP

head -c 4096 /dev/zero | tr '\0' '\252' > all_aa
expect "records of aa" 0 "database tiny-pack 16 records of 256 bytes" prepare tiny-pack 256 all_aa pack_db
expect "a query to pack" 0 "query tiny-pack setup 1605656 bytes query 3608 bytes" ask tiny-pack 3 seed:seed pack_state pack_keys pack_query
for workers in 1 2 3 64; do
  expect "a packed answer by $workers workers" 0 "reply tiny-pack 1832 bytes" answer pack_db pack_keys pack_query "pack_reply$workers" "$workers"
  same "the same packed answer by $workers workers" "pack_reply$workers" pack_reply1
done
head -c 256 all_aa > wanted_aa
expect "a packed record" 0 "record 256 bytes" open pack_state pack_reply1 record_aa; same "a packed record" record_aa wanted_aa
# Rows and columns differ here: each byte of a record is another.
for ((k = 0; k < 16; k++)); do for ((b = 0; b < 256; b++)); do printf '%02x' $(((7 * k + b * (2 * k + 1)) % 256)); done; done > sixteen_hex
bytes "$(cat sixteen_hex)" > sixteen_kinds
expect "records of many bytes" 0 "database tiny-pack 16 records of 256 bytes" prepare tiny-pack 256 sixteen_kinds kinds_db
for k in 0 9 15; do
  expect "a query for record $k" 0 "query tiny-pack setup 1605656 bytes query 3608 bytes" ask tiny-pack $k seed:seed kinds_state kinds_keys kinds_query
  expect "an answer with record $k" 0 "reply tiny-pack 1832 bytes" answer kinds_db kinds_keys kinds_query kinds_reply 1
  tail -c +$((256 * k + 1)) sixteen_kinds | head -c 256 > wanted_k
  expect "packed record $k" 0 "record 256 bytes" open kinds_state kinds_reply record_k; same "packed record $k" record_k wanted_k
done
for ((k = 0; k < 8; k++)); do head -c 1024 /dev/zero | tr '\0' "\\$(printf %03o $k)"; done > eight_long
expect "eight long records" 0 "database tiny-streampack 8 records of 1024 bytes" prepare tiny-streampack 1024 eight_long sent_db
expect "a query that is sent whole and packed" 0 "query tiny-streampack setup 86046 bytes query 71710 bytes" ask tiny-streampack 6 seed:seed sent_state sent_keys sent_query
expect "its packed answer" 0 "reply tiny-streampack 2862 bytes" answer sent_db sent_keys sent_query sent_reply 3
head -c 1024 /dev/zero | tr '\0' '\006' > wanted_6
expect "its packed record" 0 "record 1024 bytes" open sent_state sent_reply record_6; same "its packed record" record_6 wanted_6
expect "a set that sends its query needs its lift keys" 9 "bad frame: input 2, code 1, place 0" answer sent_db empty sent_query no 1
expect "keys of another packing set" 10 "wrong set: expected tiny-streampack, found tiny-pack" answer sent_db pack_keys sent_query no 1

# ---- look-ups on the large sets that pack: the last of three records, and one of them

for set in "pack-2048 32768 8716312 28696 65576" "streampack-2048 49152 2293790 3211294 88110"; do
  read -r name length setup_bytes query_bytes reply_bytes <<< "$set"
  for k in 1 2 3; do head -c $((length - 1)) /dev/zero | tr '\0' "\\$k"; bytes "f$k"; done > three_wide
  expect "three records of $name" 0 "database $name 3 records of $length bytes" prepare "$name" "$length" three_wide wide_db
  expect "a query of $name" 0 "query $name setup $setup_bytes bytes query $query_bytes bytes" ask "$name" 2 seed:seed wide_state wide_keys wide_query
  expect "an answer of $name" 0 "reply $name $reply_bytes bytes" answer wide_db wide_keys wide_query wide_reply 2
  tail -c "$length" three_wide > wanted_wide
  expect "a record of $name" 0 "record $length bytes" open wide_state wide_reply record_wide; same "a record of $name" record_wide wanted_wide
done

# ---- what `answer` refuses of SETUP

head -c 1655833 keys > cut_keys; { cat keys; printf '\0'; } > longer_keys
{ head -c 40 keys; bytes 0100df1e20f1ed; tail -c +48 keys; } > keys_at_q; { head -c 40 keys; bytes 0000df1e20f1ed; tail -c +48 keys; } > keys_below_q
expect "no keys" 9 "bad frame: input 2, code 1, place 0" answer keys_db empty keys_query no 1
expect "keys of another set" 10 "wrong set: expected tiny-spiral, found spiral-2048" answer keys_db long_keys keys_query no 1
expect "keys and a query of other sets" 10 "wrong set: expected tiny-spiral, found spiral-2048" answer keys_db long_keys query no 1
expect "a query of another set than the keys" 10 "wrong set: expected tiny-spiral, found spiral-2048" answer keys_db keys long_query no 1
expect "keys without their last byte" 9 "bad frame: input 2, code 1, place 1655833" answer keys_db cut_keys keys_query no 1
expect "a byte after the keys" 9 "bad frame: input 2, code 14, place 1655834" answer keys_db longer_keys keys_query no 1
expect "a residue of the keys that is q" 9 "bad frame: input 2, code 7, place 40" answer keys_db keys_at_q keys_query no 1
expect "a query in the place of the keys" 9 "bad frame: input 2, code 4, place 5" answer keys_db keys_query keys_query no 1
expect "keys where the set has none" 10 "wrong set: expected edge-256, found tiny-spiral" answer steps_db keys query no 1
expect "keys that aren't there" 7 "file fault" answer keys_db missing keys_query no 1
expect "bad keys before a query that isn't there" 9 "bad frame: input 2, code 1, place 1655833" answer keys_db cut_keys missing no 1
absent "refused keys" no
expect "a residue below q" 0 "reply tiny-spiral 1834 bytes" answer keys_db keys_below_q keys_query other_reply 1

# ---- what `answer` refuses, each before REPLY is made

# refused NAME HEX CODE PLACE: a database of these bytes.
refused() { bytes "$2" > bad; expect "$1" 9 "bad frame: input 1, code $3, place $4" answer bad setup query no 1; }
n0=0000000000000000 n1=0100000000000000 n2=0200000000000000 n4=0400000000000000
refused "body length 15" "${front}0f00000000000000" 6 15
refused "count 5" "${front}1000000000000000""0500000000000000$n4" 9 23
refused "length 0" "${front}1000000000000000$n1$n0" 8 31
refused "length 1025" "${front}1104000000000000$n1""0104000000000000" 8 31
refused "a body length that isn't count times length" "${front}1700000000000000$n2$n4" 10 15
refused "a body length of 2^64 - 1" "${front}ffffffffffffffff$n1$n4" 10 15
refused "a byte after the frame" "$(hex db)00" 14 47
refused "a frame without its last byte" "$(hex db | head -c 92)" 1 46
refused "no byte" "" 1 0
refused "another magic" 53504953 2 3
refused "another version" 5350495203 3 4
refused "another kind" 535049520107 4 5
refused "a state" "$(head -c 31 state > cut; hex cut)" 4 5
refused "a set without a name" 53504952010600 5 7
refused "a set that isn't known, tiny-spiraI with a capital" 535049520106"0b"74696e792d737069726149 5 7
absent "refused databases" no
(ulimit -v 200000; refused "a body of 2^64 - 1 bytes takes no memory" "${front}ffffffffffffffff$n1$n4" 10 15; [ "$failed" = 0 ]) && passed=$((passed + 1)) || failed=$((failed + 1))
expect "a setup of seven bytes" 9 "bad frame: input 2, code 2, place 0" answer steps_db seven query no 1
expect "a reply in the query's place" 9 "bad frame: input 3, code 4, place 5" answer steps_db setup reply no 1
head -c 150550 query > cut; { cat query; printf '\0'; } > longer; { head -c 23 query; bytes 0100df1e20f1ed; tail -c 150521 query; } > at_q
expect "a query without its last byte" 9 "bad frame: input 3, code 1, place 150550" answer steps_db setup cut no 1
expect "a byte after the query" 9 "bad frame: input 3, code 14, place 150551" answer steps_db setup longer no 1
expect "a residue that is q" 9 "bad frame: input 3, code 7, place 23" answer steps_db setup at_q no 1
expect "a query of another set" 10 "wrong set: expected edge-256, found tiny-stream" answer steps_db su qu no 1
expect "no database" 7 "file fault" answer missing setup query no 1
expect "no setup" 7 "file fault" answer steps_db missing query no 1
expect "no query" 7 "file fault" answer steps_db setup missing no 1
absent "refused inputs" no
expect "a reply that can't be written" 7 "file fault" answer steps_db setup query missing/reply 1
"$program" answer steps_db setup query full_reply 1 > /dev/full 2> stderr; is "standard output full" 14 $?; same "standard output full" full_reply reply
cp query both
expect "the reply in the query's place" 0 "reply edge-256 2087 bytes" answer steps_db setup both both 1; same "the reply in the query's place" both reply

closing
