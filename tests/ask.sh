#!/usr/bin/env bash
# The command `ask`, on real files: a query worked by hand, each refusal, and how far the words are read.
. "$(dirname "$0")/checks.bash"

# In edge-256 a query takes 29184 words. With the first 11 words 2, the next 501 words 1 and all others 0 the secret s_1 has
# eleven numbers 1, and uniform parts and errors are 0: what is left is Delta = floor(q / 256), least byte first
# 00df1e20f1ed00, in row 1 of ciphertext 0 and in row 2 of ciphertext 1; the selection bit of index 0 is 0.
{ repeat 0200000000000000 11; repeat 0100000000000000 501; head -c $((8 * (29184 - 512))) /dev/zero; } > words
expect "a query by hand" 0 "query edge-256 setup 0 bytes query 150551 bytes" ask edge-256 0 words:words state setup query
is "header of the query" 53504952010208656467652d323536004c020000000000 "$(at query 0 23)"
is "Delta in row 1" 00df1e20f1ed00 "$(at query 1815 7)"
is "Delta in row 2" 00df1e20f1ed00 "$(at query 8983 7)"
{ bytes 53504952010208656467652d323536004c020000000000; head -c 1792 /dev/zero; bytes 00df1e20f1ed00; head -c 7161 /dev/zero; bytes 00df1e20f1ed00; } > wanted
head -c $((150551 - $(wc -c < wanted))) /dev/zero >> wanted
same "all other bytes are 0" query wanted
is "an empty setup" 0 "$(wc -c < setup)"
{ bytes 53504952010508656467652d32353608020000000000000000000000000000; repeat 02 11; repeat 01 501; } > wanted_state
same "the state" state wanted_state

head -c $((8 * 29183)) words > short
expect "a word missing" 5 "words short: need 29184, have 29183" ask edge-256 0 words:short no no no; absent "a word missing" no
{ cat short; bytes 00000000000000; } > part
expect "the last word cut" 5 "words short: need 29184, have 29183" ask edge-256 0 words:part no no no; absent "the last word cut" no
{ cat words; bytes ffffffffffffffffff; } > longer
expect "words past the needed ones" 0 "query edge-256 setup 0 bytes query 150551 bytes" ask edge-256 0 words:longer state2 setup2 query2
same "words past the needed ones" query2 query
: > empty
expect "no words" 5 "words short: need 29184, have 0" ask edge-256 0 words:empty no no no
head -c 31 /dev/zero > seed31; head -c 32 /dev/zero > seed; { cat seed; printf more; } > seed36
expect "a seed of 31 bytes" 5 "words short: need 29184, have 0" ask edge-256 0 seed:seed31 no no no; absent "a seed of 31 bytes" no
expect "a seed" 0 "query tiny-stream setup 0 bytes query 172058 bytes" ask tiny-stream 3 seed:seed s1 u1 q1
expect "a longer seed" 0 "query tiny-stream setup 0 bytes query 172058 bytes" ask tiny-stream 3 seed:seed36 s2 u2 q2
same "a longer seed" q1 q2; same "a longer seed's state" s1 s2
# The first uniform number of a seed of zeros is made of words 512 and 513, behind those of the secrets: word 512 times 2^64 and word
# 513, modulo q. The words are the key stream of ChaCha20, as openssl gives it for a key and a nonce of zeros.
is "the first residue" 63a4abaa797e1d "$(at q1 26 7)"

# With twelve numbers 1 in s_1 the left side of row 1 isn't below the right one any more.
{ repeat 0200000000000000 12; repeat 0100000000000000 500; head -c $((8 * (29184 - 512))) /dev/zero; } > noisy
expect "too noisy" 6 "too noisy: row 1, noise 128" ask edge-256 0 words:noisy ns nu nq; absent "too noisy" ns; absent "too noisy" nu; absent "too noisy" nq
right=280912209073579885592576
report() { printf 'set edge-256 index 0 rows 2\nrow 1 noise 128 secret %s left %s right %s\nrow 2 noise 128 secret 0 left 70228052268669849305088 right %s\nfits %s' "$1" "$2" $right $right "$3"; }
expect "a report that fits" 0 "$(report 11 263355196006756020649984 yes)" noise edge-256 0 words:words
expect "a report that doesn't" 0 "$(report 12 280912209073854763499520 no)" noise edge-256 0 words:noisy
# The word 65535 is a number -1 of a secret, and an error of 16, the greatest: each noise is the greatest that words can give, and the query
# is sent all the same.
for ((k = 0; k < 33280; k++)); do printf '\xff\xff\0\0\0\0\0\0'; done > greatest
"$program" noise tiny-stream 0 words:greatest > said; is "the greatest noise" "16679040 16679040 yes" "$(sed -n 's/^row . noise \([0-9]*\) .*/\1/p; s/^fits //p' said | tr '\n' ' ' | sed 's/ $//')"
expect "the greatest noise is sent" 0 "query tiny-stream setup 0 bytes query 172058 bytes" ask tiny-stream 0 words:greatest gs gu gq
expect "noise of an index that isn't there" 4 "index 4 is not below 4" noise edge-256 4 words:missing
expect "noise of short words" 5 "words short: need 29184, have 29183" noise edge-256 0 words:short
expect "noise without words" 7 "file fault" noise edge-256 0 words:missing
expect "noise with a word too many" 2 "usage" noise edge-256 0 words:words more
expect "noise of an unknown set" 3 "unknown set" noise nosuch 0 words:words

expect "an unknown set" 3 "unknown set" ask nosuch 0 words:w a b c
expect "a set's name with a capital" 3 "unknown set" ask tiny-spiraI 0 words:w a b c
expect "a leading zero" 2 "usage" ask edge-256 00 words:w a b c
expect "a sign" 2 "usage" ask edge-256 +1 words:w a b c
expect "an index past its range" 2 "usage" ask edge-256 4294967296 words:w a b c
expect "the greatest index" 4 "index 4294967295 is not below 4" ask edge-256 4294967295 words:w a b c
expect "the first index that isn't there" 4 "index 4 is not below 4" ask edge-256 4 words:missing a b c
expect "no index" 2 "usage" ask edge-256 "" words:w a b c
expect "another source" 2 "usage" ask edge-256 0 w a b c
expect "a source without a name" 2 "usage" ask edge-256 0 words: a b c
expect "a seed without a name" 2 "usage" ask edge-256 0 seed: a b c
expect "a word too few" 2 "usage" ask edge-256 0 words:w a b
expect "a word too many" 2 "usage" ask edge-256 0 words:w a b c d
expect "no such file" 7 "file fault" ask edge-256 0 words:missing no no no; absent "no such file" no
expect "a folder for words" 7 "file fault" ask edge-256 0 "words:." no no no; absent "a folder for words" no
expect "no such folder for the query" 7 "file fault" ask edge-256 0 words:words s3 u3 missing/q; same "the state before it" s3 state; is "the setup before it" 0 "$(wc -c < u3)"
expect "no such folder for the state" 7 "file fault" ask edge-256 0 words:words missing/s u4 q4; absent "nothing after the state" u4; absent "nothing after the state" q4
expect "one name for all three" 0 "query edge-256 setup 0 bytes query 150551 bytes" ask edge-256 0 words:words one one one
same "the last one stays" one query
cp words both
expect "the words' own name" 0 "query edge-256 setup 0 bytes query 150551 bytes" ask edge-256 0 words:both s5 u5 both
same "the words' own name" both query
"$program" ask edge-256 0 words:words s6 u6 q6 > /dev/full 2> stderr; is "standard output full" 14 $?
same "standard output full" q6 query

truncate -s 1G huge
seconds=$SECONDS
(ulimit -v 200000; expect "a file of 1 GiB of words" 0 "query tiny-stream setup 0 bytes query 172058 bytes" ask tiny-stream 0 words:huge s7 u7 q7; [ "$failed" = 0 ]) && passed=$((passed + 1)) || failed=$((failed + 1))
(ulimit -v 200000; expect "a seed of 1 GiB" 0 "query tiny-stream setup 0 bytes query 172058 bytes" ask tiny-stream 0 seed:huge s8 u8 q8; [ "$failed" = 0 ]) && passed=$((passed + 1)) || failed=$((failed + 1))
[ $((SECONDS - seconds)) -le 10 ] && passed=$((passed + 1)) || { failed=$((failed + 1)); echo "FAILED a file of 1 GiB took long"; }

# the state of one set, the reply of another
expect "a state of tiny-stream" 0 "query tiny-stream setup 0 bytes query 172058 bytes" ask tiny-stream 0 seed:seed ts tu tq
{ bytes 53504952010308656467652d323536100800000000000001000000000000000004000000000000; head -c 2048 /dev/zero; } > reply
expect "a reply of another set" 10 "wrong set: expected tiny-stream, found edge-256" open ts reply no; absent "a reply of another set" no
expect "a reply of zeros" 0 "record 1024 bytes" open state reply record
head -c 1024 /dev/zero > zeros; same "a reply of zeros" record zeros

closing
