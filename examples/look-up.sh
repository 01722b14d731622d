#!/usr/bin/env bash
# A whole private look-up on this machine: a server's database is made of the list of installed packages (or a word list, or a
# text of our own, where there is no such list) and served over loopback; a client asks for the record that has a name, the server answers without
# learning which record that was, and the client opens the answer.
#   examples/look-up.sh [NAME]        (a name of the list; by default the one in its middle)
set -u
export LC_ALL=C
. "$(dirname "$0")/build.bash"
set_name=spiral-2048 most=512 length=8192 # a database of this set has at most 512 records of at most 8192 bytes
workers=2
build_program

umask 077 # the seed and the state are the client's secrets: nobody else may read them
work=$(mktemp -d) || exit 1
server=""
trap '[ -n "$server" ] && kill "$server" 2> /dev/null; rm -rf "$work"' EXIT
cd "$work" || exit 1

# lines: the data, a line an item, its name first.
lines() {
  if command -v dpkg-query > /dev/null && dpkg-query -W -f '${Package} ${Version}\n' 2> /dev/null | grep -q .; then
    echo "The data: names and versions of installed packages." >&2
    dpkg-query -W -f '${Package} ${Version}\n' | sort -u
  elif [ -s /usr/share/dict/words ]; then
    echo "The data: the words of /usr/share/dict/words." >&2
    sort -u /usr/share/dict/words
  else
    echo "The data: a few lines of our own." >&2
    printf '%s\n' "apple red or green" "banana yellow" "cherry dark red" "date brown" "elderberry black" "fig violet"
  fi
}

# The records, each of whole lines, with line ends behind them up to its length; and an index of the names: which record.
# The lines that no record has room for are left out.
lines | awk -v most="$most" -v length_of_record="$length" '
  function flush() { while (used < length_of_record) { printf "\n"; used++ } record++; used = 0 }
  length($0) == 0 || length($0) + 1 > length_of_record { next }
  used + length($0) + 1 > length_of_record { flush() }
  record == most { exit }
  { print; used += length($0) + 1; print $1, record + 0 > "index" }
  END { if (used > 0) flush() }' > records
if [ ! -s records ]; then
  echo "No data was found." >&2
  exit 1
fi

name=${1-$(awk '{ names[NR] = $1 } END { print names[int((NR + 1) / 2)] }' index)}
number=$(awk -v name="$name" '$1 == name { print $2; exit }' index)
if [ -z "$number" ]; then
  echo "$name isn't among the $(wc -l < index) names that this database has room for." >&2
  exit 2
fi

# what STATUS: what a status of the program means.
what() {
  case $1 in
    1) echo "there wasn't enough memory" ;;
    2) echo "these aren't the words of a command" ;;
    3) echo "the program knows no set of this name" ;;
    4) echo "the set has no record of this index" ;;
    5) echo "the source of random words is too short" ;;
    6) echo "the query of this seed would be too noisy: try again" ;;
    7) echo "a file couldn't be read or written" ;;
    8) echo "the connection failed" ;;
    9) echo "an input isn't the frame that is expected there" ;;
    10) echo "the messages are of different parameter sets" ;;
    11) echo "the database has no record of this index" ;;
    12) echo "the server refused the query" ;;
    13) echo "the data aren't records of this length" ;;
    14) echo "the line couldn't be printed" ;;
    *) echo "the program was stopped" ;;
  esac
}

# step WORDS..: shows the command and runs it; ends with its status where it isn't 0.
step() {
  echo "\$ spiral_tool $*"
  "$program" "$@"
  local status=$?
  if [ "$status" != 0 ]; then
    echo "The command ended with status $status: $(what "$status")." >&2
    exit "$status"
  fi
}

echo "Asked for: $name, which the index says is in record $number of $(($(wc -c < records) / length))."
echo "# the server"
step prepare "$set_name" "$length" records database
port=$((20000 + RANDOM % 20000))
listening() { grep -qs " 0100007F:$(printf '%04X' "$port") 00000000:0000 0A " /proc/net/tcp; }
while listening; do port=$((port + 1)); done
echo "\$ spiral_tool serve 127.0.0.1:$port database 1 $workers &"
"$program" serve "127.0.0.1:$port" database 1 "$workers" > lines &
server=$!
while kill -0 "$server" 2> /dev/null && ! listening; do sleep 0.05; done # it brings the database into product form first
echo "# the client, with a fresh seed: two queries from one seed would show the server how their indices differ"
head -c 32 /dev/urandom > seed
step fetch "127.0.0.1:$port" "$set_name" "$number" seed:seed record
rm seed
filter="\$1 == \"$name\""
echo "\$ awk '$filter' record"
awk "$filter" record
echo "# the server"
wait "$server"
server=""
cat lines

if ! cmp -s record <(tail -c +$((number * length + 1)) records | head -c "$length"); then
  echo "The record isn't the one that was asked for." >&2
  exit 1
fi
echo "The record is the one that was asked for."
