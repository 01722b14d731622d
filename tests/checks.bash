# Shared by the checks of the built program: where it is, and a folder to work in.
top=$(cd "$(dirname "$0")/.." && pwd)
program=$top/crates/spiral_tool/out/spiral_tool
if [ ! -x "$program" ]; then
  echo "$(basename "$0"): $program isn't built; run rt ci first"
  exit 1
fi
work=$(mktemp -d) || exit 1
trap 'rm -rf "$work"' EXIT
cd "$work" || exit 1
passed=0 failed=0

# expect NAME STATUS TEXT WORDS..: runs the program and compares its status, what it prints, and that it prints
# nothing to standard error.
expect() {
  local name=$1 status=$2 text=$3 got
  shift 3
  got=$("$program" "$@" 2> stderr; printf '%s' "status $?")
  if [ "$got" = "$text${text:+$'\n'}status $status" ] && [ ! -s stderr ]; then
    passed=$((passed + 1))
  else
    failed=$((failed + 1))
    echo "FAILED $name: wanted status $status and '$text', got '$got'"
  fi
}

# same NAME FILE FILE: the files are equal.
same() {
  if cmp -s "$2" "$3"; then passed=$((passed + 1)); else failed=$((failed + 1)); echo "FAILED $1: $2 and $3 differ"; fi
}

# is NAME WANTED GOT: the two texts are equal.
is() { if [ "$2" = "$3" ]; then passed=$((passed + 1)); else failed=$((failed + 1)); echo "FAILED $1: wanted '$2', got '$3'"; fi; }

# bytes HEX: these bytes. repeat HEX COUNT: these bytes so many times. times COUNT FILE: the file's bytes so many times.
bytes() { printf '%b' "$(printf '%s' "$1" | sed 's/../\\x&/g')"; }
repeat() { bytes "$1" > unit; times "$2" unit; }
times() { for ((k = 0; k < $1; k++)); do cat "$2"; done; }

# hex FILE: a file's bytes as hexadecimal digits. at FILE PLACE COUNT: so many of them from a place on.
hex() { od -An -v -tx1 "$1" | tr -d ' \n'; }
at() { od -An -v -tx1 -j "$2" -N "$3" "$1" | tr -d ' \n'; }

# absent NAME FILE: no such file was made.
absent() {
  if [ ! -e "$2" ]; then passed=$((passed + 1)); else failed=$((failed + 1)); echo "FAILED $1: $2 was made"; fi
}

# closing: the last line, and the status.
closing() {
  echo "$(basename "$0"): $passed passed, $failed failed"
  [ "$failed" = 0 ]
}
