# Shared by the examples: the program, proved and built where it isn't yet. While that runs it tells which crate it is at.
top=$(cd "$(dirname "${BASH_SOURCE[0]}")/.." && pwd)
program=$top/crates/spiral_tool/out/spiral_tool

# Crates below the program, itself among them, and how many of them the log says are begun. (Each stands behind those below it.)
crates_count() { tac "$top/crates.txt" | awk -F '[: ]+' 'BEGIN { below["spiral_tool"] } $1 in below { n++; for (i = 2; i <= NF; i++) below[$i] } END { print n }'; }
begun() { grep -oE '^rt: chose --jobs [0-9]+ for [a-z_]+' "$1" | awk '!seen[$NF]++ { n++; name = $NF } END { print n + 0, name }'; }

build_program() {
  [ -x "$program" ] && return
  local log count last="" now
  log=${TMPDIR:-/tmp}/spiral-build.log
  count=$(crates_count)
  echo "Proving and building the program; the first time this takes about a quarter of an hour (log: $log) ..." >&2
  (cd "$top/crates/spiral_tool" && exec rt run > "$log" 2>&1) &
  local build=$!
  while kill -0 "$build" 2> /dev/null; do
    sleep 2
    now=$(begun "$log")
    if [ "$now" != "$last" ] && [ "${now%% *}" != 0 ]; then
      echo "  crate ${now%% *} of $count: ${now#* }" >&2
      last=$now
    fi
  done
  if [ ! -x "$program" ]; then
    echo "The build failed; its output is in $log" >&2
    exit 1
  fi
}
