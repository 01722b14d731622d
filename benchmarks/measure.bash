# Shared by the benchmarks: where the program is, a folder to work in, and one measured run.
top=$(cd "$(dirname "$0")/.." && pwd)
program=$top/crates/spiral_tool/out/spiral_tool
if [ ! -x "$program" ]; then
  echo "$(basename "$0"): $program isn't built; run rt ci first" >&2
  exit 1
fi
work=$(mktemp -d) || exit 1
trap 'rm -rf "$work"' EXIT
cd "$work" || exit 1

# measure LABEL WORDS..: runs the program and prints its time and the most memory that it held: as GNU time tells it, where
# that is there; else the kernel's own high-water mark (VmHWM), read every 5 ms while the program runs, which may miss what
# came in its last 5 ms.
measure() {
  local label=$1 start end process peak=0 seen status
  shift
  start=$(date +%s%N)
  if [ -x /usr/bin/time ]; then
    /usr/bin/time -q -o peak -f %M "$program" "$@" > said 2>&1
    status=$?
    peak=$(tail -n 1 peak)
  else
    "$program" "$@" > said 2>&1 &
    process=$!
    while seen=$(awk '/^VmHWM/ { print $2 }' "/proc/$process/status" 2> /dev/null) && [ -n "$seen" ]; do
      peak=$seen
      sleep 0.005
    done
    wait "$process"
    status=$?
  fi
  end=$(date +%s%N)
  printf '%-28s %8d ms %8d KiB   %s (status %d)\n' "$label" $(((end - start) / 1000000)) "$peak" "$(cat said)" "$status"
}
