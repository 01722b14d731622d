#!/usr/bin/env bash
# Cases from an independent implementation, where they lie beside the repository; skipped where they don't: those of the
# commands that the program has so far.
. "$(dirname "$0")/checks.bash"
replay=$top/../shared/vectors/replay.sh
cases=$top/../shared/vectors/open.txt
if [ ! -r "$replay" ] || [ ! -r "$cases" ]; then
  echo "vectors.sh: skipped, the cases aren't there"
  exit 0
fi
status=0
for set in edge-256 tiny-stream stream-2048 tiny-spiral spiral-2048 big-2048 tiny-pack tiny-streampack pack-2048 streampack-2048; do
  ONLY="3 4 6 7 8 11" BUILT="prepare ask answer open noise local serve fetch" "$replay" "$program" "$cases" "$set" || status=1
done
for set in edge-256 tiny-stream tiny-spiral tiny-pack tiny-streampack; do
  ONLY=9 BUILT=noise "$replay" "$program" "$cases" "$set" || status=1
done
exit $status
