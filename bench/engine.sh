#!/usr/bin/env bash
# What settling costs as the number of cells grows, in instructions as valgrind counts them.
#
# usage: bench/engine.sh [SIZE..]        SIZE is a number of cells from 1000 on; 10000 and 1000000 if left out
#
# For each SIZE, three runs of the program: it plants the cells; it settles them too, which evaluates each of them;
# it then changes 100 leaves, and settles once more. The differences of the runs are the cost of the full evaluation
# and of the second settling. Early cut ends each change at the node above its leaf, so at every size the second
# settling evaluates 200 nodes. It wants valgrind, and takes some minutes.
set -euo pipefail
source "$(dirname "${BASH_SOURCE[0]}")/counting.sh"

sizes=("$@")
if [ ${#sizes[@]} -eq 0 ]; then
  sizes=(10000 1000000)
fi

printf '%10s %18s %12s %18s %12s %14s\n' cells 'full evaluation' 'per node' '100 changes' 'per node' 'of the full'
first=
for size in "${sizes[@]}"; do
  planted=$(instructions engine plant "$size")
  settled=$(instructions engine settle "$size")
  changed=$(instructions engine change "$size")
  full=$((settled - planted))
  again=$((changed - settled))
  printf '%10d %18d %12d %18d %12d %13s%%\n' "$size" "$full" $((full / size)) "$again" $((again / 200)) \
    "$(awk "BEGIN { printf \"%.3f\", 100 * $again / $full }")"
  if [ -n "$first" ]; then
    awk "BEGIN { printf \"100 changes at %d cells cost %.2f times as much as at %d, and a full evaluation %.1f times\n\", $size, $again / $first_again, $first, $full / $first_full }"
  else
    first=$size first_again=$again first_full=$full
  fi
done
