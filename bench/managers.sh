#!/usr/bin/env bash
# Instructions that one call of the managers' book takes, with 10 and with 2,048 entries of a team in each of the 38
# gameweeks, for gameweeks 2 and 38, and the greatest as a ratio of the least; and the memory of the larger season. It
# counts with valgrind's callgrind: the difference between few calls and many. Filling the larger season takes some
# minutes under valgrind.
# usage: bench/managers.sh [TIMES] [ENTRIES]
set -euo pipefail
source "$(dirname "${BASH_SOURCE[0]}")/counting.sh"
times=${1:-500}
entries=${2:-2048}

printf '%-10s %12s %12s %12s %12s %8s\n' call '10, gw 2' '10, gw 38' "$entries, gw 2" "$entries, gw 38" ratio
few=$(instructions managers free 10 0 2)
many=$(instructions managers free "$entries" 0 2)
for call in team_at free cost counted entry_of lineup; do
  row=()
  for gameweek in 2 38; do row+=($(( ($(instructions managers "$call" 10 "$times" "$gameweek") - few) / times ))); done
  for gameweek in 2 38; do row+=($(( ($(instructions managers "$call" "$entries" "$times" "$gameweek") - many) / times ))); done
  printf '%-10s %12d %12d %12d %12d %8.2f\n' "$call" "${row[@]}" \
    "$(printf '%s\n' "${row[@]}" | sort -n | awk 'NR == 1 { least = $1 } { most = $1 } END { print most / (least ? least : 1) }')"
done
python3 - "$program" "$entries" <<'P'
import resource, subprocess, sys
subprocess.run([sys.argv[1], "managers", "free", sys.argv[2], "1", "38"], stdout=subprocess.DEVNULL, check=True)
peak = resource.getrusage(resource.RUSAGE_CHILDREN).ru_maxrss
print(f"peak of memory with {sys.argv[2]} entries: {peak / 1024:.1f} MiB")
P
