#!/usr/bin/env bash
# Instructions that one request of each kind takes through `pipe`, from its bytes to those of its answer: over a season
# of 12 players and 10 fixtures of 12 lines, over one of 12 players and 380 fixtures, and over one of 1,200 players and
# 380 fixtures of 64 lines, and the last two as ratios of the first. It counts with valgrind's callgrind: the difference
# between no request of the kind and many. Where the answer or the body has the lines of a fixture or the deadlines of a
# season it grows with them; `sheet`, `fixture`, `gameweek` and `season` are of these kinds.
# usage: bench/routes.sh [TIMES] [KIND..]
set -euo pipefail
top=$(cd "$(dirname "${BASH_SOURCE[0]}")/.." && pwd)
times=${1:-200}
shift || true
kinds=${*:-season player gameweek fixture price club gone deadline move line sheet finished drop repeat refused unknown}
program=$top/crates/fpl_host/out/fpl_host
"$top/kowhirupe" pipe --key operator1 </dev/null
folder=$(mktemp -d)
trap 'rm -rf "$folder"' EXIT

# The instructions of a whole run over a season of so many players, fixtures and lines, and so many requests of a kind.
instructions() {
  python3 "$top/bench/requests.py" "$1" "$2" "$3" "$4" "$5" >"$folder/requests"
  local count
  count=$(valgrind --tool=callgrind --callgrind-out-file=/dev/null "$program" pipe --key operator1 <"$folder/requests" 2>&1 >/dev/null | sed -n 's/.*Collected : //p')
  [ -n "$count" ] || { echo "nothing was counted" >&2 && kill $$; }
  echo "$count"
}

per_request() {
  echo $((($(instructions "$1" "$2" "$3" "$4" "$times") - $(instructions "$1" "$2" "$3" "$4" 0)) / times))
}

printf '%-10s %14s %14s %14s %8s %8s\n' kind '12, 10x12' '12, 380x12' '1200, 380x64' ratio ratio
for kind in $kinds; do
  few=$(per_request 12 10 12 "$kind")
  fixtures=$(per_request 12 380 12 "$kind")
  many=$(per_request 1200 380 64 "$kind")
  awk -v k="$kind" -v a="$few" -v b="$fixtures" -v c="$many" 'BEGIN { printf "%-10s %14d %14d %14d %8.2f %8.2f\n", k, a, b, c, b / a, c / a }'
done
