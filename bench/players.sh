#!/usr/bin/env bash
# Instructions that one call of the players takes, with 12 and with 1,200 players, and the second as a ratio of the
# first. It counts with valgrind's callgrind: the difference between no call and many. Of `add` it is the mean over all
# players of a new table, each of which goes before those that are there. Below stands what the last add alone costs,
# with freeing that player: in front of all others (`add`) and behind them (`add_rising`).
# usage: bench/players.sh [TIMES]
set -euo pipefail
source "$(dirname "${BASH_SOURCE[0]}")/counting.sh"
times=${1:-500}

# The instructions of one call with so many players.
per_call() {
  local turns=$times
  if [ "$2" = add ]; then turns=4; fi
  local each=$(( ($(instructions players "$2" "$1" "$turns") - $(instructions players "$2" "$1")) / turns ))
  if [ "$2" = add ]; then each=$((each / $1)); fi
  echo "$each"
}

# The instructions of filling a table with so many players in an order, and of freeing it.
filling() {
  echo $(( ($(instructions players "$2" "$1" 4) - $(instructions players "$2" "$1")) / 4 ))
}

# The instructions of the last add alone.
last() {
  echo $(( $(filling "$1" "$2") - $(filling $(($1 - 1)) "$2") ))
}

ratio() {
  awk "BEGIN { print $1 / $2 }"
}

printf '%-12s %12s %12s %8s\n' call '12 players' '1200 players' ratio
for call in get at set_price set_club add; do
  few=$(per_call 12 "$call")
  many=$(per_call 1200 "$call")
  printf '%-12s %12d %12d %8.2f\n' "$call" "$few" "$many" "$(ratio "$many" "$few")"
done
printf '\n%-12s %12s %12s %12s %8s %8s\n' 'last add' 'the 1st' 'the 12th' 'the 1200th' 'to 12th' 'to 1st'
for call in add add_rising; do
  first=$(last 1 "$call")
  few=$(last 12 "$call")
  many=$(last 1200 "$call")
  printf '%-12s %12d %12d %12d %8.2f %8.2f\n' "$call" "$first" "$few" "$many" "$(ratio "$many" "$few")" "$(ratio "$many" "$first")"
done
