#!/usr/bin/env bash
# Instructions that one call of the calendar takes, with 10 and with 380 fixtures over 38 gameweeks, and the second
# as a ratio of the first. It counts with valgrind's callgrind: the difference between no call and many. Of
# `add_fixture` it is the mean over all fixtures of a new calendar; `move_fixture` is a move away and back.
# usage: bench/calendar.sh [TIMES]
set -euo pipefail
source "$(dirname "${BASH_SOURCE[0]}")/counting.sh"
times=${1:-500}

# The instructions of one call with so many fixtures.
per_call() {
  local each=$(( ($(instructions calendar "$2" "$1" "$times") - $(instructions calendar "$2" "$1")) / times ))
  if [ "$2" = add_fixture ]; then each=$((each / $1)); fi
  echo "$each"
}

printf '%-14s %12s %12s %8s\n' call '10 fixtures' '380 fixtures' ratio
for call in pass fixture standing move_fixture add_fixture set_deadline; do
  few=$(per_call 10 "$call")
  many=$(per_call 380 "$call")
  printf '%-14s %12d %12d %8.2f\n' "$call" "$few" "$many" "$(awk "BEGIN { print $many / $few }")"
done
