#!/usr/bin/env bash
# Instructions that one call of the match facts takes, with 10 and with 380 fixtures of 64 lines each, and the second
# as a ratio of the first. It counts with valgrind's callgrind: the difference between no call and many.
# usage: bench/facts.sh [TIMES]
set -euo pipefail
source "$(dirname "${BASH_SOURCE[0]}")/counting.sh"
times=${1:-1000}

printf '%-14s %12s %12s %8s\n' call '10 fixtures' '380 fixtures' ratio
for call in line players put_line add_line put_sheet set_finished; do
  few=$(( ($(instructions facts "$call" 10 "$times") - $(instructions facts "$call" 10)) / times ))
  many=$(( ($(instructions facts "$call" 380 "$times") - $(instructions facts "$call" 380)) / times ))
  printf '%-14s %12d %12d %8.2f\n' "$call" "$few" "$many" "$(awk "BEGIN { print $many / $few }")"
done
