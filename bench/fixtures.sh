#!/usr/bin/env bash
# Instructions that adding a fixture takes through `pipe`, from the bytes of the request to those of its answer: of the
# first of a season and of the 380th, which comes behind all others or in front of them. It counts with valgrind's
# callgrind: the difference between a season with the fixture and one without it.
# usage: bench/fixtures.sh
set -euo pipefail
top=$(cd "$(dirname "${BASH_SOURCE[0]}")/.." && pwd)
program=$top/crates/fpl_host/out/fpl_host
"$top/kowhirupe" pipe --key operator1 </dev/null
folder=$(mktemp -d)
trap 'rm -rf "$folder"' EXIT

# A season of so many fixtures, whose ids fall or rise.
season() {
  python3 - "$1" "$2" <<'PYTHON'
import sys
count, order = int(sys.argv[1]), sys.argv[2]
number = 0


def post(target, members):
    global number
    number += 1
    body = f'{{"number":{number},{members}}}'
    head = f"POST {target} HTTP/1.1\r\nFpl-Key: operator1\r\nContent-Length: {len(body)}\r\n\r\n"
    sys.stdout.write(head + body)


deadlines = ",".join(str(4_000_000_000 + 1_000_000 * g) for g in range(38))
clubs = ",".join(f'{{"id":{c},"name":"C"}}' for c in range(1, 21))
post("/season", f'"deadlines":[{deadlines}],"split":19,"clubs":[{clubs}]')
for turn in range(count):
    fixture = 100_000 + (380 - turn if order == "falling" else turn)
    post("/fixtures", f'"id":{fixture},"home":1,"away":2,"gameweek":{turn % 38 + 1},"kickoff":4037006000')
PYTHON
}

instructions() {
  season "$1" "$2" >"$folder/requests"
  local count
  count=$(valgrind --tool=callgrind --callgrind-out-file=/dev/null "$program" pipe --key operator1 <"$folder/requests" 2>&1 >/dev/null | sed -n 's/.*Collected : //p')
  [ -n "$count" ] || { echo "nothing was counted" >&2 && kill $$; }
  echo "$count"
}

printf '%-10s %10s %10s %8s\n' ids 'the 1st' 'the 380th' ratio
for order in rising falling; do
  first=$(($(instructions 1 "$order") - $(instructions 0 "$order")))
  last=$(($(instructions 380 "$order") - $(instructions 379 "$order")))
  awk -v o="$order" -v a="$first" -v b="$last" 'BEGIN { printf "%-10s %10d %10d %8.2f\n", o, a, b, b / a }'
done
