# What the scripts that count instructions share; they read it by `source`. It proves and builds the program `bench`
# where that is not done or its sources changed, and wants valgrind.
top=$(cd "$(dirname "${BASH_SOURCE[0]}")/.." && pwd)
program=$top/crates/bench/out/bench
(cd "$top/crates/bench" && rt run -- engine plant 1 0 0) >&2

# The instructions of a whole run: instructions KIND CALL SIZE [TIMES [GAMEWEEK]], with the standard input handed on. Where
# there is no count the script ends, also where this stands in a sum.
instructions() {
  local count
  count=$(valgrind --tool=callgrind --callgrind-out-file=/dev/null "$program" "$1" "$2" "$3" "${4:-0}" "${5:-0}" 2>&1 >/dev/null | sed -n 's/.*Collected : //p')
  [ -n "$count" ] || { echo "nothing was counted of $*" >&2 && kill $$; }
  echo "$count"
}
