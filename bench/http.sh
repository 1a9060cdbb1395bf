#!/usr/bin/env bash
# How many instructions the decoder of fpl_http takes, by how its stream is cut into pieces.
#
# usage: bench/http.sh
#
# What the program takes to start, to read its input and to make a decoder is measured apart (pieces of 0 bytes are not
# fed) and taken off.
set -euo pipefail
source "$(dirname "${BASH_SOURCE[0]}")/counting.sh"

work=$(mktemp -d)
trap 'rm -rf "$work"' EXIT

# letters COUNT
letters() {
    head -c "$1" /dev/zero | tr '\0' 'a'
}

# head LENGTH: a message without a body, whose head has this length
head_of() {
    printf 'GET /a HTTP/1.1\r\nA: '
    letters $(($1 - 24))
    printf '\r\n\r\n'
}

# body LENGTH: a message with such a body
body_of() {
    printf 'POST /a HTTP/1.1\r\nContent-Length: %d\r\n\r\n' "$1"
    letters "$1"
}

# times COUNT FILE
times() {
    for _ in $(seq "$1"); do cat "$2"; done
}

head_of 100 > "$work/head"
times 5000 "$work/head" > "$work/heads of 100 bytes"
head_of 8000 > "$work/head"
times 25 "$work/head" > "$work/heads of 8000 bytes"
body_of 131072 > "$work/a body of 131072 bytes"
body_of 262144 > "$work/a body of 262144 bytes"

printf '%-24s %8s %14s %10s %14s\n' stream pieces instructions 'per byte' 'to one piece'
for stream in "heads of 100 bytes" "heads of 8000 bytes" "a body of 131072 bytes" "a body of 262144 bytes"; do
    size=$(stat -c %s "$work/$stream")
    start=$(instructions http feed 0 <"$work/$stream")
    whole=$(($(instructions http feed "$size" <"$work/$stream") - start))
    for piece in 1 64 65536; do
        took=$(($(instructions http feed "$piece" <"$work/$stream") - start))
        awk -v s="$stream" -v p="$piece" -v t="$took" -v n="$size" -v w="$whole" \
            'BEGIN { printf "%-24s %8d %14d %10.1f %14.2f\n", s, p, t, t / n, t / w }'
    done
done
