#!/usr/bin/env python3
"""The memory that `pipe` takes to read a body of 262,144 bytes, by what the body is made of: the peak above that of a
body of one member, in KiB and as a multiple of the body's size. It reads the peak from /proc while the program waits.

usage: bodies.py PROGRAM
"""
import re
import subprocess
import sys

SIZE = 262144


def peak(body):
    head = f"POST /prices HTTP/1.1\r\nFpl-Key: operator1\r\nContent-Length: {len(body)}\r\n\r\n"
    words = [sys.argv[1], "pipe", "--key", "operator1"]
    with subprocess.Popen(words, stdin=subprocess.PIPE, stdout=subprocess.PIPE) as program:
        program.stdin.write(head.encode() + body)
        program.stdin.flush()
        answer = b""
        while b"}" not in answer:
            answer += program.stdout.read1(4096)
        with open(f"/proc/{program.pid}/status") as status:
            return int(re.search(r"VmHWM:\s+(\d+)", status.read()).group(1))


def listed(item):
    front, back = b'{"number":1,"x":[' + item, b"]}"
    return front + (b"," + item) * ((SIZE - len(front) - len(back)) // (len(item) + 1)) + back


least = peak(b'{"number":1}')
bodies = {"one text": b'{"number":1,"x":"' + b"a" * (SIZE - 20) + b'"}'}
for item in (b'""', b"[]", b"{}", b"0", b"[0]", b'{"":0}'):
    bodies["a list of " + item.decode()] = listed(item)
print(f"a body of one member: {least} KiB in all")
for name, body in bodies.items():
    above = peak(body) - least
    print(f"{name:20} {above:8} KiB {above * 1024 / len(body):7.1f}")
