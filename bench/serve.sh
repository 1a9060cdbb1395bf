#!/usr/bin/env bash
# Requests a second that `serve --clients` answers over a store, beside a plain server in Python's standard library
# (plain_server.py): GET /me and POST /lineup, with 1, 64 and 1,000 clients, each of which keeps its connection or makes one
# for each request. Then the longest wait of one client beside 1,000 others that keep their connections and ask nothing.
# What a run took hangs on the machine; the ratios are what it shows. It wants Debian's wrk.
# usage: bench/serve.sh [SECONDS]      each run takes so many seconds, 3 where nothing is said
set -euo pipefail
top=$(cd "$(dirname "${BASH_SOURCE[0]}")/.." && pwd)
seconds=${1:-3}
command -v wrk >/dev/null || { echo "bench/serve.sh: there is no wrk here: apt-get install wrk" >&2 && exit 1; }
"$top/kowhirupe" --build
folder=$(mktemp -d)
trap 'rm -rf "$folder"' EXIT
ulimit -n 8192
python3 - "$top" "$folder" "$seconds" <<'PYTHON'
import http.client, os, re, shutil, signal, socket, subprocess, sys, time
from pathlib import Path
top, folder, seconds = Path(sys.argv[1]), Path(sys.argv[2]), int(sys.argv[3])
PROGRAM = top / "crates/fpl_host/out/fpl_host"
ENTRIES = 1000
POSITIONS = "GDDDDMMMMFFGDMF"
# Who is in the squad of everybody, by slot: three of each of five clubs.
LUA = """
local key, number, kind = nil, 1, "%(kind)s"
local count = 0
function setup(thread) count = count + 1; thread:set("which", count) end
function init(args) key = string.format("manager%%04d", (which - 1) %% %(entries)d + 1) end
local starts = {"[1,2,3,4,5,6,7,8,9,10,11,12,13,14,15]", "[1,2,3,4,5,6,7,8,9,10,11,12,14,13,15]"}
function request()
    local headers = {["Fpl-Key"] = key, ["Connection"] = %(connection)s}
    if kind == "me" then return wrk.format("GET", "/me", headers) end
    local next = number + 1
    local body = string.format('{"number":%%d,"players":%%s,"captain":10,"vice":7}', next, starts[next %% 2 + 1])
    return wrk.format("POST", "/lineup", headers, body)
end
-- The number that was done last, as an answer tells it, also where the answer to one before was lost with its connection.
if kind == "lineup" then
    function response(status, headers, body)
        number = tonumber(body:match('"done":(%%d+)') or body:match('"last":(%%d+)')) or number
    end
end
"""


def message(key, target, body):
    return f"POST {target} HTTP/1.1\r\nFpl-Key: {key}\r\nContent-Length: {len(body)}\r\n\r\n{body}"


def season():
    """Requests that make a season in which nothing locks, with entries that have a squad."""
    clubs = ",".join(f'{{"id":{c},"name":"Club {c}"}}' for c in range(1, 6))
    yield message("operator1", "/season", f'{{"number":1,"deadlines":[253402300000],"split":1,"clubs":[{clubs}]}}')
    for p, position in enumerate(POSITIONS, 1):
        yield message("operator1", "/players", f'{{"number":{p + 1},"id":{p},"name":"P{p}","position":"{position}","club":{p % 5 + 1},"price":50}}')
    for e in range(1, ENTRIES + 1):
        yield message("operator1", "/keys", f'{{"number":{len(POSITIONS) + 1 + e},"key":"manager{e:04}","name":"Entry {e}"}}')
        yield message(f"manager{e:04}", "/squad", f'{{"number":1,"players":{str(list(range(1, 16))).replace(" ", "")},"captain":10,"vice":7}}')


def made():
    """The store of that season."""
    run = subprocess.run([PROGRAM, "pipe", "--key", "operator1", "--store", folder / "season"], input="".join(season()).encode(), capture_output=True)
    wrong = [it for it in re.findall(rb"^HTTP/1.1 (\d+)", run.stdout, re.M) if it not in (b"200", b"201")]
    if run.returncode or wrong:
        sys.exit(f"the season was not made: status {run.returncode}, answers {set(wrong)}")


class Served:
    """A server over a fresh store, while the block runs."""

    def __init__(self, name):
        with socket.create_server(("127.0.0.1", 0)) as free:
            self.port = free.getsockname()[1]
        store = folder / "store"
        for it in folder.glob("store*"):
            it.unlink()
        if name == "serve":
            shutil.copy(folder / "season", store)
            words = [PROGRAM, "serve", "--key", "operator1", "--port", str(self.port), "--clients", "1024", "--store", store]
        else:
            words = [sys.executable, top / "bench/plain_server.py", str(self.port), store, str(ENTRIES)]
        self.process = subprocess.Popen(words, stdin=subprocess.DEVNULL, stderr=subprocess.DEVNULL)

    def __enter__(self):
        for _ in range(200):
            try:
                socket.create_connection(("127.0.0.1", self.port), 1).close()
                return self
            except OSError:
                time.sleep(0.05)
        sys.exit("a server did not begin to serve")

    def __exit__(self, *_):
        self.process.kill()
        self.process.wait()


def rate(name, kind, clients, is_kept):
    """Requests a second, all of them answered well."""
    script = folder / "load.lua"
    script.write_text(LUA % {"kind": kind, "entries": ENTRIES, "connection": "nil" if is_kept else '"close"'})
    # A lineup has its manager's next number, so each client is a thread of its own, with a manager of its own.
    threads = clients if kind == "lineup" else min(clients, 4)
    with Served(name) as served:
        words = ["wrk", "-t", str(threads), "-c", str(clients), "-d", f"{seconds}s", "--timeout", "30s", "-s", script, f"http://127.0.0.1:{served.port}"]
        told = subprocess.run(words, capture_output=True, text=True).stdout
    found = re.search(r"^Requests/sec:\s+([\d.]+)", told, re.M)
    if not found or float(found[1]) == 0:
        sys.exit(f"nothing was counted of {name}, {kind}, {clients} clients:\n{told}")
    bad = int((re.search(r"Non-2xx or 3xx responses: (\d+)", told) or [0, 0])[1])
    every = int(re.search(r"(\d+) requests in", told)[1])
    # Behind an answer that was lost with its connection the number is wrong once.
    if bad > every / 50:
        sys.exit(f"{bad} of {every} answers of {name}, {kind}, {clients} clients were refusals")
    return float(found[1])


def waits(idle):
    """The longest and the mean wait in milliseconds of 5,000 requests of one client, beside so many that ask nothing."""
    with Served("serve") as served:
        others = []
        for _ in range(idle):
            other = socket.create_connection(("127.0.0.1", served.port))
            other.sendall(b"GET /me HTTP/1.1\r\nFpl-Key: manager0001\r\n\r\n")
            if not other.recv(4096).startswith(b"HTTP/1.1 200"):
                sys.exit("an idle client was refused")
            others.append(other)
        client = http.client.HTTPConnection("127.0.0.1", served.port)
        took = []
        for _ in range(5000):
            begun = time.monotonic()
            client.request("GET", "/me", headers={"Fpl-Key": "manager0002"})
            if client.getresponse().read()[:1] != b"{":
                sys.exit("the client was refused")
            took.append(1000 * (time.monotonic() - begun))
    return max(took), sum(took) / len(took)


made()
print(f"{'request':8} {'clients':>7} {'':9} {'serve':>9} {'plain':>9} {'ratio':>6}   requests a second")
for kind in ("me", "lineup"):
    for clients in (1, 64, 1000):
        rates = {}
        for is_kept in (True, False):
            ours, plain = (rate(name, kind, clients, is_kept) for name in ("serve", "plain"))
            rates[is_kept] = ours
            print(f"{kind:8} {clients:7} {'kept' if is_kept else 'not kept':9} {ours:9.0f} {plain:9.0f} {ours / plain:6.1f}", flush=True)
        print(f"{'':16} kept to not kept: {rates[True] / rates[False]:.1f}", flush=True)
for idle in (0, 1000):
    longest, mean = waits(idle)
    print(f"one client beside {idle:5} idle ones: the longest wait {longest:.2f} ms, the mean {mean:.3f} ms", flush=True)
PYTHON
