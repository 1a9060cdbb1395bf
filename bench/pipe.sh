#!/usr/bin/env bash
# A stream of mixed requests through `pipe`, over a season of 1,200 players and 380 fixtures of 64 lines: seconds of
# processor time, requests a second and the peak of memory, beside a plain host in Python that answers the same stream.
# Both run in turn, round after round, on one processor, and what counts is the mean of all runs of each, less the mean
# of its runs over the season alone: a machine that is shared may work at half its speed for seconds or minutes, and so
# it does for both. Each run writes over one file that already has its size, since making new pages of a file is the
# machine's work and not the host's. What both write is compared. The time of a run is no test; the ratio is what it
# shows.
# usage: bench/pipe.sh [REQUESTS] [ROUNDS]
set -euo pipefail
top=$(cd "$(dirname "${BASH_SOURCE[0]}")/.." && pwd)
requests=${1:-100000}
rounds=${2:-5}
"$top/kowhirupe" pipe --key operator1 </dev/null
folder=$(mktemp -d)
trap 'rm -rf "$folder"' EXIT
python3 "$top/bench/requests.py" 1200 380 64 mixed "$requests" >"$folder/requests"
python3 "$top/bench/requests.py" 1200 380 64 mixed 0 >"$folder/season"
python3 - "$top" "$folder" "$requests" "$rounds" <<'PYTHON'
import filecmp, os, re, subprocess, sys, time
from statistics import mean
top, folder, requests, rounds = sys.argv[1], sys.argv[2], int(sys.argv[3]), int(sys.argv[4])
processor = max(os.sched_getaffinity(0))


class Host:
    def __init__(self, name, words, runs):
        self.name, self.words, self.runs = name, words, runs
        self.both, self.season = [], []

    def seconds(self, source):
        """The processor time of one run over a stream."""
        child = os.fork()
        if child == 0:
            os.sched_setaffinity(0, {processor})
            os.dup2(os.open(f"{folder}/{source}", os.O_RDONLY), 0)
            os.dup2(os.open(f"{folder}/{self.name}.{source}", os.O_WRONLY | os.O_CREAT), 1)
            os.execvp(self.words[0], self.words)
        _, status, used = os.wait4(child, 0)
        if status != 0:
            sys.exit(f"{self.name}: ended with the wait status {status}")
        return used.ru_utime + used.ru_stime

    def round(self):
        for _ in range(self.runs):
            self.both.append(self.seconds("requests"))
            self.season.append(self.seconds("season"))

    def peak(self, size):
        """The most memory in MiB of a run that writes so many bytes, read before its input ends."""
        written = f"{folder}/{self.name}.peak"
        with open(f"{folder}/requests", "rb") as data, open(written, "wb") as out:
            with subprocess.Popen(self.words, stdin=subprocess.PIPE, stdout=out) as program:
                program.stdin.write(data.read())
                program.stdin.flush()
                while os.path.getsize(written) < size:
                    time.sleep(0.01)
                with open(f"/proc/{program.pid}/status") as status:
                    return int(re.search(r"VmHWM:\s+(\d+)", status.read()).group(1)) / 1024

    def taken(self, of=mean):
        return of(self.both) - mean(self.season)

    def row(self):
        taken = self.taken()
        print(f"{self.name:8} {taken:9.3f} {self.taken(min):9.3f} {self.taken(max):9.3f} {requests / taken:12.0f}")


ours = Host("pipe", [f"{top}/crates/fpl_host/out/fpl_host", "pipe", "--key", "operator1"], 5)
plain = Host("plain", ["python3", f"{top}/bench/plain_host.py", "operator1"], 1)
for host in (ours, plain):
    for source in ("requests", "season"):
        host.seconds(source)
if not filecmp.cmp(f"{folder}/pipe.requests", f"{folder}/plain.requests", shallow=False):
    sys.exit("the two hosts wrote different bytes")
for _ in range(rounds):
    ours.round()
    plain.round()
ours.round()
print(f"{'host':8} {'mean s':>9} {'least s':>9} {'most s':>9} {'requests/s':>12}")
ours.row()
plain.row()
print(f"ratio of the means {plain.taken() / ours.taken():.1f}")
print(f"peak of pipe {ours.peak(os.path.getsize(f'{folder}/pipe.requests')):.1f} MiB")
PYTHON
