"""A host that serves the page on a free port of this machine, with a clock that a play sets.

`Program` is the built program, and `StandIn` the second host of tests/replay, which serves the same pages and the same
routes: with it the page can be tried where no program is built.
"""
import copy
import json
import os
import socket
import sqlite3
import subprocess
import sys
import tempfile
import threading
import time
from functools import cache
from http.client import HTTPConnection
from http.server import BaseHTTPRequestHandler, ThreadingHTTPServer
from pathlib import Path

TESTS = Path(__file__).resolve().parent.parent
sys.path.insert(0, str(TESTS / "replay"))

from host import Host
from messages import response

OPERATOR = "operator1"
SECONDS = 120  # the program may take to begin, to answer and to end, on a machine that is busy
TYPES = {
    "html": "text/html; charset=utf-8",
    "js": "text/javascript; charset=utf-8",
    "css": "text/css; charset=utf-8",
    "svg": "image/svg+xml",
    "png": "image/png",
    "ico": "image/x-icon",
    "json": "application/json",
    "webmanifest": "application/manifest+json",
}
POLICY = "default-src 'self'; frame-ancestors 'none'; base-uri 'none'; form-action 'self'"


class Served:
    """What both hosts have: a port, a clock, and a client of the tests' own."""

    def __init__(self, pages, port=None):
        self.pages = Path(pages)
        self.port = port or free_port()
        self.url = f"http://127.0.0.1:{self.port}/"

    def ask(self, method, target, key, members=None):
        """The status of an answer, and its body."""
        connection = HTTPConnection("127.0.0.1", self.port, timeout=SECONDS)
        body = None if members is None else json.dumps(members)
        connection.request(method, target, body, {"Fpl-Key": key, "Connection": "close"})
        answer = connection.getresponse()
        told = answer.status, json.loads(answer.read() or b"null")
        connection.close()
        return told


def free_port():
    with socket.create_server(("127.0.0.1", 0)) as free:
        return free.getsockname()[1]


class Server(ThreadingHTTPServer):
    """Clients that go away in mid-answer are nothing to tell of."""

    daemon_threads, block_on_close, allow_reuse_address = True, False, True

    def __init__(self, *place):
        super().__init__(*place)
        self.kept = set()

    def handle_error(self, *_):
        pass


class StandIn(Served):
    """The second host; a season outlives that it is stopped."""

    def __init__(self, pages, port=None):
        super().__init__(pages, port)
        self.host, self.moment, self.lock, self.server = Host(OPERATOR), 0, threading.Lock(), None

    def tell(self, moment):
        self.moment = moment

    def holds(self):
        """What another host begins with to go on from here."""
        return copy.deepcopy(self.host), self.moment

    def hold(self, held):
        self.host, self.moment = copy.deepcopy(held)

    def start(self):
        stand_in = self

        class Handler(BaseHTTPRequestHandler):
            protocol_version = "HTTP/1.1"
            timeout = 60

            def do_GET(self):
                stand_in.reply(self)

            do_POST = do_GET

            def log_message(self, *_):
                pass

        self.server = Server(("127.0.0.1", self.port), Handler)
        threading.Thread(target=self.server.serve_forever, kwargs={"poll_interval": 0.05}, daemon=True).start()
        return self

    def stop(self):
        server, self.server = self.server, None
        server.shutdown()
        server.server_close()
        for connection in list(server.kept):
            try:
                connection.shutdown(socket.SHUT_RDWR)
            except OSError:
                pass

    def reply(self, message):
        server = message.server
        server.kept.add(message.connection)
        body = message.rfile.read(int(message.headers.get("Content-Length") or 0))
        page = self.page_at(message.path)
        if page is not None:
            message.wfile.write(self.page_reply(page, message.command))
            return
        with self.lock:
            key = message.headers.get("Fpl-Key")
            status, shown = self.host.answer(message.command, message.path, key, body, lambda: self.moment)
        if self.server is server:  # else it was stopped meanwhile, and the answer is lost
            message.wfile.write(response(status, shown, False))

    def page_at(self, target):
        page = self.pages / (target[1:] or "index.html")
        return page if page.suffix[1:] in TYPES and page.parent == self.pages and page.is_file() else None

    def page_reply(self, page, method):
        if method != "GET":
            return response(405, {"error": "method"}, False)
        data = page.read_bytes()
        fields = {
            "Content-Type": TYPES[page.suffix[1:]],
            "Content-Length": len(data),
            "Cache-Control": "no-cache",
            "X-Content-Type-Options": "nosniff",
            "Content-Security-Policy": POLICY,
        }
        head = "".join(f"{name}: {value}\r\n" for name, value in fields.items())
        return f"HTTP/1.1 200 OK\r\n{head}\r\n".encode() + data


@cache
def outside():
    """The library that tells the program its clock, and the folder in which it lies."""
    folder = tempfile.TemporaryDirectory(prefix="kowhirupe-page-")
    library = Path(folder.name) / "outside.so"
    subprocess.run(["gcc", "-O1", "-shared", "-fPIC", "-o", library, TESTS / "outside.c", "-ldl"], check=True)
    return library, folder


class Program(Served):
    """The built program over a store, with the clock of tests/outside.c."""

    def __init__(self, pages, program, port=None):
        super().__init__(pages, port)
        self.folder = tempfile.TemporaryDirectory(prefix="kowhirupe-page-")
        place = Path(self.folder.name)
        self.program, self.store, self.now = Path(program).resolve(), place / "season", place / "now"
        self.process = None
        self.tell(0)

    def tell(self, moment):
        fresh = self.now.with_suffix(".fresh")
        fresh.write_text(f"{moment}\n")
        fresh.rename(self.now)

    def holds(self):
        """What another host begins with to go on from here; this one has to be stopped."""
        store = sqlite3.connect(self.store)
        whole = store.serialize()
        store.close()
        return whole, self.now.read_text()

    def hold(self, held):
        whole, moment = held
        self.store.write_bytes(whole)
        self.tell(int(moment))

    def generate(self):
        """Makes the season of `generate` in the store; its moments are its own."""
        subprocess.run([self.program, "generate", "--seed", "7", "--store", self.store], check=True, stdout=subprocess.DEVNULL)
        self.tell(1691790000)

    def start(self):
        words = ["serve", "--key", OPERATOR, "--port", str(self.port), "--clients", "64", "--pages", self.pages, "--store", self.store]
        surroundings = os.environ | {"LD_PRELOAD": str(outside()[0]), "KOWHIRUPE_NOW": str(self.now)}
        self.process = subprocess.Popen([self.program, *words], stdin=subprocess.DEVNULL, env=surroundings)
        end = time.monotonic() + SECONDS
        while time.monotonic() < end:
            if self.process.poll() is not None:
                raise RuntimeError(f"the program ended with status {self.process.returncode}")
            try:
                socket.create_connection(("127.0.0.1", self.port), 1).close()
                return self
            except OSError:
                time.sleep(0.05)
        raise RuntimeError("the program takes no connection")

    def stop(self):
        self.process.terminate()
        self.process.wait(SECONDS)
