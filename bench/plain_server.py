#!/usr/bin/env python3
"""A plain server of managers in Python's standard library, for bench/serve.sh: a thread for each connection, each lineup a
transaction of SQLite. It answers GET /me and POST /lineup and judges nothing but the number.

usage: plain_server.py PORT STORE ENTRIES
"""
import json
import sqlite3
import sys
import threading
from http.server import BaseHTTPRequestHandler, ThreadingHTTPServer


class Answering(BaseHTTPRequestHandler):
    protocol_version = "HTTP/1.1"
    lock, last = threading.Lock(), {}
    wbufsize = -1  # an answer is one write

    def do_GET(self):
        self.answer(200, {"entry": int(self.headers["Fpl-Key"][7:]), "last": self.last[self.headers["Fpl-Key"]]})

    def do_POST(self):
        key = self.headers["Fpl-Key"]
        body = json.loads(self.rfile.read(int(self.headers["Content-Length"])))
        with self.lock:
            if body["number"] != self.last[key] + 1:
                return self.answer(409, {"error": "number", "last": self.last[key]})
            self.store.execute("insert or replace into lineup values (?, ?, ?)", (key, body["number"], json.dumps(body["players"])))
            self.store.commit()
            self.last[key] += 1
        self.answer(200, {"done": body["number"]})

    def answer(self, status, body):
        text = json.dumps(body, separators=(",", ":")).encode()
        self.send_response(status)
        self.send_header("Content-Type", "application/json")
        self.send_header("Content-Length", str(len(text)))
        self.end_headers()
        self.wfile.write(text)

    def log_message(self, *_):
        pass


class Server(ThreadingHTTPServer):
    request_queue_size, daemon_threads = 1024, True


Answering.store = sqlite3.connect(sys.argv[2], check_same_thread=False)
Answering.store.execute("create table if not exists lineup (key text primary key, number integer, players text)")
Answering.last = {f"manager{entry:04}": 1 for entry in range(1, int(sys.argv[3]) + 1)}
Server(("127.0.0.1", int(sys.argv[1])), Answering).serve_forever()
