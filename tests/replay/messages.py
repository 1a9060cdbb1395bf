"""The bytes of messages and responses: docs/HTTP.md, Messages; Responses."""
import json
import re
from typing import NamedTuple

PHRASES = {
    200: "OK",
    201: "Created",
    400: "Bad Request",
    401: "Unauthorized",
    403: "Forbidden",
    404: "Not Found",
    405: "Method Not Allowed",
    409: "Conflict",
    411: "Length Required",
    413: "Payload Too Large",
    431: "Request Header Fields Too Large",
    501: "Not Implemented",
}
HEAD_BYTES, HEAD_LINES, BODY_BYTES = 8192, 64, 262144
TOKEN = re.compile(rb"[!#$%&'*+\-.^_`|~0-9A-Za-z]+")
DONE, CUT, NO_MESSAGE = 0, 7, 12  # exit statuses of `pipe`


class NoMessage(Exception):
    """Bytes that are no message, with the status that answers them."""


class InputEnded(Exception):
    """The input ended inside a message."""


class Message(NamedTuple):
    method: str
    target: str
    key: str
    body: bytes
    closes: bool


def is_target(target):
    try:
        target.decode("utf-8")
    except UnicodeDecodeError:
        return False
    return bool(target) and all(byte > 32 and byte != 127 for byte in target)


def read_head(head):
    """The method, the target, the version and the fields of a head, their names in small letters."""
    lines = [line[:-1] if line.endswith(b"\r") else line for line in head.split(b"\n")]
    first, fields = lines[0].split(b" "), []
    if len(first) != 3 or not TOKEN.fullmatch(first[0]) or not is_target(first[1]) or first[2] not in (b"HTTP/1.1", b"HTTP/1.0"):
        raise NoMessage(400)
    for line in lines[1 : lines.index(b"")]:
        name, colon, value = line.partition(b":")
        if not colon or not TOKEN.fullmatch(name) or re.search(rb"[\x00-\x08\x0a-\x1f\x7f]", value):
            raise NoMessage(400)
        fields.append((name.lower(), value.strip(b" \t")))
    return (*first, fields)


def end_of_head(data, at):
    """Where the head that begins here has ended."""
    ends = [end for end in (data.find(empty, at, at + HEAD_BYTES) for empty in (b"\n\n", b"\n\r\n")) if end >= 0]
    if not ends and len(data) - at >= HEAD_BYTES:
        raise NoMessage(431)
    if not ends:
        raise InputEnded
    end = min(ends)
    return end + (2 if data[end + 1 : end + 2] == b"\n" else 3)


def length_of_body(method, fields):
    lengths = [value for name, value in fields if name == b"content-length"]
    if any(name == b"transfer-encoding" for name, _ in fields):
        raise NoMessage(501)
    if len(lengths) > 1 or lengths and not re.fullmatch(rb"[0-9]{1,10}", lengths[0]):
        raise NoMessage(400)
    if method == b"POST" and not lengths:
        raise NoMessage(411)
    if lengths and int(lengths[0]) > BODY_BYTES:
        raise NoMessage(413)
    return int(lengths[0]) if lengths else 0


def read_message(data, at):
    """The message that begins here, and where it ends."""
    end = end_of_head(data, at)
    head = data[at:end]
    if head.count(b"\n") - 2 > HEAD_LINES:
        raise NoMessage(431)
    method, target, version, fields = read_head(head)
    length = length_of_body(method, fields)
    if len(data) - end < length:
        raise InputEnded
    keys = [value.decode("latin-1") for name, value in fields if name == b"fpl-key"]
    closes = version == b"HTTP/1.0" or any(name == b"connection" and value.lower() == b"close" for name, value in fields)
    key = keys[0] if len(keys) == 1 else None
    return Message(method.decode(), target.decode("utf-8"), key, data[end : end + length], closes), end + length


def response(status, body, closes):
    text = json.dumps(body, separators=(",", ":"), sort_keys=True, ensure_ascii=False).encode("utf-8")
    lines = [f"HTTP/1.1 {status} {PHRASES[status]}", "Content-Type: application/json", f"Content-Length: {len(text)}"]
    lines += ["Connection: close"] if closes else []
    return "".join(f"{line}\r\n" for line in [*lines, ""]).encode() + text


def session(host, data, clock):
    """The answers to all messages of some bytes, and the exit status behind them.

    `clock` tells the moment of the message that begins at a place in the bytes.
    """
    answers, at = [], 0
    while True:
        while data[at : at + 1] == b"\n" or data[at : at + 2] == b"\r\n":
            at += 1 if data[at : at + 1] == b"\n" else 2
        if at == len(data):
            return answers, DONE
        try:
            message, end = read_message(data, at)
        except InputEnded:
            return answers, CUT
        except NoMessage as wrong:
            return [*answers, response(wrong.args[0], {"error": "bytes"}, True)], NO_MESSAGE
        status, body = host.answer(message.method, message.target, message.key, message.body, lambda: clock(at))
        answers.append(response(status, body, message.closes))
        if message.closes:
            return answers, DONE
        at = end
