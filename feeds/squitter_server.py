"""A small server of HTTP for a live view: all clients in one thread, by one selector.

It serves what a function finds. Nothing of a request is ever joined to a path. A stream of events goes to each client
that has taken the last one. A client that has not misses events, and then gets the whole state."""
from __future__ import annotations

import ipaddress
import selectors
import socket
import time
from collections import deque
from typing import Callable, Deque, Dict, List, Optional, Tuple

CLIENTS = 256  # connections at once, at most
LINE, FIELDS, HEAD = 2048, 100, 8192  # of a request: bytes of its first line, header fields, and bytes in all
ASKING, TAKING, LEAVING = 5, 30, 2  # seconds to send a request, without taking a byte, and until a connection is cut
BUFFER = 1 << 16  # bytes that the system may hold for a client
POLICY = ("default-src 'none'; script-src 'self'; style-src 'self'; connect-src 'self'; img-src 'self' data:; "
          "base-uri 'none'; form-action 'none'; frame-ancestors 'none'")
Document = Tuple[str, bytes]  # a media type, and the bytes
Find = Callable[[str], Optional[Document]]  # makes the document of a path, if there is one


def head(status: str, kind: str, length: Optional[int] = None) -> bytes:
    """Returns the head of a response."""
    lines = [f"HTTP/1.1 {status}", f"Content-Type: {kind}", "Cache-Control: no-store",
             "X-Content-Type-Options: nosniff", "Cross-Origin-Resource-Policy: same-origin",
             "Referrer-Policy: no-referrer", f"Content-Security-Policy: {POLICY}", "Connection: close"]
    lines += [f"Content-Length: {length}"] if length is not None else []
    lines += ["Allow: GET, HEAD"] if status.startswith("405") else []
    return ("\r\n".join(lines) + "\r\n\r\n").encode()


class Refusal(Exception):
    """A request is refused, with a status."""


class Client:
    """A connection."""

    __slots__ = ("asked", "is_behind", "is_done", "is_read", "is_stream", "left", "link", "since")

    def __init__(self, link: socket.socket) -> None:
        self.link = link
        self.asked = bytearray()
        self.left: Deque[memoryview] = deque()  # what it has not taken
        self.since = time.monotonic()  # of its last progress
        self.is_read = self.is_done = False  # whether its request is read, and whether its response is sent
        self.is_stream = self.is_behind = False

    def is_late(self, now: float) -> bool:
        most = LEAVING if self.is_done else TAKING if self.is_read else ASKING
        return (self.is_done or not self.is_read or bool(self.left)) and now - self.since > most


def is_own(host: str) -> bool:
    """Returns whether a host is an address or a name of this machine. A page elsewhere that has its own name lead here
    has another."""
    name = host.lower().rpartition(":")[0] if host.rpartition(":")[2].isdigit() else host.lower()
    own = socket.gethostname().lower()
    if name in ("localhost", own, f"{own}.local"):
        return True
    try:
        return bool(ipaddress.ip_address(name.strip("[]")))
    except ValueError:
        return False


def asked_for(text: bytes) -> Tuple[bool, str]:
    """Returns whether a request is GET, and its path without a query. Raises `Refusal`."""
    first, *fields = text.decode("latin-1").split("\r\n")
    words = first.split(" ")
    if len(first) > LINE:
        raise Refusal("414 URI Too Long")
    if len(fields) > FIELDS:
        raise Refusal("431 Request Header Fields Too Large")
    if len(words) != 3 or not words[2].startswith("HTTP/1."):
        raise Refusal("400 Bad Request")
    hosts = [field.partition(":")[2].strip() for field in fields if field.lower().startswith("host:")]
    if len(hosts) != 1 or not is_own(hosts[0]):
        raise Refusal("421 Misdirected Request")
    if words[0] not in ("GET", "HEAD"):
        raise Refusal("405 Method Not Allowed")
    return words[0] == "GET", words[1].partition("?")[0]


class Server:
    """Serves documents by their paths, and a stream of events at another path."""

    def __init__(self, selector: selectors.BaseSelector, address: str, port: int,
                 find: Find, stream: str, first: Callable[[], bytes]) -> None:
        """Listens at once. A new client of the stream gets what `first` returns. Raises OSError."""
        self.selector, self.find, self.path, self.first = selector, find, stream, first
        family = socket.AF_INET6 if ":" in address else socket.AF_INET
        self.listener = socket.create_server((address, port), family=family, backlog=128)
        self.listener.setblocking(False)
        self.port = self.listener.getsockname()[1]
        self.url = f"http://{f'[{address}]' if ':' in address else address}:{self.port}/"
        selector.register(self.listener, selectors.EVENT_READ, self.accept)
        self.clients: Dict[int, Client] = {}
        self.counts = dict.fromkeys(("served", "refused", "events missed", "cut off"), 0)

    def accept(self, _events: int) -> None:
        try:
            link, _ = self.listener.accept()
        except OSError:
            return  # it is gone again, or there are too many open files
        if len(self.clients) >= CLIENTS:
            # One that has not asked yet gives way, so that silent connections lock nobody out.
            silent = next((one for one in self.clients.values() if not one.is_read), None)
            self.counts["cut off"] += 1
            if silent is None:
                link.close()
                return
            self.close(silent)
        link.setblocking(False)
        link.setsockopt(socket.SOL_SOCKET, socket.SO_SNDBUF, BUFFER)
        client = self.clients[link.fileno()] = Client(link)
        self.selector.register(link, selectors.EVENT_READ, lambda events: self.ready(client, events))

    def close(self, client: Client) -> None:
        if self.clients.pop(client.link.fileno(), None) is not None:
            self.selector.unregister(client.link)
            client.link.close()

    def ready(self, client: Client, events: int) -> None:
        try:
            if events & selectors.EVENT_READ:
                self.read(client)
            if events & selectors.EVENT_WRITE and client.link.fileno() >= 0:
                self.write(client)
        except OSError:
            self.close(client)

    def read(self, client: Client) -> None:
        data = client.link.recv(1 << 16)
        if not data:
            self.close(client)
        elif not client.is_read:  # (what follows a request is not looked at)
            client.asked += data
            end = client.asked.find(b"\r\n\r\n", 0, HEAD)
            if end >= 0 or len(client.asked) >= HEAD:
                client.is_read = True
                self.answer(client, bytes(client.asked[:end]) if end >= 0 else None)
                client.asked.clear()

    def answer(self, client: Client, text: Optional[bytes]) -> None:
        """Answers a request, or one that is too long."""
        is_get, status = True, "200 OK"
        try:
            if text is None:
                is_long = b"\r\n" not in client.asked[:LINE]
                raise Refusal("414 URI Too Long" if is_long else "431 Request Header Fields Too Large")
            is_get, path = asked_for(text)
            if path == self.path:
                self.counts["served"] += 1
                client.is_stream = is_get
                self.put(client, head(status, "text/event-stream") + b"retry: 2000\n\n" * is_get)
                if is_get:
                    self.put(client, self.first())
                return
            found = self.find(path)
            if found is None:
                raise Refusal("404 Not Found")
            kind, body = found
            self.counts["served"] += 1
        except Refusal as why:
            self.counts["refused"] += 1
            status, kind, body = str(why), "text/plain; charset=utf-8", f"{why}\n".encode()
        self.put(client, head(status, kind, len(body)) + body * is_get)

    def put(self, client: Client, data: bytes) -> None:
        if not client.left:
            client.since = time.monotonic()
        client.left.append(memoryview(data))
        self.write(client)

    def write(self, client: Client) -> None:
        """Sends what the client takes. Once it has all, it is closed from its own side, or cut off after a while."""
        try:
            while client.left:
                count = client.link.send(client.left[0])
                client.since = time.monotonic()
                client.left[0] = client.left[0][count:]
                if not client.left[0]:
                    client.left.popleft()
            if not client.is_stream and not client.is_done:
                client.is_done = True
                client.link.shutdown(socket.SHUT_WR)
        except BlockingIOError:
            pass
        except OSError:
            self.close(client)
            return
        wanted = selectors.EVENT_READ | (selectors.EVENT_WRITE if client.left else 0)
        key = self.selector.get_key(client.link)
        if key.events != wanted:
            self.selector.modify(client.link, wanted, key.data)

    def streams(self) -> List[Client]:
        return [client for client in self.clients.values() if client.is_stream]

    def broadcast(self, new: Callable[[], bytes], whole: Callable[[], bytes]) -> None:
        """Sends what is new to each client that has taken all, and the whole state to one that is back."""
        made: Dict[bool, bytes] = {}
        for client in self.streams():
            if client.left:
                client.is_behind = True
                self.counts["events missed"] += 1
                continue
            if client.is_behind not in made:
                made[client.is_behind] = (whole if client.is_behind else new)()
            data, client.is_behind = made[client.is_behind], False
            self.put(client, data)

    def cut_off(self) -> None:
        """Closes connections that are silent before their request, that take nothing, or that stay after the end."""
        now = time.monotonic()
        for client in [client for client in self.clients.values() if client.is_late(now)]:
            self.counts["cut off"] += not client.is_done
            self.close(client)

    def end(self) -> None:
        for client in list(self.clients.values()):
            self.close(client)
        self.selector.unregister(self.listener)
        self.listener.close()
