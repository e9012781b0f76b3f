"""A client that sends bytes and gives back the exact bytes of each reply."""

import socket

# Seconds that a socket waits before a case fails: only a reply that never comes takes as long, on a slow machine too.
LIMIT = 60.0
# The bytes of the shortest reply, and the most bytes for which a client of many replies waits at once: to wake it for each piece costs
# more than to read the piece.
SHORTEST, MOST_AWAITED = 4, 4096


class Closed(Exception):
    """The other side closed the connection."""


class ReplyError(Exception):
    """An error reply, where a value was wanted."""


def request(*words):
    """The bytes of one request."""
    words = [word if isinstance(word, bytes) else str(word).encode() for word in words]
    return b"*%d\r\n" % len(words) + b"".join([b"$%d\r\n%s\r\n" % (len(word), word) for word in words])


def end_of_reply(held, start):
    """The place after the reply that begins at `start`, or None where it is not whole yet."""
    line_end = held.find(b"\r\n", start)
    if line_end < 0:
        return None
    kind, at = held[start : start + 1], line_end + 2
    if kind in (b"+", b"-", b":"):
        return at
    count = int(held[start + 1 : line_end])
    if kind == b"$":
        at += count + 2 if count >= 0 else 0
        return at if at <= len(held) else None
    if kind != b"*":
        raise ValueError(f"no reply begins with {held[start:line_end]!r}")
    for _ in range(count):
        at = end_of_reply(held, at)
        if at is None:
            return None
    return at


def value_of(reply):
    """A reply's value: a number, bytes, None, a list, text after a plus sign, or a ReplyError."""
    return read_value(reply, 0)[0]


def read_value(held, start):
    line_end = held.index(b"\r\n", start)
    kind, text, at = held[start : start + 1], bytes(held[start + 1 : line_end]), line_end + 2
    if kind == b"+":
        return text.decode(), at
    if kind == b"-":
        return ReplyError(text.decode()), at
    count = int(text)
    if kind == b":":
        return count, at
    if count < 0:
        return None, at
    if kind == b"$":
        return bytes(held[at : at + count]), at + count + 2
    items = []
    for _ in range(count):
        item, at = read_value(held, at)
        items.append(item)
    return items, at


class Client:
    """One connection."""

    def __init__(self, port, limit=LIMIT, receive_buffer=None):
        self.socket = socket.socket()
        self.socket.settimeout(limit)
        if receive_buffer:
            self.socket.setsockopt(socket.SOL_SOCKET, socket.SO_RCVBUF, receive_buffer)
        self.socket.connect(("127.0.0.1", port))
        self.socket.setsockopt(socket.IPPROTO_TCP, socket.TCP_NODELAY, 1)
        self.held = bytearray()
        self.taken = 0
        self.awaited = 1

    def __enter__(self):
        return self

    def __exit__(self, *_):
        self.close()

    def send(self, data):
        self.socket.sendall(data)

    def fill(self, replies=0):
        """Waits for as many bytes as the next reply and so many behind it have at least, or for the end, and takes in what came."""
        awaited = min(1 + SHORTEST * replies, MOST_AWAITED)
        if awaited != self.awaited:
            self.awaited = awaited
            self.socket.setsockopt(socket.SOL_SOCKET, socket.SO_RCVLOWAT, awaited)
        try:
            piece = self.socket.recv(1 << 18)
        except TimeoutError:
            had = bytes(self.held[self.taken :])[:80]
            raise TimeoutError(f"nothing came for {self.socket.gettimeout():g} seconds, after {had!r}") from None
        if not piece:
            raise Closed(f"closed with {bytes(self.held[self.taken :])[:80]!r} unread")
        if self.taken > 1 << 20:
            del self.held[: self.taken]
            self.taken = 0
        self.held += piece

    def reply(self, others=0):
        """The bytes of the next reply, behind which the caller reads so many others."""
        while True:
            end = end_of_reply(self.held, self.taken)
            if end is not None:
                reply = bytes(self.held[self.taken : end])
                self.taken = end
                return reply
            self.fill(others)

    def replies(self, count):
        return [self.reply(others) for others in reversed(range(count))]

    def lines(self, count):
        """So many replies, each of which is one line."""
        while (missing := count - self.held.count(b"\r\n", self.taken)) > 0:
            self.fill(missing - 1)
        *lines, rest = bytes(self.held[self.taken :]).split(b"\r\n", count)
        self.taken = len(self.held) - len(rest)
        return [line + b"\r\n" for line in lines]

    def ask(self, *words):
        """One request and the bytes of its reply."""
        self.send(request(*words))
        return self.reply()

    def value(self, *words):
        """One request and the value of its reply, which must be no error."""
        value = value_of(self.ask(*words))
        if isinstance(value, ReplyError):
            raise value
        return value

    def rest(self):
        """All bytes up to the other side's end."""
        try:
            while True:
                self.fill()
        except (Closed, ConnectionResetError):
            rest = bytes(self.held[self.taken :])
            self.taken = len(self.held)
            return rest

    def end_sending(self):
        """Closes this side for sending, and goes on reading."""
        self.socket.shutdown(socket.SHUT_WR)

    def interrupt(self):
        """Ends the connection, also while another thread waits for a reply."""
        try:
            self.socket.shutdown(socket.SHUT_RDWR)
        except OSError:
            pass

    def close(self):
        self.socket.close()
