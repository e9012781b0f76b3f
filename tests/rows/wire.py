"""What bytes say by the rules of the protocol, and every way in which a text is cut off or has a byte replaced."""

from table import request, word

# The largest lengths, counts, depths and lines that are read.
BULK, ITEMS, DEPTH, LINE = 536_870_912, 1_048_576, 8, 65_536

# Each byte of a text is replaced by each of these.
REPLACEMENTS = b"\x00\n\r*$-9\xff"

# Two requests, an answer to CLUSTER SLOTS, and a line that sends a command to another node.
REQUESTS = request(b"GET", b"a") + request(b"PING")
SLOTS = (
    b"*2\r\n*3\r\n:0\r\n:99\r\n*4\r\n$-1\r\n:7001\r\n$2\r\nid\r\n*0\r\n"
    b"*3\r\n:201\r\n:16383\r\n*3\r\n$9\r\n127.0.0.1\r\n:7002\r\n$2\r\nid\r\n"
)
MOVED = b"-MOVED 15495 127.0.0.1:7003\r\n"


class Fault(Exception):
    """Bytes that begin no value; `place` is behind the byte that shows it."""

    def __init__(self, name, place):
        super().__init__(name)
        self.name, self.place = name, place


class Unfinished(Exception):
    """The value is not whole."""


def changed(text, kept=()):
    """The text cut off at every place, then with each byte but those at the places kept replaced by each other one of the
    replacements."""
    for place in range(len(text) + 1):
        yield text[:place]
    for place in range(len(text)):
        for byte in REPLACEMENTS:
            if byte != text[place] and place not in kept:
                yield text[:place] + bytes([byte]) + text[place + 1 :]


def counted(texts, kept=()):
    """How many places and replacements these texts have."""
    places = sum(len(text) + 1 for text in texts)
    return f"{places} places, {sum(1 for text in texts for _ in changed(text, kept)) - places} replacements"


def value_at(data, at=0, room=DEPTH):
    """The value that begins there, a tuple of its kind and what it holds, and the place behind it."""
    if at == len(data):
        raise Unfinished
    kind = data[at : at + 1]
    if kind not in b"+-:$*":
        raise Fault("BadType", at + 1)
    text, at = line_at(data, at + 1)
    if kind == b"+":
        return ("simple", text), at
    if kind == b"-":
        return ("error", text), at
    if kind == b":":
        return ("integer", integer_of(text, at)), at
    if text == b"-1":
        return ("null" if kind == b"$" else "nullarray",), at
    count = length_of(text, at)
    return bulk_at(data, at, count) if kind == b"$" else array_at(data, at, count, room)


def line_at(data, at):
    end = at
    while end < len(data) and data[end] not in b"\r\n":
        end += 1
        if end - at > LINE:
            raise Fault("TooLong", end)
    return data[at:end], end_at(data, end)


def end_at(data, at):
    """The place behind CR and LF."""
    for place, byte in enumerate(b"\r\n", at):
        if place == len(data):
            raise Unfinished
        if data[place] != byte:
            raise Fault("BadEnd", place + 1)
    return at + 2


def digits(text, most):
    return 0 < len(text) <= most and all(byte in b"0123456789" for byte in text)


def integer_of(text, at):
    magnitude = text[1:] if text[:1] in (b"-", b"+") else text
    if digits(magnitude, 20) and -(1 << 63) <= int(text) < 1 << 63:
        return int(text)
    raise Fault("BadNumber", at)


def length_of(text, at):
    if digits(text, 10):
        return int(text)
    raise Fault("BadNumber", at)


def bulk_at(data, at, count):
    if count > BULK:
        raise Fault("TooLong", at)
    if at + count > len(data):
        raise Unfinished
    return ("bulk", data[at : at + count]), end_at(data, at + count)


def array_at(data, at, count, room):
    if room == 0:
        raise Fault("TooDeep", at)
    if count > ITEMS:
        raise Fault("TooMany", at)
    items = []
    for _ in range(count):
        item, at = value_at(data, at, room - 1)
        items.append(item)
    return ("array", items), at


def values_in(data):
    """Each value with the place behind it, and the fault behind the last one, or None."""
    values, at = [], 0
    try:
        while True:
            value, at = value_at(data, at)
            values.append((value, at))
    except Unfinished:
        return values, None
    except Fault as fault:
        return values, fault


def shown(value):
    """A value as answers of rows write it."""
    kind, *held = value
    if kind == "array":
        return " ".join(["array [", *map(shown, held[0]), "]"])
    if kind == "integer":
        return f"integer {held[0]}"
    return " ".join([kind, *map(word, held)])


def spelled(value):
    """The bytes of a value as they are written."""
    kind, *held = value
    if kind == "array":
        return b"*%d\r\n" % len(held[0]) + b"".join(map(spelled, held[0]))
    if kind == "bulk":
        return b"$%d\r\n%s\r\n" % (len(held[0]), held[0])
    if kind == "integer":
        return b":%d\r\n" % held[0]
    if kind in ("simple", "error"):
        return {"simple": b"+", "error": b"-"}[kind] + held[0] + b"\r\n"
    return {"null": b"$-1\r\n", "nullarray": b"*-1\r\n"}[kind]


def request_of(value):
    """The words of a value, none for one that asks for nothing, or None for one that is no request."""
    kind, *held = value
    if kind == "nullarray":
        return []
    if kind == "array" and all(item[0] == "bulk" for item in held[0]):
        return [item[1] for item in held[0]]
    return None


class Asked:
    """What a session makes of bytes: the answer to `read` behind each place where something is read, the keys that GET asks
    for in order, the replies where a key is held as `held` says, and the fault that ends it."""

    def __init__(self, data, held):
        self.held, self.reads, self.keys, self.replies, self.fault = held, {}, [], b"", None
        values, fault = values_in(data)
        for value, place in values:
            words = request_of(value)
            if words is None:
                self.break_off("NotRequest", place)
                return
            self.reads[place] = "yes"
            self.answer(words)
        if fault:
            self.break_off(f"Wire({fault.name})", fault.place)

    def break_off(self, name, place):
        self.fault, self.place = name, place
        self.reads[place] = name
        self.replies += b"-ERR proxy: protocol error\r\n"

    def answer(self, words):
        if not words:
            return
        name, *rest = words
        if name.upper() == b"GET" and len(rest) == 1:
            self.keys.append(rest[0])
            self.replies += self.held(rest[0])
        elif name.upper() == b"PING" and not rest:
            self.replies += b"+PONG\r\n"
        else:
            assert name.upper() not in (b"GET", b"PING"), words
            self.replies += b"-ERR unknown command\r\n"


def told(value):
    """What a command is told by a reply, in words, and the endpoint that the reply names, or None. A node without a host is
    beside the one that was asked, at 127.0.0.1."""
    kind, *held = value
    if kind != "error":
        return "reply", None
    first, _, others = held[0].partition(b" ")
    if first in (b"TRYAGAIN", b"CLUSTERDOWN"):
        return first.decode().lower(), None
    if first not in (b"MOVED", b"ASK"):
        return "reply", None
    slot, space, rest = others.partition(b" ")
    host, colon, port = rest.partition(b" ")[0].rpartition(b":")
    if not (space and colon and digits(slot, 5) and int(slot) < 16384 and digits(port, 5) and 0 < int(port) < 65536):
        return "unclear", None
    host = b"127.0.0.1" if host in (b"", b"?") else host
    return f"{first.decode().lower()} {int(slot)}", (host, int(port))
