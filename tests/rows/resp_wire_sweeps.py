"""Texts cut in pieces, cut off and with bytes replaced, for resp_wire."""

from table import Row, quoted, request
from wire import REQUESTS, SLOTS, changed, counted, shown, values_in

GET = request(b"GET", b"a")
PING = request(b"PING")


def cut_at_each_place():
    """After both pieces both requests are given; the first piece gives those that are whole in it."""
    row = Row("two_requests_cut_at_each_place")
    whole = GET + PING
    ends = [(len(GET), "array [ bulk GET bulk a ]"), (len(whole), "array [ bulk PING ]")]
    for cut in range(len(whole) + 1):
        row.call("reader new")
        row.call("reader feed " + quoted(whole[:cut]))
        for end, value in ends:
            if end <= cut:
                row.call("reader next", value)
        row.call("reader next", "none")
        row.call("reader feed " + quoted(whole[cut:]))
        for end, value in ends:
            if end > cut:
                row.call("reader next", value)
        row.call("reader next", "none")
    return row


# Texts in pieces, each with what is answered once its last byte is there, and what is left when it has been read.
TEXTS = [
    (
        [
            (b"+OK\r\n", "simple OK"),
            (b"-ERR no\r\n", 'error "ERR no"'),
            (b":-0\r\n", "integer 0"),
            (b"$0\r\n\r\n", 'bulk ""'),
            (b"$-1\r\n", "null"),
            (b"*-1\r\n", "nullarray"),
            (b"*0\r\n", "array [ ]"),
        ],
        b"",
    ),
    ([(b"*2\r\n*1\r\n:1\r\n$2\r\nab\r\n", "array [ array [ integer 1 ] bulk ab ]")], b"+x"),
    ([(b"*3\r\n:1\r\n*1\r\n$1\r\na\r\n!", "BadType")], b"rest"),
    ([(b":1\r\n", "integer 1"), (b"+a\rb", "BadEnd")], b""),
    ([(b"$3\r\nabcd", "BadEnd")], b"\r\n"),
]

FAULTS = ("BadType", "BadEnd")


def whole_and_byte_by_byte():
    row = Row("whole_and_byte_by_byte")
    for pieces, rest in TEXTS:
        read_whole(row, pieces, rest)
        read_bytes(row, pieces, rest)
    return row


def read_whole(row, pieces, rest):
    row.call("reader new")
    row.call("reader feed " + quoted(b"".join(piece for piece, _ in pieces) + rest))
    for _, answer in pieces:
        row.call("reader next", answer)
    row.call("reader next", last_answer(pieces))


def read_bytes(row, pieces, rest):
    row.call("reader new")
    for piece, answer in pieces:
        for place in range(len(piece)):
            row.call("reader feed " + quoted(piece[place : place + 1]))
            row.call("reader next", answer if place + 1 == len(piece) else "none")
    fault = last_answer(pieces)
    for byte in rest:
        row.call("reader feed " + quoted(bytes([byte])), "ok" if fault == "none" else fault)
        row.call("reader next", fault)


def last_answer(pieces):
    """A fault is answered from then on."""
    answer = pieces[-1][1]
    return answer if answer in FAULTS else "none"


def changed_bytes():
    """Two requests and an answer to CLUSTER SLOTS, cut off or with a byte replaced: whole they give the values and the fault
    that they give byte by byte, each as soon as its last byte is there."""
    row = Row("changed_bytes_whole_and_byte_by_byte", note=counted([REQUESTS, SLOTS]))
    for text in (REQUESTS, SLOTS):
        for data in changed(text):
            values, fault = values_in(data)
            read_changed_whole(row, data, values, fault)
            read_changed_bytes(row, data, values, fault)
    return row


def read_changed_whole(row, data, values, fault):
    row.call("reader new")
    row.call("reader feed " + quoted(data))
    for value, _ in values:
        row.call("reader next", shown(value))
    for _ in range(2):
        row.call("reader next", fault.name if fault else "none")


def read_changed_bytes(row, data, values, fault):
    due = {end: shown(value) for value, end in values}
    row.call("reader new")
    for place in range(1, len(data) + 1):
        is_over = fault and place > fault.place
        row.call("reader feed " + quoted(data[place - 1 : place]), fault.name if is_over else "ok")
        row.call("reader next", fault.name if fault and place >= fault.place else due.get(place, "none"))


# Bytes of a large bulk string and of the longest line, items of a long array, and so many seconds are many times what each takes.
BULK, LINE, ITEMS, SECONDS = 4_194_304, 65_536, 65_536, 60


def read_in_pieces(name, text, size, value, times=1):
    """A text in small pieces, with a look for a value after each: the work grows with the bytes alone."""
    row = Row(name, times=times, seconds=SECONDS, note=f"{len(text)} bytes in pieces of {size}")
    row.call("reader new")
    for start in range(0, len(text), size):
        row.call("reader feed " + quoted(text[start : start + size]))
        row.call("reader next", value if start + size >= len(text) else "none")
    return row


def long_texts_in_small_pieces():
    array = b"*%d\r\n" % ITEMS + b"$1\r\na\r\n" * ITEMS
    items = "array [ " + "bulk a " * ITEMS + "]"
    bulk, line = b"a" * BULK, b"a" * LINE
    return [
        read_in_pieces("many_small_bulks_byte_by_byte", array, 1, items),
        read_in_pieces("large_bulk_in_pieces_of_seven", b"$%d\r\n" % BULK + bulk + b"\r\n", 7, f"bulk {bulk.decode()}"),
        read_in_pieces("longest_line_byte_by_byte", b"+" + line + b"\r\n", 1, f"simple {line.decode()}", times=100),
    ]


# Requests that are read and written back, and their bytes, whole and in pieces.
REQUESTS_BACK, BYTES_BACK = 1_000, 30_000
PIECES = (BYTES_BACK, 1, 16, 4_096)


def requests_written_back():
    """However they are cut, no request is lost, and no byte of it."""
    row = Row("requests_written_back_whole_and_in_pieces", note=f"{REQUESTS_BACK} requests in pieces of {PIECES}")
    for size in PIECES:
        row.call(f"reader round {REQUESTS_BACK} {size}", f"{REQUESTS_BACK} {BYTES_BACK}")
    return row


def rows():
    return [cut_at_each_place(), whole_and_byte_by_byte(), changed_bytes(), requests_written_back(), *long_texts_in_small_pieces()]
