"""Slow and failing streams, changed bytes, a thousand commands, and tables that fill, for node_link."""

from table import Row, quoted, request, word
from wire import MOVED, REQUESTS, SLOTS, changed, counted, shown, told, values_in

SET = request(b"SET", b"a", b"1")
ASKING_SET_THEN_SLOTS = request(b"ASKING") + SET + request(b"CLUSTER", b"SLOTS")
ANSWERS = b"-ERR x\r\n+OK\r\n*0\r\n"

# Calls that find nothing, behind which commands that wait are written.
PATIENCE = 2


def begin(row, stream, object="link"):
    row.call("table intern 127.0.0.1 7001", "0")
    for line in stream:
        row.call("stream " + line)
    row.call(f"{object} new" + (" 0" if object == "link" else ""))


def one_byte_at_a_time():
    """A stream that moves a byte at a time, behind a call that would have to wait, to a link."""
    row = Row("one_byte_at_a_time")
    begin(row, ["gives " + quoted(ANSWERS), "slow"])
    row.call("link send 0.0.1 0 asking SET a 1")
    row.call("link slots")
    row.call("link wait 200", "0.0.1 reply simple OK")
    row.call("link wait 200", "slots array [ ]")
    row.call("link wait 200", "none")
    row.call("link written", quoted(ASKING_SET_THEN_SLOTS))
    return row


def one_byte_at_a_time_to_a_port():
    row = Row("one_byte_at_a_time_to_a_port")
    begin(row, ["gives " + quoted(ANSWERS), "slow"], "port")
    row.call("port next", "none")
    row.call("port send 0.0.1 0 asking SET a 1")
    row.call("port slots")
    for value in ('error "ERR x"', "simple OK", "array [ ]", "none"):
        row.call("port wait 200", value)
    row.call("port written", quoted(ASKING_SET_THEN_SLOTS))
    return row


def get_is_written(name, stream):
    """GET of a key goes out as its bytes, and its reply is for its ticket, by this stream."""
    row = Row(name)
    begin(row, ["gives " + quoted(b"$-1\r\n")] + stream)
    row.call("link send 0.0.1 0 plain GET a")
    row.call("link wait 200", "0.0.1 reply null")
    row.call("link wait 200", "none")
    row.call("link written", quoted(request(b"GET", b"a")))
    return row


def failing_stream():
    """A stream, at once or a byte at a time, that fails once it has taken so many bytes: these were written, and the ticket
    is lost once."""
    row = Row("stream_fails_after_some_bytes", note=f"2 times {len(ASKING_SET_THEN_SLOTS)} places")
    for speed in ([], ["slow"]):
        for room in range(len(ASKING_SET_THEN_SLOTS)):
            begin(row, ['gives ""', f"room {room}", *speed])
            row.call("link send 0.0.1 0 asking SET a 1")
            row.call("link slots")
            row.call(f"link wait {PATIENCE + 2 * room + 4}", "PortFailed")
            row.call("link send 0.0.2 0 plain SET a 1", "PortFailed")
            row.call("link written", word(ASKING_SET_THEN_SLOTS[:room]))
            for lost in ("0.0.1", "none", "none", "none"):
                row.call("link lose", lost)
    return row


def failing_stream_of_a_port():
    """The same of a port, which fails at each later call too."""
    row = Row("stream_of_a_port_fails_after_some_bytes", note=f"2 times {len(ASKING_SET_THEN_SLOTS)} places")
    for speed in ([], ["slow"]):
        for room in range(len(ASKING_SET_THEN_SLOTS)):
            begin(row, ['gives ""', f"room {room}", *speed], "port")
            row.call("port send 0.0.1 0 asking SET a 1")
            row.call("port slots")
            row.call(f"port wait {PATIENCE + 2 * room + 4}", "Failed")
            row.call("port written", word(ASKING_SET_THEN_SLOTS[:room]))
    return row


def tickets_of_a_stream_that_fails():
    """Two tickets wait while a stream fails that has given no reply, or one: what is not answered is lost, in order."""
    row = Row("tickets_of_a_stream_that_fails", note=f"2 times {2 * len(SET)} places")
    for replies in (0, 1):
        for room in range(2 * len(SET)):
            begin(row, ["gives " + quoted(b"+OK\r\n" * replies), f"room {room}"])
            for ticket in ("0.0.1", "0.0.2"):
                row.call(f"link send {ticket} 0 plain SET a 1")
            if replies:
                row.call("link receive", "0.0.1 reply simple OK")
            row.call(f"link wait {PATIENCE + 4}", "PortFailed")
            row.call("link written", word((SET * 2)[:room]))
            for lost in ("0.0.1", "0.0.2", "none", "none")[replies:]:
                row.call("link lose", lost)
    return row


def thousand_commands():
    """A thousand commands that are answered in order take few writes and reads."""
    row = Row("thousand_commands_in_few_calls")
    begin(row, ["gives " + quoted(b"+OK\r\n" * 1000)])
    for part in range(1000):
        row.call(f"link send 0.0.{part} 0 plain SET a 1")
    for part in range(1000):
        row.call("link receive", f"0.0.{part} reply simple OK")
    row.call(f"link wait {PATIENCE + 1}", "none")
    row.call("link written", quoted(SET * 1000))
    row.call("link reads", "at most 60")
    row.call("link writes", "at most 60")
    return row


def thousand_commands_byte_by_byte():
    """The same by a stream that moves a byte at a time: the same requests and replies."""
    row = Row("thousand_commands_byte_by_byte")
    begin(row, ["gives " + quoted(b"+OK\r\n" * 1000), "slow"])
    for part in range(1000):
        row.call(f"link send 0.0.{part} 0 plain SET a 1")
    for part in range(1000):
        row.call("link wait 20", f"0.0.{part} reply simple OK")
    row.call(f"link wait {2 * 1000 * len(SET)}", "none")
    row.call("link written", quoted(SET * 1000))
    return row


def follows_moved_byte_by_byte():
    """GET of an absent key from its first post to its end, as in the table, by streams that move a byte at a time."""
    row = Row("a_command_follows_moved_byte_by_byte")
    for node in range(3):
        row.call(f"table intern 127.0.0.1 {7001 + node}", str(node))
    row.call("command new 0.0.0 GET a")
    for node, line, received, told, after in [
        (0, MOVED, "moved 15495 2", "moved 15495 2", "again"),
        (2, b"$-1\r\n", "reply null", 'reply "$-1\\r\\n"', "done"),
    ]:
        row.call("stream gives " + quoted(line))
        row.call("stream slow")
        row.call("command want", "post plain any" if node == 0 else "post plain 2")
        row.call(f"link new {node}")
        row.call(f"link send 0.0.0 {node} plain GET a")
        row.call(f"command posted {node}")
        row.call("link wait 200", f"0.0.0 {received}")
        row.call("link wait 200", "none")
        row.call("link written", quoted(request(b"GET", b"a")))
        row.call(f"command told {told}", after)
    row.call("command finish", "0.0.0 answered null")
    return row


# What nodes send, each with the requests that it is for.
SENT = [
    (SLOTS, ["slots"]),
    (REQUESTS, ["send 0.0.1 0 plain GET a", "send 0.0.2 0 plain GET b"]),
    (MOVED, ["send 0.0.1 0 plain GET a"]),
]


def changed_bytes():
    """An answer to CLUSTER SLOTS, two arrays and a line that sends on, cut off or with a byte replaced: whole they give the
    values and the fault that they give byte by byte."""
    row = Row("changed_bytes_whole_and_byte_by_byte", note=counted([text for text, _ in SENT]))
    for text, requests in SENT:
        for data in changed(text):
            for speed in ([], ["slow"]):
                receive_changed(row, data, requests, speed)
    return row


def receive_changed(row, data, requests, speed):
    row.call("table new")
    begin(row, ["gives " + quoted(data), *speed])
    for request in requests:
        row.call("link " + request)
    receive = f"link wait {2 * len(data) + 4}" if speed else "link receive"
    due = [request.split()[1] if request.startswith("send") else "slots" for request in requests]
    values, fault = values_in(data)
    last = {None: "none"}.get(fault, "BadWire")
    for value, _ in values:
        if not due:
            last = "Stray"
            break
        if due[0] == "slots":
            row.call(receive, "slots " + shown(value))
        else:
            answer, endpoint = told(value)
            answer += " " + shown(value) if answer == "reply" else " 1" if endpoint else ""
            row.call(receive, f"{due[0]} {answer}")
            row.call("table endpoint 1", f"{word(endpoint[0])} {endpoint[1]}" if endpoint else "none")
        due.pop(0)
    for _ in range(2):
        row.call(receive, last)
    row.call("link failed", "no" if last == "none" else "yes")
    if last != "none":
        for lost in [*(it for it in due if it != "slots"), "none", "none"]:
            row.call("link lose", lost)


def commands_that_wait():
    """What is sent waits until so many calls found nothing; what was sent in between waits with it."""
    row = Row("commands_wait_for_more")
    begin(row, [])
    row.call("link patience", str(PATIENCE))
    row.call("link send 0.0.0 0 plain SET a 1")
    row.call("link send 0.0.1 0 plain SET a 1")
    row.call("link receive", "none")
    row.call("link send 0.0.2 0 plain SET a 1")
    for _ in range(PATIENCE + 1):
        row.call("link written", '""')
        row.call("link receive", "none")
    row.call("link written", quoted(SET * 3))
    return row


def pieces_in_order():
    """Three values of 64 KiB wait apart, and go out in order over a stream that takes a byte at each second write."""
    row = Row("values_of_64_kib_go_out_in_order", note="3 times 65,536 bytes")
    begin(row, ["slow"], "port")
    sent = b""
    for part, letter in enumerate("abc"):
        row.call(f"port send 0.0.{part} 0 plain SET a {letter * 65_536}")
        sent += request(b"SET", b"a", letter.encode() * 65_536)
    row.call("port writes", "2")
    row.call("port written", "*")
    row.call(f"port wait {2 * len(sent)}", "none")
    row.call("port written", quoted(sent))
    return row


def large_words_in_parts():
    """Values of 300,000 bytes among small words go out in order over a stream that takes 1,000 bytes at once."""
    row = Row("values_of_300000_bytes_go_out_in_parts", note="3 values of 300,000 bytes, 1,000 bytes at once")
    begin(row, ["moves 1000"], "port")
    x, y, z = (letter * 300_000 for letter in "xyz")
    row.call("port send 0.0.0 0 plain SET a 1")
    row.call(f"port send 0.0.1 0 plain SET a {x} NX")
    row.call(f"port send 0.0.2 0 plain MSET {{a}}1 {y} {{a}}2 2 {{a}}3 {z}")
    row.call("port send 0.0.3 0 plain GET a")
    sent = request(b"SET", b"a", b"1") + request(b"SET", b"a", x.encode(), b"NX")
    sent += request(b"MSET", b"{a}1", y.encode(), b"{a}2", b"2", b"{a}3", z.encode()) + request(b"GET", b"a")
    row.call(f"port wait {len(sent) // 1000 + 20}", "none")
    row.call("port written", quoted(sent))
    return row


def large_word_in_one_write():
    """What stands before a large value goes out with it by one write, and the rest of the request with the next call."""
    row = Row("a_value_of_300000_bytes_goes_out_in_two_writes", note="a value of 300,000 bytes")
    begin(row, [], "port")
    value = "x" * 300_000
    row.call(f"port send 0.0.0 0 plain SET a {value}")
    row.call("port next", "none")
    row.call("port writes", "1")
    row.call("port next", "none")
    row.call("port writes", "2")
    row.call("port written", quoted(request(b"SET", b"a", value.encode())))
    return row


def last_new_node():
    """MOVED to one new port after the other in a table of three nodes: 61 fit, and the next has no room."""
    row = Row("last_new_node_has_no_room")
    for node in range(3):
        row.call(f"table intern 127.0.0.1 {7001 + node}", str(node))
    for node in range(3, 64):
        row.call(f'told by 0 "MOVED 1 127.0.0.1:{7998 + node}"', f"moved 1 {node}")
    row.call('told by 0 "MOVED 1 127.0.0.1:8062"', "unclear")
    row.call('told by 0 "MOVED 1 127.0.0.1:8061"', "moved 1 63")
    return row


def rows():
    return [
        one_byte_at_a_time(),
        one_byte_at_a_time_to_a_port(),
        get_is_written("get_of_an_absent_key", []),
        get_is_written("get_of_an_absent_key_byte_by_byte", ["slow"]),
        follows_moved_byte_by_byte(),
        failing_stream(),
        failing_stream_of_a_port(),
        tickets_of_a_stream_that_fails(),
        changed_bytes(),
        thousand_commands(),
        thousand_commands_byte_by_byte(),
        commands_that_wait(),
        pieces_in_order(),
        large_words_in_parts(),
        large_word_in_one_write(),
        last_new_node(),
    ]
