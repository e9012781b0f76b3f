"""Many nodes, and changed answers to CLUSTER SLOTS, for slot_map."""

from table import Row, quoted, word
from wire import SLOTS, changed, values_in


def full_table():
    """64 nodes: one that is held gets its number, a new one is refused, by a reply to CLUSTER SLOTS too."""
    row = Row("a_full_table")
    for port in range(1, 65):
        row.call(f"table intern a {port}", str(port - 1))
    row.call("table intern a 64", "63")
    row.call("table intern a 65", "TooManyNodes")
    row.call("table beside 63 1", "0")
    row.call("table beside 63 65", "TooManyNodes")
    row.call('value read "*1\\r\\n*3\\r\\n:0\\r\\n:1\\r\\n*2\\r\\n$-1\\r\\n:65\\r\\n"')
    row.call("map read 63", "TooManyNodes")
    row.call("table endpoint 63", "a 64")
    row.call("slot node 63", "63")
    row.call("slot node 64", "none")
    return row


# The node that is asked, of number 0.
ASKED = (b"127.0.0.1", 7001)


def read_slots(value):
    """The ranges that an answer to CLUSTER SLOTS gives to nodes, and the nodes by their numbers; or the fault's name."""
    kind, *held = value
    if kind != "array":
        return "NotSlots"
    ranges, nodes = [], [ASKED]
    for entry in held[0]:
        found = entry_in(entry)
        if isinstance(found, str):
            return found
        first, last, node = found
        if node not in nodes:
            nodes.append(node)
        ranges.append((first, last, nodes.index(node)))
    return ranges, nodes


def entry_in(entry):
    """First the entry's shape, then its numbers."""
    match entry:
        case ("array", [("integer", first), ("integer", last), ("array", [("bulk" | "null", *host), ("integer", port), *_]), *_]):
            host = host[0] if host else b""
            if set(host) & set(b"\r\n"):
                return "NotSlots"
            if not 0 <= first <= last < 16384 or not 0 < port < 65536:
                return "BadRange"
            return first, last, (ASKED[0] if host in (b"", b"?") else host, port)
    return "NotSlots"


def changed_answers():
    """An answer with a byte replaced is read by its rules or refused; a refused one leaves the table."""
    texts = [(data, values_in(data)[0]) for data in changed(SLOTS)]
    whole = [(data, values[0][0]) for data, values in texts if values]
    row = Row("changed_answers_are_read_or_refused", note=f"{len(whole)} values")
    for data, value in whole:
        row.call("table new")
        row.call(f"table intern {word(ASKED[0])} {ASKED[1]}", "0")
        row.call("value read " + quoted(data))
        found = read_slots(value)
        ranges, nodes = ([], [ASKED]) if isinstance(found, str) else found
        shown = " ".join(["ops", *("range %d %d %d" % each for each in ranges)])
        row.call("map read 0", found if isinstance(found, str) else shown)
        for number in range(3):
            row.call(f"table endpoint {number}", f"{word(nodes[number][0])} {nodes[number][1]}" if number < len(nodes) else "none")
    return row


def rows():
    return [full_table(), changed_answers()]
