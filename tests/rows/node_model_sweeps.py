"""The node of each slot before, in and after a move, for node_model."""

from table import Row

OWNERS = [(0, 5460, 0), (5461, 10922, 1), (10923, 16383, 2)]


def listing():
    """A listing that is read gives each slot the node that owns it, or gives it away."""
    row = Row("listing_that_is_read_gives_the_owners_back")
    for node in range(3):
        row.call(f"table intern 127.0.0.1 {7001 + node}", str(node))
    make(row)
    read_back(row, {})
    make(row)
    for step in ("import 0 1", "migrate 0"):
        row.call("cluster " + step)
    read_back(row, {})
    make(row)
    for step in ("import 0 1", "migrate 0", "own 0", "release 0"):
        row.call("cluster " + step)
    read_back(row, {0: 1})
    return row


def make(row):
    row.call("map new")
    for first, last, node in OWNERS:
        row.call(f"map range {first} {last} {node}")
    row.call("cluster new 3")


def read_back(row, moved):
    """Reads the listing into an empty map, and asks that of each slot."""
    row.call("cluster slots", listed(moved))
    row.call("map new")
    row.call("map read 0", "ops " + " ".join("range %d %d %d" % each for each in ranges(moved)))
    for first, last, node in ranges(moved):
        for slot in range(first, last + 1):
            row.call(f"map node {slot}", str(node))


def ranges(moved):
    """The ranges of the opening cluster, without the slots at its beginning that moved."""
    first = [(slot, slot, node) for slot, node in sorted(moved.items())]
    return first + [(len(first), OWNERS[0][1], 0)] + OWNERS[1:]


def listed(moved):
    entries = [
        f"array [ integer {first} integer {last} "
        f"array [ bulk 127.0.0.1 integer {7001 + node} bulk n{node} ] ]"
        for first, last, node in ranges(moved)
    ]
    return "array [ " + " ".join(entries) + " ]"


def rows():
    return [listing()]
