"""The table of the commands that are passed on whole, beside what a server says of its commands."""

import re
from pathlib import Path

from harness import case, check, check_same

TABLE = Path(__file__).resolve().parents[2] / "crates/relayed_keys/src/table.rt"
ROW = re.compile(r'^ +\("([a-z_|]+)", (Exactly|AtLeast)\((\d+)\), (\w+)(?:\(([^)]*)\))?\),$', re.MULTILINE)

# Commands with keys that are not in the table, and why.
LEFT_OUT = {
    "the proxy knows it": "append decr del exists get getdel getset incr incrby mget mset setnx strlen",
    "goes to each slot by itself, as DEL and EXISTS do": "touch unlink",
    "waits": "blmove blmpop blpop brpop brpoplpush bzmpop bzpopmax bzpopmin",
    "belongs to a connection": "watch",
    "belongs to subscriptions": "spublish ssubscribe sunsubscribe",
    "belongs to a cluster": "migrate restore-asking",
    "names another database": "move",
    "is for those who debug a server": "pfdebug",
}
# Requests that a server refuses for their number of keys, or for want of an ID, and its text.
REFUSED = """
EVAL x one a|ERR value is not an integer or out of range
EVAL x 01 a|ERR value is not an integer or out of range
EVAL x -1 a|ERR Number of keys can't be negative
EVAL x 2 a|ERR Number of keys can't be greater than number of args
FCALL relay_none one a|ERR Bad number of keys provided
FCALL relay_none -1 a|ERR Number of keys can't be negative
FCALL relay_none 2 a|ERR Number of keys can't be greater than number of args
ZUNION one a|ERR value is not an integer or out of range
ZUNION -1 a|ERR at least 1 input key is needed for 'zunion' command
ZUNION 0 a|ERR at least 1 input key is needed for 'zunion' command
ZUNION 2 a|ERR syntax error
ZDIFFSTORE a 0 a|ERR at least 1 input key is needed for 'zdiffstore' command
ZDIFFSTORE a 2 a|ERR syntax error
ZINTERCARD 0 a|ERR at least 1 input key is needed for 'zintercard' command
SINTERCARD one a|ERR numkeys should be greater than 0
SINTERCARD -1 a|ERR numkeys should be greater than 0
SINTERCARD 0 a|ERR numkeys should be greater than 0
SINTERCARD 2 a|ERR Number of keys can't be greater than number of args
LMPOP one a LEFT|ERR numkeys should be greater than 0
LMPOP 0 a LEFT|ERR numkeys should be greater than 0
LMPOP 3 a LEFT|ERR syntax error
ZMPOP -1 a MIN|ERR numkeys should be greater than 0
ZMPOP 3 a MIN|ERR syntax error
XREAD COUNT 1 a|ERR syntax error
XREAD COUNT 1 STREAMS|ERR syntax error
XREAD STREAMS a b 0|ERR Unbalanced XREAD list of streams: for each stream key an ID or '$' must be specified.
XREADGROUP GROUP g c STREAMS a b 0|ERR Unbalanced XREAD list of streams: for each stream key an ID or '$' must be specified.
OBJECT ENCODING|ERR wrong number of arguments for 'object|encoding' command
SORT|ERR wrong number of arguments for 'sort' command
""".strip().splitlines()
FUNCTION = "#!lua name=relay_none\nredis.register_function('relay_none', function() return 1 end)"


def rows():
    """The table: for each command its arity as COMMAND gives it, and where its keys stand with the numbers there."""
    text = TABLE.read_text(encoding="utf-8")
    table = {}
    for command, count, words, places, numbers in ROW.findall(text):
        check(command not in table, f"{command} has two rows")
        arity = int(words) if count == "Exactly" else -int(words)
        table[command] = arity, places, [int(it) for it in re.findall(r"\d+", numbers)]
    check_same(len(table), int(re.search(r"NAMES: \[&str; (\d+)\]", text)[1]), "the rows that were read")
    return table


def named(items):
    """A list of names and values in turn, by the names."""
    return {name.decode(): value for name, value in zip(items[::2], items[1::2])}


def key_specs(entry):
    """Where COMMAND says that keys stand: how the search begins and how keys are found, with the numbers of both."""
    found = []
    for spec in map(named, entry[8]):
        begins, finds = named(spec["begin_search"]), named(spec["find_keys"])
        parts = [begins["type"], *named(begins["spec"]).values(), finds["type"], *named(finds["spec"]).values()]
        found.append(tuple(it.decode() if isinstance(it, bytes) else it for it in parts))
    return found


def commands(entries):
    """COMMAND's entries by their names, subcommands among them."""
    found = {}
    for entry in entries:
        found[entry[0].decode()] = entry
        found.update(commands(entry[9]))
    return found


def wanted(places, numbers):
    """First key, last key and step as COMMAND gives them, whether it says that keys move, and the key specifications; None: any."""
    if places == "At":
        return (*numbers, 1), False, None
    if places == "ToEnd":
        return (numbers[0], -1, numbers[1]), False, None
    if places == "Counted":
        return (0, 0, 0), True, [("index", numbers[0], "keynum", 0, 1, 1)]
    first = ("index", 1, "range", 0, 1, 0)
    if places == "CountedInto":
        return (1, 1, 1), True, [first, ("index", numbers[0], "keynum", 0, 1, 1)]
    if places == "Stored":
        return (1, 1, 1), True, [first] + [("keyword", word, numbers[0], "range", 0, 1, 0) for word in ["STORE", "STOREDIST"]]
    if places == "Sorted":
        return (1, 1, 1), True, None
    check_same(places, "Streams", "where keys stand")
    return (0, 0, 0), True, [("keyword", "STREAMS", numbers[0], "range", -1, 1, 2)]


@case
def relay_table_is_the_servers(world):
    known = commands(world.plain.value("COMMAND"))
    for command, (arity, places, numbers) in rows().items():
        entry = known.get(command)
        check(entry is not None, f"{command}: no server has it")
        flags = {str(it) for it in entry[2]}
        span, moves, specs = wanted(places, numbers)
        check_same(entry[1], arity, f"{command}: its number of words")
        check_same(tuple(entry[3:6]), span, f"{command}: first key, last key, step")
        check_same("movablekeys" in flags, moves, f"{command}: whether its keys move")
        check_same("blocking" in flags, places == "Streams", f"{command}: whether it may wait")
        check(specs in (None, key_specs(entry)), f"{command}: its keys are {key_specs(entry)}")


@case
def relay_table_leaves_nothing_out(world):
    known = commands(world.plain.value("COMMAND"))
    left_out = " ".join(LEFT_OUT.values()).split()
    with_keys = {command for command, entry in known.items() if entry[8]}
    check_same(sorted(with_keys - set(rows())), sorted(left_out), "commands with keys that are not in the table")
    check_same(sorted(set(rows()) - with_keys), [], "rows of commands without keys")


@case
def relay_faults_are_the_servers(world):
    world.plain.value("FUNCTION", "LOAD", "REPLACE", FUNCTION)
    with world.plain.client() as client:
        for line in REFUSED:
            words, _, text = line.partition("|")
            check_same(client.ask(*words.split()), f"-{text}\r\n".encode(), words)
