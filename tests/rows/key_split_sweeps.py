"""Names in each case, and a request of many keys, for key_split."""

from binascii import crc_hqx

from table import Row

NAMES = "Get Set SetNx GetSet GetDel Append StrLen Incr Decr IncrBy Del Exists MGet MSet Ping Echo Select Quit".split()


def names_in_each_case():
    row = Row("names_in_each_case")
    for name in NAMES:
        for word in (name.upper(), name.upper()[0] + name.lower()[1:], name.lower()):
            row.call("plan name " + word, name)
    row.call("plan name HELLO", "none")
    return row


def slot_of(key):
    """The slot of a key without braces: CRC-16 in its XMODEM form, modulo 16,384."""
    return crc_hqx(key.encode(), 0) % 16384


def ten_thousand_keys():
    """Each key's place names the part of its slot, and the parts stand in the order of their first keys."""
    keys = [str(number) for number in range(10_000)]
    slots = list(dict.fromkeys(slot_of(key) for key in keys))
    numbers = {slot: number for number, slot in enumerate(slots)}
    parts = [["MGET"] for _ in slots]
    places = []
    for key in keys:
        places.append(str(numbers[slot_of(key)]))
        parts[numbers[slot_of(key)]].append(key)
    answer = " ; ".join(["array " + " ".join(places)] + [" ".join(part) for part in parts])
    row = Row("ten_thousand_keys_within_a_second", seconds=1.0)
    row.call("plan of MGET " + " ".join(keys), answer)
    return row


def rows():
    return [names_in_each_case(), ten_thousand_keys()]
