"""Wanted answers that a test tells, and what one store replies."""

import re
from binascii import crc_hqx


class Fitting(str):
    """A wanted answer for which any answer will do that passes a test."""

    def __new__(cls, text, test):
        self = super().__new__(cls, text)
        self.test = test
        return self

    def __eq__(self, answer):
        return self.test(answer)

    __hash__ = str.__hash__


def one_of(*answers):
    return Fitting(" or ".join(answers), lambda answer: str(answer) in answers)


def spelled(reply):
    """The bytes of a reply of the store."""
    kind, _, rest = reply.partition(" ")
    if kind == "array":
        items = rest.split(" | ")
        return b"*%d\r\n" % len(items) + b"".join(map(spelled, items))
    if kind == "bulk":
        return b"$%d\r\n%s\r\n" % (len(rest), rest.encode())
    return {"simple": b"+", "error": b"-", "integer": b":", "null": b"$-1"}[kind] + rest.encode() + b"\r\n"


def slot_of(key):
    tag = re.search("{(.+?)}", key)
    return crc_hqx((tag.group(1) if tag else key).encode(), 0) % 16384
