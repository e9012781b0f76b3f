"""redis-py: words say which reader of replies it uses, and the port."""

import sys

import redis
from redis.connection import HiredisParser, PythonParser

parser, port = {"python": PythonParser, "hiredis": HiredisParser}[sys.argv[1]], int(sys.argv[2])
pool = redis.ConnectionPool(host="127.0.0.1", port=port, parser_class=parser)
client = redis.Redis(connection_pool=pool)

assert client.ping()
assert client.set("key:0", "hello") and client.get("key:0") == b"hello"
assert client.get("key:1") is None
assert client.set("key:0", "other", nx=True) is None

pipeline = client.pipeline(transaction=False)
for number in range(200):
    pipeline.set(f"key:{number}", f"value {number}")
for number in range(200):
    pipeline.get(f"key:{number}")
assert pipeline.execute() == [True] * 200 + [b"value %d" % number for number in range(200)]

large = bytes(range(256)) * 16384
assert client.set("key:7", large) and client.get("key:7") == large
assert client.mset({"key:1": "a", "key:2": "b"}) and client.mget("key:1", "key:2", "nothing") == [b"a", b"b", None]
assert [client.incr("counter") for _ in range(3)] == [1, 2, 3]
assert client.delete("key:1", "key:2", "nothing") == 2
try:
    client.incr("key:3")
    raise AssertionError("no error")
except redis.ResponseError as error:
    assert "not an integer" in str(error)
print("ok")
