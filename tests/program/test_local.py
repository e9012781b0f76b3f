"""`local`: scripts of clients on a cluster in one process, with what is written in every order of the threads."""

import random

from program import INPUT_LIMIT, Runs, run

# Two clients, and a slot of the first that moves meanwhile.
TWO_CLIENTS = b"client\nSET a 1\nINCR a\nclient\nSET b x\nMGET b c\nmove 15495 0\n"
TWO_CLIENTS_TEXT = b"reply 0 0 simple OK\nreply 0 1 integer 2\nreply 1 0 simple OK\nreply 1 1 array bulk x | null\naudit ok\n"

# A slot that begins to move and is called back, with a client on it.
CALLED_BACK = b"client\nSET a 1\nGET a\nrecall 15495 0\n"

# What it may write. While the target has forgotten the slot and the source still sends commands to it, each node refuses a
# command of the slot, so that one is given up where the mover rests there for sixteen refusals.
GAVE_UP = b"error ERR proxy: gave up, not executed"
CALLED_BACK_TEXTS = [
    b"reply 0 0 simple OK\nreply 0 1 bulk 1\naudit ok\n",
    b"reply 0 0 %s\nreply 0 1 null\naudit ok\n" % GAVE_UP,
    b"reply 0 0 %s\nreply 0 1 %s\naudit ok\n" % (GAVE_UP, GAVE_UP),
]

# A request of every kind, a client that asks nothing, and one that leaves.
EVERY_KIND = b"""client
SET key old
GET key
GET none
STRLEN key
DEL key none key
EXISTS key
MGET none none
MSET a 1 b 2
ECHO hello
SET key
SET key x EX 5
INCRBY key 01
FOO
client
client
PING
QUIT
GET key
"""
EVERY_KIND_TEXT = b"""reply 0 0 simple OK
reply 0 1 bulk old
reply 0 2 null
reply 0 3 integer 3
reply 0 4 integer 1
reply 0 5 integer 0
reply 0 6 array null | null
reply 0 7 simple OK
reply 0 8 bulk hello
reply 0 9 error ERR wrong number of arguments for 'set' command
reply 0 10 error ERR syntax error
reply 0 11 error ERR value is not an integer or out of range
reply 0 12 error ERR unknown command
reply 2 0 simple PONG
reply 2 1 simple OK
audit ok
"""

# Scripts with lines that do not fit, and the lowest of these.
BAD_LINES = [
    (b"GET a\n", 1),
    (b"move 15495 0\nGET a\nclient\n", 2),
    (b"client x\n", 1),
    (b"client\nclient\nclient client\n", 3),
    (b"\n", 1),
    (b"client\n\nGET a\n", 2),
    (b"client\nGET  a\n", 2),
    (b"client\n GET a\n", 2),
    (b"client\nGET a \n", 2),
    (b"client\nGET\ta\n", 2),
    (b"client\r\nGET a\n", 1),
    (b"client\nGET \x7f\n", 2),
    (b"client\nGET \x80\n", 2),
    (b"client\nGET \x00\n", 2),
    (b"client\nGET a\nGET a", 3),
    (b"client", 1),
    (b"move\n", 1),
    (b"move 15495\n", 1),
    (b"move 15495 0 1\n", 1),
    (b"move 16384 0\n", 1),
    (b"move 15495 64\n", 1),
    (b"move -1 0\n", 1),
    (b"move +1 0\n", 1),
    (b"move 1a 0\n", 1),
    (b"move 18446744073709567111 0\n", 1),
    (b"client\nmove a 0\n", 2),
    (b"recall 15495\n", 1),
    (b"recall 16384 0\n", 1),
    (b"recall 15495 64\n", 1),
    (b"client\nSET a 1\nmove 15495 0\nrecall\nFOO  \n", 4),
]

# Requests on keys of slots that move (a, b, c), of one whose move is called back (d), and of others, with their parts.
CROWD = [
    (b"SET a 5", 1),
    (b"INCR a", 1),
    (b"GET a", 1),
    (b"APPEND b x", 1),
    (b"STRLEN b", 1),
    (b"INCR c", 1),
    (b"MGET a b c", 3),
    (b"GET d", 1),
    (b"EXISTS d a", 2),
    (b"MSET {a}y 1 {a}z 2", 1),
    (b"MGET {a}y {a}z", 1),
    (b"DEL {a}y", 1),
    (b"INCR foo", 1),
    (b"PING", 0),
]

# Three slots that move, and one that is called back.
CROWD_MOVES = b"move 15495 0\nmove 3300 1\nrecall 11298 0\nmove 7365 2\n"


def local(workers):
    return ["local", "--workers", str(workers)]


def crowd(chance):
    """Twenty clients with 500 requests each."""
    return [chance.choices(CROWD, k=500) for _ in range(20)]


def crowd_script(clients):
    return b"".join(b"client\n" + b"".join(request + b"\n" for request, _ in client) for client in clients) + CROWD_MOVES


class Local(Runs):
    def test_two_clients(self):
        for workers in [1, 2, 3]:
            for _ in range(200):
                self.check(local(workers), TWO_CLIENTS, 0, TWO_CLIENTS_TEXT)

    def test_a_move_called_back(self):
        for _ in range(50):
            status, written, _ = run(local(2), CALLED_BACK)
            self.assertEqual(status, 0)
            self.assertIn(written, CALLED_BACK_TEXTS)

    def test_twenty_clients_while_slots_move(self):
        """Each request has its reply, a counter whose slot rests is counted up by one each time, and more than 9,000 parts
        are answered."""
        for start in range(20):
            clients = crowd(random.Random(start))
            status, written, _ = run(local(3), crowd_script(clients))
            lines = written.splitlines()
            self.assertEqual((status, lines.pop()), (0, b"audit ok"))
            asked = [(b"reply %d %d " % (client, place), *it) for client, its in enumerate(clients) for place, it in enumerate(its)]
            self.assertEqual(len(lines), len(asked))
            answered, counted = 0, []
            for line, (front, request, parts) in zip(lines, asked):
                self.assertTrue(line.startswith(front), (line, front))
                reply = line.removeprefix(front)
                if not reply.startswith(b"error "):
                    answered += parts
                if request == b"INCR foo":
                    counted.append(int(reply.removeprefix(b"integer ")))
            self.assertGreater(answered, 9_000)
            self.assertEqual(sorted(counted), list(range(1, len(counted) + 1)))

    def test_replies_of_every_kind(self):
        self.check(local(2), EVERY_KIND, 0, EVERY_KIND_TEXT)

    def test_moves_without_clients(self):
        """Nothing to run, and moves that can't be made: to the owner, and to a node that is not there."""
        self.check(local(1), b"", 0, b"audit ok\n")
        self.check(local(64), b"move 15495 2\nmove 15495 3\nmove 15495 1\n", 0, b"audit ok\n")

    def test_the_lowest_bad_line_is_named(self):
        for script, line in BAD_LINES:
            with self.subTest(script=script):
                self.check(local(2), script, 1, b"bad line %d\n" % line)

    def test_the_longest_script(self):
        script = b"client\nPING abc\n" + 209_712 * b"PING\n"
        self.assertEqual(len(script), INPUT_LIMIT)
        replies = [b"reply 0 %d simple PONG\n" % place for place in range(1, 209_713)]
        self.check(local(1), script, 0, b"reply 0 0 bulk abc\n" + b"".join(replies) + b"audit ok\n")
        self.check(local(1), script + b"x", 1, b"too long\n")

    def test_a_read_that_fails(self):
        self.check_failed_read(local(1), b"read failed\n")

    def test_a_write_that_fails(self):
        self.check_failed_write(local(1), b"client\nPING\n")
