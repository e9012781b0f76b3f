"""`nodes`: plain connections to the nodes of the example cluster."""

import unittest

from sockets import connection, heard, nodes, peak_memory, request

# Commands that a node executes, and how many of them go in one pipeline.
COMMANDS = 300_000
PIPELINE = 1_000

# MiB by which they may make the process grow.
MOST_GROWN = 4


# Commands that wait between MULTI and EXEC at most.
MOST_QUEUED = 1_024

OK, QUEUED = b"+OK\r\n", b"+QUEUED\r\n"
ABORTED = b"-EXECABORT Transaction discarded because of previous errors.\r\n"
KEYS_ONLY = b"-ERR node: only commands on keys between MULTI and EXEC\r\n"


def block(*requests):
    """The bytes of MULTI, these requests, and EXEC."""
    return request("MULTI") + b"".join(requests) + request("EXEC")


class Nodes(unittest.TestCase):
    def test_a_node_sends_to_the_owner_and_takes_one_key(self):
        sent = request("GET", "a") + request("MGET", "a", "b") + request("QUIT")
        with nodes() as [first, _, (port, _)]:
            wanted = b"-MOVED 15495 127.0.0.1:%d\r\n-ERR node: one key only\r\n+OK\r\n" % port
            self.assertEqual(heard(first, sent), wanted)

    def test_an_owner_answers_until_the_bytes_are_no_value(self):
        """An empty array is passed over. The connection ends behind the byte that begins no value."""
        sent = request("SET", "a", "1") + b"*0\r\n" + request("asking") + request("GET", "a") + request("FOO") + request("PING") + b"?"
        wanted = b"+OK\r\n+OK\r\n$1\r\n1\r\n-ERR unknown command\r\n+PONG\r\n-ERR protocol error\r\n"
        with nodes() as [_, _, last]:
            self.assertEqual(heard(last, sent), wanted)

    def test_commands_that_were_executed_take_no_memory(self):
        """All set one key, so behind the last command there is as much to hold as behind the first."""
        sent, wanted = PIPELINE * request("SET", "a", "1"), PIPELINE * b"+OK\r\n"
        with nodes() as [_, _, (port, server)], connection(port, server) as client, client.makefile("rb") as replies:
            held = []
            for _ in range(COMMANDS // PIPELINE):
                client.sendall(sent)
                self.assertEqual(replies.read(len(wanted)), wanted)
                held.append(peak_memory(server))
        print(f"nodes: {held[0]} MiB held behind {PIPELINE} commands, {held[-1]} MiB behind {COMMANDS}")
        self.assertLessEqual(held[-1], held[0] + MOST_GROWN)


class Blocks(unittest.TestCase):
    """The commands between MULTI and EXEC. The keys a and i are of two slots of the last node, and b is of the first."""

    def assert_heard(self, sent, wanted):
        """The last node of a new cluster answers a connection so."""
        with nodes() as [_, _, last]:
            self.assertEqual(heard(last, sent + request("QUIT")), wanted + OK)

    def test_commands_are_executed_in_order_with_one_error_among_them(self):
        sent = block(request("SET", "a", "x"), request("INCR", "a"), request("APPEND", "a", "y"), request("get", "a"))
        wanted = b"*4\r\n+OK\r\n-ERR value is not an integer or out of range\r\n:2\r\n$2\r\nxy\r\n"
        self.assert_heard(sent, OK + 4 * QUEUED + wanted)

    def test_what_waits_is_not_executed_before_exec(self):
        with nodes() as [_, _, (port, server)], connection(port, server) as client, client.makefile("rb") as replies:
            client.sendall(request("MULTI") + request("SET", "a", "1"))
            self.assertEqual(replies.read(len(OK + QUEUED)), OK + QUEUED)
            self.assertEqual(heard((port, server), request("GET", "a") + request("QUIT")), b"$-1\r\n" + OK)
            client.sendall(request("EXEC"))
            self.assertEqual(replies.read(9), b"*1\r\n" + OK)

    def test_a_refused_command_makes_exec_abort(self):
        cases = [
            (request("GET"), b"-ERR wrong number of arguments for 'get' command\r\n"),
            (request("FOO"), b"-ERR unknown command\r\n"),
            (request("MGET", "a", "i"), b"-ERR node: one key only\r\n"),
            (request("PING"), KEYS_ONLY),
            (request("ASKING"), KEYS_ONLY),
            (request("CLUSTER", "SLOTS"), KEYS_ONLY),
        ]
        for refused, told in cases:
            with self.subTest(told=told):
                sent = block(request("SET", "a", "1"), refused, request("SET", "a", "2")) + request("GET", "a")
                self.assert_heard(sent, OK + QUEUED + told + QUEUED + ABORTED + b"$-1\r\n")

    def test_a_key_of_another_node_makes_exec_abort(self):
        with nodes() as [(port, _), _, last]:
            moved = b"-MOVED 3300 127.0.0.1:%d\r\n" % port
            sent = block(request("SET", "a", "1"), request("SET", "b", "1")) + request("GET", "a") + request("QUIT")
            self.assertEqual(heard(last, sent), OK + QUEUED + moved + ABORTED + b"$-1\r\n" + OK)

    def test_discard_forgets_the_commands(self):
        sent = request("MULTI") + request("SET", "a", "1") + request("DISCARD") + request("GET", "a") + block()
        self.assert_heard(sent, OK + QUEUED + OK + b"$-1\r\n" + OK + b"*0\r\n")

    def test_multi_exec_and_discard_out_of_their_place(self):
        sent = request("EXEC") + request("DISCARD") + block(request("multi"), request("SET", "a", "1"))
        wanted = b"-ERR EXEC without MULTI\r\n-ERR DISCARD without MULTI\r\n" + OK
        self.assert_heard(sent, wanted + b"-ERR MULTI calls can not be nested\r\n" + QUEUED + b"*1\r\n" + OK)

    def test_commands_of_two_slots_are_not_executed(self):
        sent = block(request("SET", "a", "1"), request("SET", "i", "1")) + request("GET", "a") + request("GET", "i")
        crossed = b"-CROSSSLOT Keys in request don't hash to the same slot\r\n"
        self.assert_heard(sent, OK + 2 * QUEUED + crossed + 2 * b"$-1\r\n")

    def test_as_many_commands_wait_as_may(self):
        most = MOST_QUEUED * request("INCR", "a")
        numbers = b"".join(b":%d\r\n" % (number + 1) for number in range(MOST_QUEUED))
        self.assert_heard(block(most), OK + MOST_QUEUED * QUEUED + b"*%d\r\n" % MOST_QUEUED + numbers)
        too_many = b"-ERR node: too many commands between MULTI and EXEC\r\n"
        sent = block(most, request("INCR", "a")) + request("GET", "a")
        self.assert_heard(sent, OK + MOST_QUEUED * QUEUED + too_many + ABORTED + b"$-1\r\n")

    def test_quit_closes_at_once(self):
        self.assert_heard(request("MULTI") + request("SET", "a", "1"), OK + QUEUED)
