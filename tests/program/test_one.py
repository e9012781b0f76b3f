"""`one`: the first request of standard input, answered from an empty store."""

import fcntl
import itertools
import socket
import struct
import subprocess
import termios
import time

from program import INPUT_LIMIT, LIMIT, PROGRAM, Runs, pairs_of, swept
from wire import REQUESTS, changed, counted, request_of, values_in

SET = b"*3\r\n$3\r\nSET\r\n$1\r\na\r\n$1\r\n1\r\n"

REPLIES = {b"SET": b"+OK\r\n", b"GET": b"$-1\r\n", b"PING": b"+PONG\r\n"}
PROTOCOL = b"-ERR proxy: protocol error\r\n"


def answer_to(data):
    """The status and what is written for bytes that begin with a request of a name in REPLIES, or of no name that there is."""
    values, fault = values_in(data)
    for words in (request_of(value) for value, _ in values):
        if words is None:
            return 1, PROTOCOL
        if words:
            return 0, REPLIES.get(words[0], b"-ERR unknown command\r\n")
    return 1, PROTOCOL if fault else b""


def wait_until_read(source, program=None):
    """Until nothing that was sent lies unread in a pipe, or the program has ended."""
    end = time.monotonic() + LIMIT
    while struct.unpack("i", fcntl.ioctl(source, termios.FIONREAD, bytes(4)))[0]:
        if program and program.poll() is not None:
            return
        if time.monotonic() > end:
            raise TimeoutError("the program does not read")
        time.sleep(0.0005)


class One(Runs):
    def test_answers_of_an_empty_store(self):
        for given, status, written in [
            (b"*2\r\n$3\r\nGET\r\n$1\r\na\r\n", 0, b"$-1\r\n"),
            (SET, 0, b"+OK\r\n"),
            (b"*3\r\n$4\r\nMGET\r\n$1\r\na\r\n$1\r\nb\r\n", 0, b"*2\r\n$-1\r\n$-1\r\n"),
            (b"*2\r\n$6\r\nSELECT\r\n$1\r\n1\r\n", 0, b"-ERR SELECT is not allowed in cluster mode\r\n"),
            (b"*1\r\n$3\r\nFOO\r\n", 0, b"-ERR unknown command\r\n"),
            (b"*0\r\n*-1\r\n*1\r\n$4\r\nPING\r\n*1\r\n$4\r\nQUIT\r\n", 0, b"+PONG\r\n"),
            (b"*1\r\n$-1\r\n", 1, b"-ERR proxy: protocol error\r\n"),
            (b"?", 1, b"-ERR proxy: protocol error\r\n"),
            (b"*2\r\n$3\r\nGET\r\n$1\r\na\r", 1, b""),
            (b"", 1, b""),
        ]:
            with self.subTest(given=given):
                self.check(["one"], given, status, written)

    def test_replies_of_a_real_server(self):
        """What redis-server 7.0.15 (Debian 12) answered to each request on an empty database.

        For each request a new connection sent FLUSHALL and then the request. Requests whose reply hangs on what the
        command table leaves out (unknown names, SELECT of another database) are not among them.
        """
        rows = pairs_of("one_replies.txt")
        self.assertEqual(len(rows), 151)
        for given, written in rows:
            with self.subTest(given=given):
                self.check(["one"], given, 0, written)

    def test_a_request_cut_in_two_at_every_place(self):
        for place in range(len(SET) + 1):
            with self.subTest(place=place), self.start() as program:
                program.stdin.write(SET[:place])
                program.stdin.flush()
                wait_until_read(program.stdin)
                written, _ = program.communicate(SET[place:], timeout=LIMIT)
                self.assertEqual((program.returncode, written), (0, b"+OK\r\n"))

    def test_changed_requests(self):
        """Whole and byte by byte: the reply, the named error or an end."""
        began, texts = time.monotonic(), [SET, REQUESTS]
        for data in itertools.chain(*map(changed, texts)):
            with self.subTest(data=data):
                self.check(["one"], data, *answer_to(data))
                self.assertEqual(self.given_byte_by_byte(data), answer_to(data))
        swept(f"changed requests of one, {counted(texts)}, twice", began)

    def given_byte_by_byte(self, data):
        """The status and what is written, where each byte is read before the next is given."""
        with self.start() as program:
            try:
                for place in range(len(data)):
                    program.stdin.write(data[place : place + 1])
                    wait_until_read(program.stdin, program)
            except BrokenPipeError:
                pass  # it has ended
            written, _ = program.communicate(timeout=LIMIT)
        return program.returncode, written

    def test_a_read_that_fails(self):
        self.check_failed_read(["one"], b"")

    def test_a_read_that_fails_in_the_middle_of_a_request(self):
        with socket.create_server(("127.0.0.1", 0)) as listener, socket.create_connection(listener.getsockname()) as sender:
            receiver, _ = listener.accept()
            with receiver, self.start(stdin=receiver) as program:
                sender.sendall(SET[:10])
                wait_until_read(receiver)
                # closed so, the connection is reset
                sender.setsockopt(socket.SOL_SOCKET, socket.SO_LINGER, struct.pack("ii", 1, 0))
                sender.close()
                written, _ = program.communicate(timeout=LIMIT)
        self.assertEqual((program.returncode, written), (1, b""))

    def test_a_write_that_fails(self):
        self.check_failed_write(["one"], b"*1\r\n$4\r\nPING\r\n")

    def test_an_input_without_a_request_ends(self):
        """No more than the limit is read, though more would come."""
        with self.start() as program:
            with self.assertRaises(BrokenPipeError):
                program.stdin.write(b"*2\r\n$3\r\nGET\r\n$2000000\r\n")
                for _ in range(INPUT_LIMIT):
                    program.stdin.write(b"a" * 4096)
            self.assertEqual((program.wait(LIMIT), program.stdout.read()), (1, b""))

    def start(self, stdin=subprocess.PIPE):
        return subprocess.Popen([PROGRAM, "one"], bufsize=0, stdin=stdin, stdout=subprocess.PIPE)
