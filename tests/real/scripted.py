"""A node that answers by a script: it shows exactly what the proxy sends, and when."""

import queue
import socket
import threading

from client import end_of_reply, value_of

SLOTS_REQUEST = [b"CLUSTER", b"SLOTS"]


def bulk(word):
    return b"$%d\r\n%s\r\n" % (len(word), word)


def slots_reply(ranges):
    """CLUSTER SLOTS with entries (first, last, port)."""
    entries = b"".join(b"*3\r\n:%d\r\n:%d\r\n*3\r\n$9\r\n127.0.0.1\r\n:%d\r\n$2\r\nid\r\n" % it for it in ranges)
    return b"*%d\r\n%s" % (len(ranges), entries)


class ScriptedNode:
    """Listens on loopback. `answer(words)` gives the bytes of a reply, or its pieces one after another, or None to close the
    connection; `refusal(words)` the bytes of an error in its place, or None. `read(connection)` gives the next bytes of requests.

    The commands between MULTI and EXEC are answered once EXEC has come: +QUEUED or their refusal, and then EXEC's array of their
    replies, or EXECABORT. Where `block(commands)` is given, it gives all these replies, and that to MULTI. One that is `plain` has no
    MULTI.

    `seen` has the words of every request but CLUSTER SLOTS, each with its connection's number, in order.
    """

    def __init__(self, answer, slots=None, listener=None, refusal=None, block=None, plain=False, read=None):
        self.answer, self.slots, self.seen, self.asked_slots = answer, slots, [], 0
        self.refusal, self.block, self.plain = refusal or (lambda words: None), block or self.played, plain
        self.read = read or (lambda connection: connection.recv(1 << 16))
        self.listener = listener or socket.create_server(("127.0.0.1", 0))
        self.port = self.listener.getsockname()[1]
        self.connections, self.open, self.lock = 0, [], threading.Lock()
        threading.Thread(target=self.accept, daemon=True).start()

    def accept(self):
        try:
            while True:
                connection, _ = self.listener.accept()
                connection.setsockopt(socket.IPPROTO_TCP, socket.TCP_NODELAY, 1)
                self.open.append(connection)
                threading.Thread(target=self.serve, args=(connection, self.connections), daemon=True).start()
                self.connections += 1
        except OSError:
            pass

    def serve(self, connection, number):
        """Notes each request when it comes, and has another thread answer them in order."""
        held, coming = b"", queue.SimpleQueue()
        threading.Thread(target=self.answer_all, args=(connection, coming), daemon=True).start()
        try:
            while piece := self.read(connection):
                held += piece
                while (end := end_of_reply(held, 0)) is not None:
                    words, held = value_of(held[:end]), held[end:]
                    with self.lock:
                        if words == SLOTS_REQUEST:
                            self.asked_slots += 1
                        else:
                            self.seen.append((number, words))
                    coming.put(words)
        except OSError:
            pass
        coming.put(None)

    def answer_all(self, connection, coming):
        commands = None
        try:
            while words := coming.get():
                if words == [b"MULTI"] and not self.plain:
                    commands = []
                elif commands is not None and words != [b"EXEC"]:
                    commands.append(words)
                else:
                    reply = self.reply(words) if commands is None else self.block(commands)
                    commands = None
                    if reply is None:
                        connection.shutdown(socket.SHUT_RDWR)
                        break
                    for piece in [reply] if isinstance(reply, bytes) else reply:
                        connection.sendall(piece)
        except OSError:
            pass
        connection.close()

    def reply(self, words):
        if words == SLOTS_REQUEST:
            return self.slots() if self.slots else b"-ERR no slots here\r\n"
        if words in ([b"MULTI"], [b"EXEC"]):
            return b"-ERR unknown command '%s'\r\n" % words[0]
        return self.refusal(words) or self.answer(words)

    def played(self, commands):
        """The replies to MULTI, these commands and EXEC; None where one of them closes the connection."""
        refusals = [self.refusal(words) for words in commands]
        queued = [it or b"+QUEUED\r\n" for it in refusals]
        if any(refusals):
            return b"".join([b"+OK\r\n", *queued, b"-EXECABORT Transaction discarded because of previous errors.\r\n"])
        replies = [self.answer(words) for words in commands]
        return None if None in replies else b"".join([b"+OK\r\n", *queued, b"*%d\r\n" % len(replies), *replies])

    def words_seen(self):
        with self.lock:
            return [words for _, words in self.seen]

    def close(self):
        # a listener that is only closed takes one more connection, since a thread waits at it
        for it in [self.listener, *self.open]:
            try:
                it.shutdown(socket.SHUT_RDWR)
            except OSError:
                pass
        self.listener.close()


class DeafNode:
    """A port whose queue of connections is full, so that a dial to it neither succeeds nor fails."""

    def __init__(self):
        self.listener = socket.socket()
        self.listener.bind(("127.0.0.1", 0))
        self.listener.listen(0)
        self.port = self.listener.getsockname()[1]
        self.waiting = []
        for _ in range(4):
            dial = socket.socket()
            dial.setblocking(False)
            dial.connect_ex(("127.0.0.1", self.port))
            self.waiting.append(dial)

    def close(self):
        for it in [self.listener, *self.waiting]:
            it.close()
