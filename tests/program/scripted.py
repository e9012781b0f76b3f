"""Nodes that answer by a script, and a client that is served beside others."""

import socket
import threading
import time

from program import LIMIT
from sockets import connection
from wire import request_of, values_in


class Node:
    """Listens on loopback. `answer(words)` gives the bytes of a reply, and whether the connection is ended behind them.

    Replies go out in pieces of `piece` bytes, if that is not None. `ended` counts the connections that the other side has
    ended too.
    """

    def __init__(self, answer):
        self.answer, self.piece, self.ended, self.change = answer, None, 0, threading.Condition()
        self.listener = socket.create_server(("127.0.0.1", 0))
        self.port = self.listener.getsockname()[1]
        threading.Thread(target=self.accept, daemon=True).start()

    def __enter__(self):
        return self

    def __exit__(self, *_):
        self.listener.shutdown(socket.SHUT_RDWR)
        self.listener.close()

    def accept(self):
        try:
            while True:
                peer, _ = self.listener.accept()
                threading.Thread(target=self.serve, args=(peer,), daemon=True).start()
        except OSError:
            pass

    def serve(self, peer):
        peer.setsockopt(socket.IPPROTO_TCP, socket.TCP_NODELAY, 1)
        with peer:
            try:
                self.serve_requests(peer)
            except OSError:
                pass
        with self.change:
            self.ended += 1
            self.change.notify_all()

    def serve_requests(self, peer):
        held = b""
        while piece := peer.recv(65536):
            held += piece
            values, _ = values_in(held)
            for value, _ in values:
                reply, is_last = self.answer(request_of(value))
                send(peer, reply, self.piece)
                if is_last:
                    peer.shutdown(socket.SHUT_WR)
            held = held[values[-1][1] :] if values else held

    def wait_for_end(self, count):
        """Waits until the other side has ended so many connections."""
        with self.change:
            if not self.change.wait_for(lambda: self.ended >= count, LIMIT):
                raise TimeoutError(f"{self.ended} connections were ended, not {count}")


def send(peer, data, piece):
    """Sends bytes in pieces of this size, or all at once for None."""
    for start in range(0, len(data), piece or len(data) or 1):
        peer.sendall(data[start : start + (piece or len(data))])


class Neighbour:
    """A client that is asked nothing but the same request again and again while the block runs, and must always get the same
    reply. Afterwards it has how often it was served, and the longest that it waited, in seconds."""

    def __init__(self, at, sent, wanted):
        self.at, self.sent, self.wanted = at, sent, wanted
        self.served, self.slowest, self.found = 0, 0.0, wanted
        self.is_over, self.begun = threading.Event(), threading.Event()
        self.thread = threading.Thread(target=self.run, daemon=True)

    def __enter__(self):
        self.thread.start()
        if not self.begun.wait(LIMIT):
            raise TimeoutError(f"the neighbour was answered {self.found!r}")
        return self

    def __exit__(self, *_):
        self.is_over.set()
        self.thread.join(LIMIT)

    def run(self):
        with connection(*self.at) as client:
            client.setsockopt(socket.IPPROTO_TCP, socket.TCP_NODELAY, 1)
            while not self.is_over.is_set() and self.found == self.wanted:
                began, self.found = time.monotonic(), b""
                client.sendall(self.sent)
                while len(self.found) < len(self.wanted) and (piece := client.recv(65536)):
                    self.found += piece
                self.slowest = max(self.slowest, time.monotonic() - began)
                self.served += 1
                self.begun.set()
                self.is_over.wait(0.001)


def heard_to_the_end(at, sent, piece=None):
    """All that is answered to these bytes, sent in pieces of this size, by a server that may end the connection before it has
    them all. The client ends its sending behind them."""
    answered = []
    with connection(*at) as client:
        client.setsockopt(socket.IPPROTO_TCP, socket.TCP_NODELAY, 1)
        try:
            send(client, sent, piece)
            client.shutdown(socket.SHUT_WR)
        except OSError:
            pass  # it has ended the connection
        try:
            while taken := client.recv(65536):
                answered.append(taken)
        except ConnectionResetError:
            pass
    return b"".join(answered)
