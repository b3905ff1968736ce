"""A node of a small replicated store, over libhlc by ctypes: last writer wins, over loopback TCP, with a log that `hlc audit --packed 16` reads.

    python3 node.py NAME LOG [OFFSET]

It writes its port to standard output, and reads from standard input the ports of the others, as `us=4001 ap=4002`; it runs until that input ends.
OFFSET is how many milliseconds its clock is ahead. A connection has lines of fields with tabs between them:

    put KEY VALUE                                 from a client: answered by `ok STAMP`, or by `refused WHY`
    table                                         from a client: answered by a line `KEY VALUE STAMP NODE` for each key, and an empty one
    write MESSAGE CARRIED KEY VALUE STAMP NODE    from another node: a write with its stamp and node, in a message that carries a stamp of its sender
"""

import contextlib
import ctypes
import enum
import os
import selectors
import socket
import sys
import time

BITS, LIMIT = 16, 500
HEADER = b"kind,node,reading,stamp,message,from,carried,label\n"
STATUSES = {0: "done", 1: "the reading is 0 or too great", 2: "no stamp is left", 3: "the clock is too far ahead", 9: "the message is too far ahead"}

libhlc = ctypes.CDLL("libhlc.so.1")
U64, U32 = ctypes.c_uint64, ctypes.c_uint32
libhlc.hlc_packed_tick.argtypes = ctypes.POINTER(U64), U32, U64, U64
libhlc.hlc_packed_merge.argtypes = ctypes.POINTER(U64), U64, U32, U64, U64
libhlc.hlc_packed_tick.restype = libhlc.hlc_packed_merge.restype = U32


class Kind(enum.IntEnum):
    """What an event is."""

    LOCAL = 0
    SEND = 1
    RECEIVE = 2


class Text(ctypes.Structure):
    """A text as C lays it out."""

    _fields_ = [("bytes", ctypes.c_char_p), ("length", ctypes.c_size_t)]

    def __init__(self, text):
        encoded = text.encode()
        super().__init__(encoded, len(encoded))


class Event(ctypes.Structure):
    """An event as its row tells it, but for its stamp: hlc_log_event."""

    _fields_ = [("node", Text), ("message", Text), ("from", Text), ("label", Text), ("reading", U64), ("kind", U32)]


libhlc.hlc_packed_log_row.argtypes = ctypes.c_char_p, ctypes.c_size_t, ctypes.POINTER(Event), U64, U64
libhlc.hlc_packed_log_row.restype = ctypes.c_size_t


class Refused(Exception):
    """The clock gave no stamp, and stayed as it was."""


class Clock:
    """The node's clock, and its log: each event has its row before the next one is stamped."""

    def __init__(self, node, log, offset):
        self.node, self.offset, self.word = node, offset, U64(0)
        self.log = os.open(log, os.O_WRONLY | os.O_CREAT | os.O_APPEND, 0o666)
        self.row = ctypes.create_string_buffer(1024)
        self.append(HEADER)

    def append(self, text):
        """Writes it to the log, whole."""
        if os.write(self.log, text) != len(text):
            sys.exit("the log is full")

    def stamp(self, kind, message="", carried=0, label=""):
        """The stamp of the node's next event; the message of a receive carried one."""
        reading = time.time_ns() // 1_000_000 + self.offset
        if kind == Kind.RECEIVE:
            status = libhlc.hlc_packed_merge(self.word, carried, BITS, reading, LIMIT)
        else:
            status = libhlc.hlc_packed_tick(self.word, BITS, reading, LIMIT)
        if status:
            raise Refused(STATUSES.get(status, str(status)))
        event = Event(Text(self.node), Text(message), Text(""), Text(label), reading, kind)
        length = libhlc.hlc_packed_log_row(self.row, len(self.row), event, self.word.value, carried)
        if not 0 < length <= len(self.row):
            sys.exit("no row of the log is so long")
        self.append(self.row.raw[:length])
        return self.word.value


class Store:
    """The table of a node: of each key the write with the greatest stamp, or of equal ones that of the greatest node."""

    def __init__(self, clock):
        self.clock, self.table, self.peers, self.sent = clock, {}, [], 0

    def keep(self, key, value, stamp, node):
        if key not in self.table or (stamp, node) > self.table[key][1:]:
            self.table[key] = value, stamp, node

    def put(self, key, value):
        """A write of this node, and a message about it to each other one."""
        stamp = self.clock.stamp(Kind.LOCAL, label=f"put {key}")
        self.keep(key, value, stamp, self.clock.node)
        for name, peer in self.peers:
            self.sent += 1
            message = f"{self.clock.node}-{self.sent}"
            with contextlib.suppress(Refused):
                carried = self.clock.stamp(Kind.SEND, message, label=f"{key} to {name}")
                peer.sendall(f"write\t{message}\t{carried}\t{key}\t{value}\t{stamp}\t{self.clock.node}\n".encode())
        return f"ok\t{stamp}\n"

    def receive(self, message, carried, key, value, stamp, node):
        """A write of another node. One that is refused is lost, as if it had never come."""
        try:
            self.clock.stamp(Kind.RECEIVE, message, int(carried))
            self.keep(key, value, int(stamp), node)
        except Refused as why:
            print(f"{self.clock.node}: {message} is refused: {why}", file=sys.stderr, flush=True)
        return ""

    def answer(self, line):
        """What a line asks for, and the text of its answer."""
        word, *fields = line.split("\t")
        if word == "write":
            return self.receive(*fields)
        if word == "put":
            try:
                return self.put(*fields)
            except Refused as why:
                return f"refused\t{why}\n"
        rows = [f"{key}\t{value}\t{stamp}\t{node}\n" for key, (value, stamp, node) in sorted(self.table.items())]
        return "".join(rows) + "\n"


def serve(store, listener, ends):
    """Answers each line that comes, until standard input ends."""
    ready = selectors.DefaultSelector()
    ready.register(listener, selectors.EVENT_READ)
    ready.register(ends, selectors.EVENT_READ)
    halves = {}
    while True:
        for key, _ in ready.select():
            if key.fileobj is ends:
                return
            if key.fileobj is listener:
                connection, _ = listener.accept()
                ready.register(connection, selectors.EVENT_READ)
                halves[connection] = b""
                continue
            connection, got = key.fileobj, key.fileobj.recv(65536)
            if not got:
                ready.unregister(connection)
                connection.close()
                continue
            *lines, halves[connection] = (halves[connection] + got).split(b"\n")
            for line in lines:
                connection.sendall(store.answer(line.decode()).encode())


def main():
    node, log, offset = sys.argv[1], sys.argv[2], int(sys.argv[3]) if len(sys.argv) > 3 else 0
    store = Store(Clock(node, log, offset))
    with socket.create_server(("127.0.0.1", 0)) as listener:
        print(listener.getsockname()[1], flush=True)
        for peer in sys.stdin.buffer.raw.readline().decode().split():
            name, port = peer.split("=")
            connection = socket.create_connection(("127.0.0.1", int(port)))
            connection.setsockopt(socket.IPPROTO_TCP, socket.TCP_NODELAY, 1)
            store.peers.append((name, connection))
        serve(store, listener, sys.stdin.buffer.raw)


if __name__ == "__main__":
    main()
