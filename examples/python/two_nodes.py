"""A message between two nodes, and one from a clock that is far ahead. Run it from the top of the repository with

    packaging/library && LD_LIBRARY_PATH=crates/hlc_c/out python3 examples/python/two_nodes.py

or over the package libhlc1 with python3 two_nodes.py.
"""

import ctypes
import enum
import functools


class Status(enum.IntEnum):
    """What a call came to: the statuses of hlc.h that a clock answers."""

    OK = 0
    READING = 1
    NO_ROOM = 2
    TOO_FAR = 3


@functools.total_ordering
class Stamp(ctypes.Structure):
    """A stamp as C lays it out, in the order of stamps."""

    _fields_ = [("l", ctypes.c_uint64), ("c", ctypes.c_uint32)]

    def __eq__(self, other):
        return (self.l, self.c) == (other.l, other.c)

    def __lt__(self, other):
        return hlc_is_below(self, other)

    def __str__(self):
        return f"{self.l},{self.c}"


def function(name, answer, *arguments):
    """A function of the library, with the types that hlc.h gives it."""
    found = getattr(ctypes.CDLL("libhlc.so.1"), name)
    found.restype, found.argtypes = answer, arguments
    return found


hlc_tick = function("hlc_tick", Status, ctypes.POINTER(Stamp), ctypes.c_uint64)
hlc_merge_within = function("hlc_merge_within", Status, ctypes.POINTER(Stamp), Stamp, ctypes.c_uint64, ctypes.c_uint64)
hlc_is_below = function("hlc_is_below", ctypes.c_bool, Stamp, Stamp)


class Refused(Exception):
    """The clock stayed as it was, for the reason that the status says."""

    def __init__(self, status):
        super().__init__(status.name)
        self.status = status


class Clock:
    """A node's clock, for one thread at a time."""

    def __init__(self):
        self.last = Stamp()

    def tick(self, reading):
        """The stamp of a send or a local event."""
        return self._answer(hlc_tick(self.last, reading))

    def merge(self, message, reading, limit):
        """The stamp of a delivery, unless it would be ahead of the reading by more than the limit."""
        return self._answer(hlc_merge_within(self.last, message, reading, limit))

    def _answer(self, status):
        if status != Status.OK:
            raise Refused(status)
        return Stamp(self.last.l, self.last.c)


def main():
    limit = 500
    ours, theirs = Clock(), Clock()
    theirs.tick(100)
    sent = theirs.tick(100)
    print("sent", sent)
    received = ours.merge(sent, 97, limit)
    assert sent < received
    print("received", received)
    try:
        ours.merge(theirs.tick(9000), 98, limit)
    except Refused as refused:
        if refused.status == Status.TOO_FAR:
            print("refused, still", ours.last)


if __name__ == "__main__":
    main()
