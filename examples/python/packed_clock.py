"""A packed clock that processes share without a lock, as those of a web server do: one word of shared memory. Run it from the top of the repository with

    packaging/library && LD_LIBRARY_PATH=crates/hlc_c/out python3 examples/python/packed_clock.py

or over the package libhlc1 with python3 packed_clock.py. The compare-and-swap is that of libatomic1, which comes with GCC's libraries.
"""

import ctypes
import enum
import mmap
import os

BITS = 16  # how many low bits of a stamp are c; all nodes have the same
LIMIT = 500  # how far a stamp may be ahead of its reading
PROCESSES, EVENTS = 4, 10_000

U64, U32, NUMBER = ctypes.c_uint64, ctypes.c_uint32, ctypes.POINTER(ctypes.c_uint64)


class Status(enum.IntEnum):
    """What a call came to: the statuses of hlc.h that a packed clock answers."""

    OK = 0
    READING = 1
    NO_ROOM = 2
    TOO_FAR = 3
    BITS = 7
    MESSAGE_TOO_FAR = 9


def function(library, name, answer, *arguments):
    """A function of a library, with the types that its header gives it."""
    found = getattr(ctypes.CDLL(library), name)
    found.restype, found.argtypes = answer, arguments
    return found


hlc_packed_after = function("libhlc.so.1", "hlc_packed_after", Status, U64, U32, U64, U64, NUMBER)
hlc_packed_after_message = function("libhlc.so.1", "hlc_packed_after_message", Status, U64, U64, U32, U64, U64, NUMBER)
# Whether the word was as expected, and is the new number now; else `expected` becomes what it was.
compare_exchange = function("libatomic.so.1", "__atomic_compare_exchange_8", ctypes.c_bool, NUMBER, NUMBER, U64, ctypes.c_int, ctypes.c_int)
SEQ_CST = 5


class Refused(Exception):
    """The clock stayed as it was, for the reason that the status says."""

    def __init__(self, status):
        super().__init__(status.name)
        self.status = status


class Clock:
    """A node's clock: its last stamp, in memory that the processes share which this one forks."""

    def __init__(self):
        self.word = U64.from_buffer(mmap.mmap(-1, mmap.PAGESIZE))

    def tick(self, reading):
        """The stamp of a send or a local event."""
        return self._advance(lambda old, new: hlc_packed_after(old, BITS, reading, LIMIT, new))

    def merge(self, message, reading):
        """The stamp of a delivery."""
        return self._advance(lambda old, new: hlc_packed_after_message(old, message, BITS, reading, LIMIT, new))

    def _advance(self, after):
        """Takes the number that comes after the clock's, and puts it there if nobody was faster."""
        old, new = U64(self.word.value), U64()
        while True:
            status = after(old.value, new)
            if status != Status.OK:
                raise Refused(status)
            if compare_exchange(self.word, old, new.value, SEQ_CST, SEQ_CST):
                return new.value


def text(stamp):
    return f"{stamp >> BITS},{stamp & (1 << BITS) - 1}"


def ticks_of_a_process(clock, reading):
    """Starts a process that takes stamps, and answers where they come."""
    come, go = os.pipe()
    if os.fork() == 0:
        os.close(come)
        with open(go, "w", encoding="ascii") as stamps:
            for _ in range(EVENTS):
                print(clock.tick(reading), file=stamps)
        os._exit(0)
    os.close(go)
    return open(come, encoding="ascii")


def main():
    clock = Clock()
    each = [ticks_of_a_process(clock, 1000) for _ in range(PROCESSES)]
    stamps = [[int(line) for line in come] for come in each]
    for come in each:
        come.close()
        os.wait()
    assert all(old < new for one in stamps for old, new in zip(one, one[1:]))
    given = {stamp for one in stamps for stamp in one}
    print(f"{len(given)} different stamps, the last {text(max(given))}")
    print("received", text(clock.merge(1200 << BITS | 5, 1000)))
    try:
        clock.merge(9000 << BITS, 1000)
    except Refused as refused:
        if refused.status == Status.MESSAGE_TOO_FAR:
            print("refused, still", text(clock.word.value))


if __name__ == "__main__":
    main()
