"""Runs a store of four processes over loopback TCP, one of them in C, and ends them all: their tables have come out equal, and FOLDER has their logs.

    python3 cluster.py FOLDER NODE_C [NODE=OFFSET..]

NODE_C is node.c, built. OFFSET is how many milliseconds the clock of a node is ahead: ap=300.
"""

import contextlib
import os
import random
import socket
import subprocess
import sys
import time

HERE = os.path.dirname(os.path.abspath(__file__))
NODES = "eu", "us", "ap", "sa"
IN_C = "sa"
PUTS, KEYS, PATIENCE = 200, 12, 10


class Node:
    """A process that runs until its standard input ends, so it doesn't outlive this one."""

    def __init__(self, name, program, folder, offset):
        words = [program] if name == IN_C else [sys.executable, f"{HERE}/node.py"]
        self.name = name
        self.process = subprocess.Popen([*words, name, f"{folder}/{name}.log", str(offset)], stdin=subprocess.PIPE, stdout=subprocess.PIPE, text=True)
        self.port = int(self.process.stdout.readline())

    def meet(self, others):
        print(*(f"{node.name}={node.port}" for node in others), file=self.process.stdin, flush=True)

    def open(self):
        self.lines = socket.create_connection(("127.0.0.1", self.port), PATIENCE).makefile("rw")

    def ask(self, *fields):
        print(*fields, sep="\t", file=self.lines, flush=True)
        return self.lines.readline()

    def table(self):
        rows = [self.ask("table")]
        while rows[-1] != "\n":
            rows.append(self.lines.readline())
        return rows

    def end(self):
        self.process.stdin.close()
        self.process.wait(PATIENCE)


def are_equal(nodes):
    """Whether all tables are, once the last messages have come."""
    end = time.monotonic() + PATIENCE
    while time.monotonic() < end:
        tables = [node.table() for node in nodes]
        if all(table == tables[0] for table in tables):
            return True
        time.sleep(0.05)
    return False


def main():
    folder, program, offsets = sys.argv[1], sys.argv[2], dict(word.split("=") for word in sys.argv[3:])
    rng = random.Random(1)
    with contextlib.ExitStack() as stack:
        nodes = []
        for name in NODES:
            nodes.append(Node(name, program, folder, offsets.get(name, 0)))
            stack.callback(nodes[-1].end)
        for node in nodes:
            node.meet(other for other in nodes if other is not node)
        for node in nodes:
            node.open()
        refused = 0
        for number in range(PUTS):
            refused += not rng.choice(nodes).ask("put", f"k{rng.randrange(KEYS)}", f"v{number}").startswith("ok")
            time.sleep(rng.uniform(0, 0.004))
        equal = are_equal(nodes)
    print(f"{len(nodes)} processes, {PUTS} puts, {refused} refused: the tables are {'equal' if equal else 'not equal'}")
    sys.exit(0 if equal and not refused else 1)


if __name__ == "__main__":
    main()
