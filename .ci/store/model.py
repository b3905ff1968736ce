#!/usr/bin/env python3
"""A model of the store, written from docs/FORMATS.md and not from the code.

    .ci/store/model.py run --nodes N --capacity C [--limit D] < SCRIPT
    .ci/store/model.py trace --nodes N --capacity C [--limit D] [--vector] < SCRIPT
    .ci/store/model.py judge < TRACE
    .ci/store/model.py storm --nodes N --steps K --seed S

It reads a script or a trace as bytes, and writes the rows that the program has to write. It is plain and slow: a node's table is made of the writes
that its events made known, a relation of the set of what happened before an event, and the stamps that a reading raised by giving all stamps again.
"""

import argparse
import collections
import sys

MOST_NODE, FULL = 2**16 - 1, 2**32 - 1
MOST_READING, MOST_NUMBER = 2**63 - 1, 2**64 - 1
MOST_KEY, MOST_VALUE = 256, 4096
# The greatest node of a trace.
MOST_TRACED = 63

# The fields of each word of a script, after the word.
WORDS = {
    b"write": ("node", "reading", "key", "value"),
    b"erase": ("node", "reading", "key"),
    b"send": ("node", "reading", "target", "key"),
    b"sync": ("node", "reading", "target"),
    b"deliver": ("node", "reading", "send"),
    b"pull": ("node", "reading", "key", "value"),
    b"lose": ("send",),
    b"inbox": ("node",),
    b"get": ("node", "key"),
    b"table": ("node",),
    b"explain": ("event",),
    b"check": ("checked",),
    b"relation": ("event", "other"),
    b"influenced": ("event",),
    b"why": ("event", "other"),
    b"tainted": ("event",),
    b"drift": ("node",),
    b"snapshot": ("l", "c", "node"),
}
EVENTS = (b"write", b"erase", b"send", b"sync", b"deliver", b"pull")
# The word after whose fields a list of events stands, of any length.
LISTED = b"check"
TEXTS = ("key", "value")
# What a greater number is read as. The event of a `check` is none of these, since the answer repeats it.
GREATEST = {"node": MOST_NODE, "target": MOST_NODE, "send": FULL, "event": FULL, "other": FULL, "c": FULL}

# The fields of each word of a trace, after the word. A C that is too great is no number there.
CLAIMS = {
    b"local": ("node", "reading", "l", "count"),
    b"send": ("node", "reading", "l", "count"),
    b"sync": ("node", "reading", "l", "count"),
    b"receive": ("node", "reading", "send", "l", "count"),
}


class Refused(Exception):
    """A record that is refused, and why."""


class Bad(Exception):
    """A trace that is none: the place of the record, and why."""


# CSV in and out


def records(text):
    """The records of a text, as lists of fields. A line end in quotation marks is no end, and a line with nothing on it is no record."""
    fields, field, quoted, starts = [], bytearray(), False, True
    place = 0
    while place < len(text):
        byte = text[place : place + 1]
        place += 1
        if quoted and byte == b'"' and text[place : place + 1] == b'"':
            field += byte
            place += 1
        elif byte == b'"' and (quoted or starts):
            quoted, starts = not quoted, False
        elif quoted or byte not in b",\r\n":
            field += byte
            starts = False
        elif byte == b",":
            fields.append(bytes(field))
            field, starts = bytearray(), True
        else:
            if fields or not starts:
                yield [*fields, bytes(field)]
            fields, field, starts = [], bytearray(), True
    if fields or not starts:
        yield [*fields, bytes(field)]


def quoted(field):
    """A field as it is written: in quotation marks if it needs them."""
    return b'"' + field.replace(b'"', b'""') + b'"' if set(field) & set(b',"\r\n') else field


def row(*fields):
    """Fields, which are bytes, words and numbers, as a row."""
    return b",".join(quoted(field if isinstance(field, bytes) else str(field).encode()) for field in fields) + b"\n"


def number(field):
    """The number that a field is, if it is one."""
    digits = 1 <= len(field) <= 20 and not set(field) - set(b"0123456789")
    return int(field) if digits and int(field) <= MOST_NUMBER else None


def named(names, fields):
    """The fields by their names, numbers as such."""
    found = {}
    for name, field in zip(names, fields):
        found[name] = field if name in TEXTS else number(field)
        if found[name] is None:
            raise Refused("number")
        if name in GREATEST:
            found[name] = min(found[name], GREATEST[name])
    return found


# Stamps


def least(reading, before):
    """The least stamp that isn't behind the reading, and is above the stamps of the direct predecessors."""
    return max([(reading, 0), *((l, c + 1) for l, c in before)])


# The store


class Event:
    """An event: where it is, what the clock read, what it did, and its direct predecessors."""

    key = value = target = sent = None
    # The writes that a send carries.
    carried = ()

    def __init__(self, number, word, node, reading, previous):
        self.number, self.word, self.node, self.reading, self.previous = number, word, node, reading, previous

    def predecessors(self):
        return [before for before in (self.previous, self.sent) if before is not None]


class Store:
    """A cluster of nodes: its history, and the sends whose messages are live, in sending order."""

    def __init__(self, nodes, capacity, limit=None):
        self.nodes, self.capacity, self.limit = nodes, capacity, limit
        self.events, self.live = [], []
        self.at = [[] for _ in range(nodes)]

    def answer(self, fields):
        """The rows that answer a record."""
        try:
            word, *rest = fields
            if word not in WORDS:
                raise Refused("word")
            names = WORDS[word]
            if len(rest) < len(names) or len(rest) > len(names) and word != LISTED:
                raise Refused("fields")
            asked = named(names, rest)
            if word == LISTED:
                asked["listed"] = [named(("event",), [field])["event"] for field in rest[1:]]
            asked["word"] = word
            self.refuse(asked)
            return self.ACT[word](self, asked)
        except Refused as refused:
            return row("refused", *refused.args)

    # Refusals

    def refuse(self, asked):
        """Refuses what the cluster refuses, by the first reason that holds."""
        for why, words, holds in self.REFUSALS:
            if asked["word"] in words and holds(self, asked):
                raise Refused(why)

    def lacks_entry(self, asked):
        """Whether the node has no entry that a send could carry: for a sync, no entry at all."""
        table = self.table(self.at[asked["node"]])
        return not table if asked["word"] == b"sync" else asked["key"] not in table

    def is_too_far(self, asked):
        """Whether the event would be ahead of its reading by more than the limit."""
        if self.limit is None:
            return False
        before = [self.at[asked["node"]][-1].stamp] if self.at[asked["node"]] else []
        sent = self.taken(asked)
        if sent is not None:
            before.append(self.events[sent].stamp)
        return bool(before) and max(before)[0] > asked["reading"] + self.limit

    def taken(self, asked):
        """The send whose message the event would deliver, if it would."""
        if asked["word"] == b"pull":
            return next(iter(self.inbox(asked["node"])), None)
        return asked.get("send")

    def lacks_event(self, asked):
        return max(asked["event"], asked.get("other", 0)) >= len(self.events)

    # Each reason in the order in which they are looked at, with the words that it is of.
    REFUSALS = (
        ("no-node", (*EVENTS, b"inbox", b"get", b"table", b"drift", b"snapshot"), lambda self, asked: asked["node"] >= self.nodes),
        ("zero-reading", EVENTS, lambda self, asked: asked["reading"] == 0),
        ("reading-too-large", EVENTS, lambda self, asked: asked["reading"] > MOST_READING),
        ("full", EVENTS, lambda self, asked: len(self.events) >= self.capacity),
        ("key-size", (b"write", b"erase", b"send", b"pull"), lambda self, asked: not 1 <= len(asked["key"]) <= MOST_KEY),
        ("value-size", (b"write", b"pull"), lambda self, asked: len(asked["value"]) > MOST_VALUE),
        ("no-target", (b"send", b"sync"), lambda self, asked: asked["target"] >= self.nodes),
        ("self-send", (b"send", b"sync"), lambda self, asked: asked["target"] == asked["node"]),
        ("no-entry", (b"send", b"sync"), lacks_entry),
        ("no-message", (b"deliver", b"lose"), lambda self, asked: asked["send"] not in self.live),
        ("wrong-node", (b"deliver",), lambda self, asked: self.events[asked["send"]].target != asked["node"]),
        ("too-far-ahead", EVENTS, is_too_far),
        ("no-event", (b"explain", b"relation", b"influenced", b"why", b"tainted"), lacks_event),
    )

    # Events

    def act(self, asked):
        """Adds the event that is asked for."""
        at_node = self.at[asked["node"]]
        previous = at_node[-1].number if at_node else None
        event = Event(len(self.events), asked["word"], asked["node"], asked["reading"], previous)
        event.sent = self.taken(asked)
        if event.sent is not None:
            if event.word == b"pull":
                self.live.remove(event.sent)
            event.word = b"deliver"
        elif event.word == b"pull":
            event.word = b"write"
        if event.word in (b"write", b"erase"):
            event.key, event.value = asked["key"], asked.get("value")
        elif event.word in (b"send", b"sync"):
            table = self.table(at_node)
            event.target, event.key = asked["target"], asked.get("key")
            event.carried = [*table.values()] if event.word == b"sync" else [table[event.key]]
            self.live.append(event.number)
        event.stamp = least(event.reading, [self.events[before].stamp for before in event.predecessors()])
        event.past = 0
        for before in event.predecessors():
            event.past |= self.events[before].past | 1 << before
        self.events.append(event)
        at_node.append(event)
        return row("event", event.number, *event.stamp)

    def lose(self, asked):
        self.live.remove(asked["send"])
        return row("lost", asked["send"])

    # What nodes show

    def inbox(self, node):
        return [sent for sent in self.live if self.events[sent].target == node]

    def tell_inbox(self, asked):
        return row("inbox", asked["node"], *self.inbox(asked["node"]))

    def learnt(self, event):
        """The writes that an event makes known at its node: its own, or those that its message carried."""
        if event.key is not None and event.word in (b"write", b"erase"):
            return [event.number]
        return self.events[event.sent].carried if event.sent is not None else []

    def rank(self, write):
        return (*self.events[write].stamp, self.events[write].node)

    def table(self, events):
        """For each key the write of the greatest rank among those that the events make known, keys in the order in which they first do."""
        table = {}
        for event in events:
            for write in self.learnt(event):
                table[self.events[write].key] = max(table.get(self.events[write].key, write), write, key=self.rank)
        return table

    def entry(self, write):
        event = self.events[write]
        rest = (event.key, *event.stamp, event.node, write)
        return row("entry", *rest, event.value) if event.word == b"write" else row("gone", *rest)

    def tell_entries(self, word, node, table):
        return row(word, node, len(table)) + b"".join(map(self.entry, table.values()))

    def get(self, asked):
        table = self.table(self.at[asked["node"]])
        return self.entry(table[asked["key"]]) if asked["key"] in table else row("none", asked["key"])

    def tell_table(self, asked):
        return self.tell_entries("table", asked["node"], self.table(self.at[asked["node"]]))

    def snapshot(self, asked):
        cut = [event for event in self.at[asked["node"]] if event.stamp <= (asked["l"], asked["c"])]
        return self.tell_entries("snapshot", asked["node"], self.table(cut))

    # Why stamps are as they are

    def chain(self, event):
        """The events of an event's chain, the origin first. If both direct predecessors would do, the one at the same node stands there."""
        chain, (l, c) = [event], event.stamp
        while c:
            c -= 1
            before = [self.events[number] for number in chain[0].predecessors()]
            chain.insert(0, next(other for other in before if other.stamp == (l, c)))
        return chain

    def explain(self, asked):
        event = self.events[asked["event"]]
        return row("chain", event.number, *event.stamp, *(link.number for link in self.chain(event)))

    def check(self, asked):
        return row("check", asked["checked"], "yes" if self.is_chain(asked["checked"], asked["listed"]) else "no")

    def is_chain(self, number, listed):
        """Whether the numbers of a list are those of a chain for the stamp of an event."""
        if number >= len(self.events) or not listed or listed[-1] != number or max(listed) >= len(self.events):
            return False
        l, c = self.events[number].stamp
        linked = all(before in self.events[after].predecessors() for before, after in zip(listed, listed[1:]))
        return len(listed) == c + 1 and linked and self.events[listed[0]].reading == l

    def drift(self, asked):
        at_node = self.at[asked["node"]]
        if not at_node:
            return row("drift", asked["node"], "none")
        furthest = max(at_node, key=lambda event: event.stamp[0] - event.reading)
        return row("drift", asked["node"], furthest.stamp[0] - furthest.reading, furthest.number, self.chain(furthest)[0].number)

    def tainted(self, asked):
        """The events whose stamps are lower if all are given again, with that reading at 0."""
        stamps, lower = [], []
        for event in self.events:
            reading = 0 if event.number == asked["event"] else event.reading
            stamps.append(least(reading, [stamps[before] for before in event.predecessors()]))
            if stamps[-1] < event.stamp:
                lower.append(event.number)
        return row("tainted", asked["event"], *lower)

    # Happened-before

    def happened_before(self, number, other):
        return bool(self.events[other].past >> number & 1)

    def relation(self, asked):
        number, other = asked["event"], asked["other"]
        how = "same" if number == other else "before" if self.happened_before(number, other) else "concurrent"
        return row("relation", number, other, "after" if self.happened_before(other, number) else how)

    def influenced(self, asked):
        number = asked["event"]
        return row("influenced", number, *(other for other in range(len(self.events)) if self.happened_before(number, other)))

    def why(self, asked):
        """A shortest path, found from its end backwards, over the event before at the same node wherever a shortest path goes there."""
        start, end = asked["event"], asked["other"]
        far = {start: 0}
        for event in self.events[start + 1 : end + 1]:
            steps = [far[before] for before in event.predecessors() if before in far]
            if steps:
                far[event.number] = 1 + min(steps)
        if end not in far:
            return row("path", start, end, "none")
        path = [end]
        while path[0] != start:
            before = self.events[path[0]].predecessors()
            path.insert(0, next(other for other in before if far.get(other) == far[path[0]] - 1))
        return row("path", start, end, *path)

    ACT = dict.fromkeys(EVENTS, act) | {
        b"lose": lose,
        b"inbox": tell_inbox,
        b"get": get,
        b"table": tell_table,
        b"explain": explain,
        b"check": check,
        b"relation": relation,
        b"influenced": influenced,
        b"why": why,
        b"tainted": tainted,
        b"drift": drift,
        b"snapshot": snapshot,
    }

    # The history as a log, and as a script

    def label(self, event):
        """What an event did, as a log tells it."""
        if event.word == b"send":
            return b"send %b to %d" % (event.key, event.target)
        if event.word == b"sync":
            return b"sync to %d" % event.target
        return b"deliver %d" % event.sent if event.word == b"deliver" else b"%b %b" % (event.word, event.key)

    def log_fields(self, event, label):
        """The fields of an event's row of a log. It names the message by its send."""
        kind = "send" if event.carried else "receive" if event.word == b"deliver" else "local"
        message = {"send": [event.number], "receive": [event.sent], "local": []}[kind]
        return kind, event.node, event.reading, *event.stamp, *message, *label

    def vector(self, event):
        """For each node that has any, how many of its events are the event or happened before it."""
        counts = collections.Counter(other.node for other in self.events[: event.number] if event.past >> other.number & 1)
        counts[event.node] += 1
        told = ", ".join(f'"{node}":{counts[node]}' for node in sorted(counts))
        return f"{event.node} {{{told}}}\n".encode()

    def log(self, with_vectors):
        rows = []
        for event in self.events:
            label = self.label(event)
            if with_vectors:
                rows.append(self.vector(event))
            is_told = not with_vectors or all(0x20 <= byte <= 0x7E for byte in label)
            rows.append(row(*self.log_fields(event, [label] if is_told else [])))
        return b"".join(rows)


def played(text, nodes, capacity, limit):
    """The store after a script, and the rows that answer each of its records."""
    store = Store(nodes, capacity, limit)
    return store, [store.answer(fields) for fields in records(text)]


def run(text, nodes, capacity, limit=None):
    """What `hlc run` writes of a script, what it says to standard error, and its status."""
    return b"".join(played(text, nodes, capacity, limit)[1]), b"", 0


def trace(text, nodes, capacity, limit=None, vector=False):
    """The same of `hlc trace`."""
    store, answers = played(text, nodes, capacity, limit)
    said = b"hlc: none of %d records is an event\n" % len(answers) if answers and not store.events else b""
    return store.log(vector), said, 0


# Traces


def claims_of(text):
    """The claims of a trace: the fields of each record by their names."""
    claims = []
    for place, (word, *rest) in enumerate(records(text)):
        if word not in CLAIMS:
            raise Bad(place, "word")
        if len(rest) != len(CLAIMS[word]):
            raise Bad(place, "fields")
        try:
            claim = named(CLAIMS[word], rest)
        except Refused:
            raise Bad(place, "number") from None
        if claim["count"] > FULL:
            raise Bad(place, "number")
        claims.append(claim | {"word": word, "stamp": (claim["l"], claim["count"])})
    return claims


def is_possible(claims, place):
    """Whether a trace can have this claim at its place."""
    claim = claims[place]
    if claim["node"] > MOST_TRACED or not 1 <= claim["reading"] <= MOST_READING:
        return False
    if claim["word"] != b"receive":
        return True
    return claim["send"] < place and claims[claim["send"]]["word"] in (b"send", b"sync") and claims[claim["send"]]["node"] != claim["node"]


def verdicts(claims):
    """The row of each claim."""
    stamps, last = [], {}
    for place, claim in enumerate(claims):
        before = [earlier for earlier in (last.get(claim["node"]), claim.get("send")) if earlier is not None]
        stamps.append(least(claim["reading"], [stamps[earlier] for earlier in before]))
        last[claim["node"]] = place
        not_above = next((earlier for earlier in before if claim["stamp"] <= claims[earlier]["stamp"]), None)
        if claim["l"] < claim["reading"]:
            yield row("verdict", place, "behind")
        elif not_above is not None:
            yield row("verdict", place, "not-above", not_above)
        elif claim["stamp"] == stamps[-1]:
            yield row("verdict", place, "least")
        else:
            yield row("verdict", place, "low" if claim["stamp"] < stamps[-1] else "ahead", *stamps[-1])


def judge(text):
    """What `hlc judge` writes of a trace, what it says to standard error, and its status."""
    try:
        claims = claims_of(text)
        for place in range(len(claims)):
            if not is_possible(claims, place):
                raise Bad(place, "trace")
    except Bad as bad:
        return row("bad", *bad.args), b"", 0
    return b"".join(verdicts(claims)), b"", 0


# Seeded scripts


class Pcg:
    """The generator PCG XSH RR 64/32, from a seed of 64 bits."""

    FACTOR, SEED_STEP, WHOLE = 6364136223846793005, 11634580027462260723, 2**64

    def __init__(self, seed):
        words = []
        for _ in range(4):
            seed = (seed * self.FACTOR + self.SEED_STEP) % self.WHOLE
            words.append(self.turned(seed))
        state, self.step = words[0] | words[1] << 32, words[2] | words[3] << 32 | 1
        self.state = (state + self.step) % self.WHOLE
        self.next()

    @staticmethod
    def turned(state):
        """The output of a state: its upper bits, turned by the uppermost."""
        mixed, turn = ((state >> 18 ^ state) >> 27) % 2**32, state >> 59
        return (mixed >> turn | mixed << 32 - turn) % 2**32

    def next(self):
        state = self.state
        self.state = (state * self.FACTOR + self.step) % self.WHOLE
        return self.turned(state)


def steps(generator, node, nodes, count):
    """The records of a node's steps."""
    key = None
    for step in range(count):
        a, b = generator.next(), generator.next()
        reading, own, value = 1000 + 10 * step + a % 64, b"k%d" % (a // 64 % 4), b"v%d.%d" % (node, step)
        choice = 0 if step == 0 else b % 8
        if choice < 2:
            yield row("write", node, reading, own, value)
        elif choice == 2:
            yield row("erase", node, reading, own)
        elif choice < 5:
            yield row("send", node, reading, (node + 1 + a // 256 % (nodes - 1)) % nodes, key)
        else:
            yield row("pull", node, reading, own, value)
        key = own if choice <= 2 else key


def storm(nodes, steps_of_each, seed):
    """What `hlc storm` writes, what it says to standard error, and its status."""
    generator = Pcg(seed)
    lists = [[*steps(generator, node, nodes, steps_of_each)] for node in range(nodes)]
    return b"".join(record for turn in zip(*lists) for record in turn), b"", 0


def main():
    parser = argparse.ArgumentParser()
    parser.add_argument("command", choices=("run", "trace", "judge", "storm"))
    for name in ("nodes", "capacity", "limit", "steps", "seed"):
        parser.add_argument(f"--{name}", type=int)
    parser.add_argument("--vector", action="store_true")
    given = parser.parse_args()
    settings = given.nodes, given.capacity, given.limit
    if given.command == "storm":
        out, said, status = storm(given.nodes, given.steps, given.seed)
    elif given.command == "judge":
        out, said, status = judge(sys.stdin.buffer.read())
    elif given.command == "trace":
        out, said, status = trace(sys.stdin.buffer.read(), *settings, given.vector)
    else:
        out, said, status = run(sys.stdin.buffer.read(), *settings)
    sys.stdout.buffer.write(out)
    sys.stderr.buffer.write(said)
    sys.exit(status)


if __name__ == "__main__":
    main()
