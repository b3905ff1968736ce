"""Scripts and traces from seeds: of all words, accepted, refused for each reason, and malformed; and traces with right and wrong stamps."""

import collections

import model

# A script: its records, the rows that a model answered each with, and the model, which knows the settings of the run.
Script = collections.namedtuple("Script", "records answers store")

# How often a script of a kind asks each word.
ACTS = {b"write": 6, b"erase": 2, b"send": 6, b"sync": 2, b"deliver": 6, b"pull": 4, b"lose": 1}
SHOWS = {b"inbox": 1, b"get": 2, b"table": 1, b"snapshot": 2}
TELLS = {b"explain": 2, b"check": 2, b"relation": 2, b"influenced": 1, b"why": 2, b"tainted": 2, b"drift": 2}
MESSAGES = {b"write": 2, b"send": 8, b"sync": 1, b"deliver": 4, b"pull": 5, b"lose": 3}
TABLES = {b"write": 5, b"erase": 3, b"send": 3, b"sync": 6, b"deliver": 9, b"pull": 3, b"lose": 1, b"get": 1}

# Fields that are no numbers, or only just, and words that are none.
ODD_NUMBERS = [b"", b"x", b"+1", b"-1", b" 1", b"1 ", b"1.0", b"0x1", b"1e1", b"\xd9\xa1", b"%d" % 2**64]
ODD_NUMBERS += [b"0" * 21, b"0" * 20 + b"1", b"9" * 20, b"9" * 21]
ODD_WORDS = [b"", b"Write", b" write", b"write ", b"wri", b"writes", b"local", b"receive", b"event", b"sync\n", b"inbox\x00", b"-", b"0"]
# Whole numbers that are no node of any cluster, and no event of any history.
NO_NODES = [65535, 65536, 70000, 2**31, 2**32, model.MOST_NUMBER]
NO_EVENTS = [model.FULL - 1, model.FULL, model.FULL + 1, model.MOST_READING, model.MOST_NUMBER]
ODD_KEYS = [b",", b'"', b'a,"b"', b"two\nlines", b"\r", b" ", b"\xff\x00", b"\x7f", b"~\x80", b"refused", b"\\x41", "ключ".encode(), b"k" * 22, b"k" * 23, b"k" * 256]
BAD_KEYS = [b"", b"k" * 257]

# Text


def field(rng, data, quotes):
    """A field, in quotation marks if it has to be, and else by chance."""
    if set(data) & set(b',"\r\n') or rng.random() < quotes:
        return b'"' + data.replace(b'"', b'""') + b'"'
    return data


def text(rng, records):
    """The records as text. Some fields are quoted, and there may be empty lines. A record that would be one has its one field quoted."""
    quotes, blanks, end = rng.choice((0, 0, 0.1)), rng.choice((0, 0, 0.1)), rng.choice((b"\n", b"\n", b"\r\n"))
    lines = []
    for fields in records:
        if rng.random() < blanks:
            lines.append(end)
        lines += [b",".join(field(rng, data, quotes) for data in fields) or b'""', end]
    if lines and rng.random() < 0.1:
        lines.pop()
    return b"".join(lines)


def whole(rng, number):
    """A number, by chance with zeros before it, up to twenty digits."""
    return b"%0*d" % (rng.choice((2, 5, 20)), number) if rng.random() < 0.02 else b"%d" % number


# Readings


def still(rng, step, node):
    return 10


def tied(rng, step, node):
    return 10 + rng.randrange(3)


def rising(rng, step, node):
    return 100 + 10 * step + rng.randrange(64)


def skewed(rng, step, node):
    return 1000 + 5 * step + 40 * node - rng.randrange(60)


def jumping(rng, step, node):
    return 100 + step + (rng.choice((7, 300, 2**40)) if rng.random() < 0.05 else 0)


def great(rng, step, node):
    return model.MOST_READING - rng.randrange(4)


def any_reading(rng, step, node):
    return rng.choice((1, 1, 2, 10, 100, model.MOST_READING, model.MOST_READING - 1))


READINGS = (still, tied, tied, rising, rising, skewed, skewed, jumping, great, any_reading)


# Scripts


class Drawn:
    """A script as it is drawn. It is asked of a model, so that most of it is about what is there. `broken` is how many of its records have wrong fields."""

    def __init__(self, rng, nodes, capacity, limit, readings, keys, broken=0.0):
        self.rng, self.readings, self.keys, self.broken = rng, readings, keys, broken
        self.store = model.Store(nodes, capacity, limit)
        self.records, self.answers = [], []
        # The names of the fields that are to be wrong in the record that is drawn.
        self.wrong = ()

    def ask(self, fields):
        self.records.append(fields)
        self.answers.append(self.store.answer(fields))

    def script(self):
        return Script(self.records, self.answers, self.store)

    # Fields

    def node(self, word):
        """A node: of a send mostly one that has an entry, and of a delivery one that has a message."""
        if "node" in self.wrong:
            return self.rng.choice([self.store.nodes, self.store.nodes + 1, *NO_NODES])
        nodes = range(self.store.nodes)
        if word in (b"send", b"sync") and self.rng.random() < 0.9:
            nodes = [node for node in nodes if self.store.at[node]] or nodes
        if word in (b"deliver", b"pull", b"inbox") and self.store.live and self.rng.random() < 0.8:
            nodes = [self.store.events[sent].target for sent in self.store.live]
        return self.rng.choice(nodes)

    def reading(self, node):
        """What a clock reads: where there is a limit, often just what it allows, or one less."""
        if "reading" in self.wrong:
            return self.rng.choice((0, 0, model.MOST_READING, model.MOST_READING + 1, model.MOST_NUMBER))
        if self.store.limit is not None and node < self.store.nodes and self.rng.random() < 0.5:
            stamps = [event.stamp for event in self.store.at[node][-1:]] + [self.store.events[sent].stamp for sent in self.store.inbox(node)[:1]]
            if stamps:
                return min(max(self.rng.choice(stamps)[0] - self.store.limit + self.rng.randrange(-1, 2), 1), model.MOST_READING)
        return self.readings(self.rng, len(self.store.events), node)

    def key(self, word, node):
        if "key" in self.wrong:
            return self.rng.choice([*BAD_KEYS, *[b"unknown"] * len(BAD_KEYS)])
        known = [*self.store.table(self.store.at[node])] if word == b"send" and node < self.store.nodes and self.rng.random() < 0.9 else []
        return self.rng.choice(known or self.keys)

    def value(self):
        if "value" in self.wrong:
            return b"v" * self.rng.choice((model.MOST_VALUE, model.MOST_VALUE + 1))
        return self.rng.choice((b"", b"v", b"v%d" % len(self.store.events), b"a, b", b'"'))

    def target(self, node):
        if "target" in self.wrong:
            return self.rng.choice([node, node, self.store.nodes, *NO_NODES])
        return (node + self.rng.randrange(1, self.store.nodes)) % self.store.nodes

    def send(self, word, node):
        """A send, mostly of a live message, for a delivery to this node."""
        live = [*self.store.live] if word == b"lose" or node >= self.store.nodes else self.store.inbox(node)
        if "send" in self.wrong or not live:
            return self.rng.choice((self.rng.choice(self.store.live or [0]), self.event("send")))
        return self.rng.choice((live[0], live[-1], self.rng.choice(live)))

    def event(self, name):
        count = len(self.store.events)
        if name in self.wrong or not count:
            return self.rng.choice([count, count, count + 1, *NO_EVENTS])
        return self.rng.choice((self.rng.randrange(count), max(count - 1 - self.rng.randrange(6), 0)))

    def listed(self, event):
        """A list of events, mostly a chain of the event or nearly one."""
        if event >= len(self.store.events):
            return [self.event("listed") for _ in range(self.rng.randrange(3))]
        chain = [link.number for link in self.store.chain(self.store.events[event])]
        place = self.rng.randrange(len(chain))
        changed = [
            chain,
            chain,
            chain[1:],
            chain[:-1],
            chain[:place] + chain[place + 1 :],
            chain[:place] + [self.event("listed")] + chain[place + 1 :],
            chain[:place] + [self.event("listed")] + chain[place:],
            [max(chain[0] - 1, 0), *chain],
            chain[::-1],
            self.other_way(event, len(chain)),
            self.other_way(event, place + 1),
        ]
        return self.rng.choice(changed)

    def other_way(self, event, length):
        """So many events, if there are, along any direct predecessors."""
        way = [event]
        while len(way) < length and self.store.events[way[0]].predecessors():
            way.insert(0, self.rng.choice(self.store.events[way[0]].predecessors()))
        return way

    def cut(self):
        """The L and C of a cut: mostly the stamp of an event, or the one beside it."""
        if not self.store.events or self.rng.random() < 0.1:
            return self.rng.choice(((0, 0), (model.MOST_NUMBER, 0), (10, model.FULL + 5), (10, model.MOST_NUMBER)))
        l, c = self.rng.choice(self.store.events).stamp
        return self.rng.choice(((l, c), (l, c), (l, c + 1), (l, max(c - 1, 0)), (l + 1, 0), (l - 1, 2)))

    # Records

    def fields(self, word):
        """A record of a word, by chance with one to three wrong fields."""
        names = model.WORDS[word]
        is_broken = self.rng.random() < self.broken
        self.wrong = self.rng.sample(names, min(self.rng.choice((1, 2, 2, 3)), len(names))) if is_broken else ()
        node, event = self.node(word), self.event("event")
        found = {"node": node, "event": event, "other": self.event("other"), "checked": self.event("checked"), "value": self.value()}
        found |= {"key": self.key(word, node), "reading": self.reading(node), "target": self.target(node), "send": self.send(word, node)}
        if word == b"why" and not self.wrong and self.rng.random() < 0.8:
            found["event"], found["other"] = sorted((event, found["other"]))
        found |= dict(zip("lc", self.cut()))
        fields = [found[name] for name in names] + (self.listed(found["checked"]) if word == model.LISTED else [])
        return [word, *(value if isinstance(value, bytes) else whole(self.rng, value) for value in fields)]

    def draw(self, weights):
        """Asks a record of one of these words."""
        words, often = [*weights], [*weights.values()]
        self.ask(self.fields(self.rng.choices(words, often)[0]))

    def spoil(self, fields):
        """A record with one or two faults: another word, a field more or less, or one that is no number."""
        for _ in range(self.rng.choice((1, 1, 2))):
            place = self.rng.randrange(len(fields))
            choice = self.rng.randrange(5)
            if choice == 0:
                fields = [self.rng.choice(ODD_WORDS), *fields[1:]]
            elif choice == 1:
                fields = fields[:place] + fields[place + 1 :] or [b""]
            elif choice == 2:
                fields = fields[:place] + [self.rng.choice((b"", b"1", b"x"))] + fields[place:]
            elif len(fields) > 1:
                place = max(place, 1)
                fields = fields[:place] + [self.rng.choice(ODD_NUMBERS)] + fields[place + 1 :]
        return fields

    def start(self):
        """A write at every node, or by chance an erasure."""
        for node in range(self.store.nodes):
            word, *value = self.rng.choice(([b"write", b"v%d" % node], [b"write", b""], [b"erase"]))
            self.ask([word, b"%d" % node, b"%d" % self.readings(self.rng, node, node), self.rng.choice(self.keys), *value])

    def show(self, *words):
        """Asks these words of every node, in turn."""
        for word in words:
            for node in range(self.store.nodes):
                self.ask([word, b"%d" % node])


def size(rng):
    return rng.choice((6, 12, 25, 25, 40, 40, 80, 200))


def keys(rng):
    plain = [b"k%d" % number for number in range(rng.choice((1, 2, 4, 4, 12)))]
    return plain + rng.sample(ODD_KEYS, 3) if rng.random() < 0.3 else plain


def drawn(rng, count, nodes=None, room=2.0, limit=None, readings=None, broken=0.0):
    """A script with nothing yet, and room for so many times this count of events."""
    nodes = nodes or rng.choice((2, 2, 3, 3, 3, 4, 4, 5, 5, 9, 20, 64))
    return Drawn(rng, nodes, max(int(count * room), 1), limit, readings or rng.choice(READINGS), keys(rng), broken)


def mixed(rng):
    """All words, some of them refused."""
    count = size(rng)
    limit = rng.choice((None, None, None, 0, 3, 50, 1000, model.MOST_READING))
    script = drawn(rng, count, room=rng.choice((0.3, 1, 1)), limit=limit, broken=rng.choice((0, 0.05, 0.2)))
    for _ in range(count):
        script.draw(ACTS | SHOWS | TELLS)
    return script.script()


def storms(rng):
    """A seeded script, with deliveries and losses of late messages between its records, and all tables after each record that may change one."""
    nodes, steps = rng.choice((2, 3, 4)), rng.choice((4, 8, 12))
    script = Drawn(rng, nodes, nodes * steps * 3, None, still, [b"k0", b"k1"])
    lists = [[] for _ in range(nodes)]
    for fields in model.records(model.storm(nodes, steps, rng.randrange(model.MOST_READING + 1))[0]):
        lists[int(fields[1])].append(fields)
    while any(lists):
        if rng.random() < 0.5:
            script.draw({b"lose": 1, b"deliver": 3})
        else:
            # Nodes take turns of some steps, so that messages wait.
            own, count = rng.choice([records for records in lists if records]), rng.randrange(1, 6)
            for fields in own[:count]:
                script.ask(fields)
            del own[:count]
        script.show(b"table")
    return script.script()


def inboxes(rng):
    """Many messages that wait, in any order delivered, pulled and lost, and all inboxes after each."""
    count = rng.choice((10, 25, 40))
    script = drawn(rng, count, nodes=rng.choice((2, 3, 3, 5)), broken=0.1)
    script.start()
    for _ in range(count):
        script.draw(MESSAGES)
        script.show(b"inbox")
    return script.script()


def relations(rng):
    """Many messages, also delivered again and again, and then how events stand to each other."""
    count = rng.choice((10, 25, 64))
    script = drawn(rng, count, nodes=rng.choice((2, 3, 4, 4, 6)), readings=rng.choice((still, tied)))
    script.start()
    for _ in range(count):
        script.draw({b"write": 2, b"send": 4, b"deliver": 5, b"pull": 1})
    events = [b"%d" % event for event in range(len(script.store.events) + 1)]
    pairs = [(event, other) for event in events for other in events]
    for event, other in rng.sample(pairs, min(len(pairs), 150)):
        script.ask([b"relation", event, other])
    for event, other in rng.sample(pairs, min(len(pairs), 40)):
        script.ask([b"why", *sorted((event, other), key=int)])
    for event in rng.sample(events, min(len(events), 8)):
        script.ask([b"influenced", event])
    return script.script()


def explanations(rng):
    """Events of few readings, or of clocks that jumped, and why each stamp is as it is."""
    count = rng.choice((10, 25, 50))
    script = drawn(rng, count, nodes=rng.choice((2, 3, 4, 5)), readings=rng.choice((still, tied, tied, skewed, jumping)))
    script.start()
    for _ in range(count):
        script.draw({b"write": 3, b"send": 4, b"sync": 1, b"deliver": 6, b"pull": 2})
    for _ in range(2 * count):
        script.draw({b"explain": 3, b"check": 4, b"tainted": 2})
    script.show(b"drift")
    return script.script()


def limits(rng):
    """Clocks far apart, under limits of drift."""
    count = rng.choice((12, 25, 50))
    limit = rng.choice((0, 1, 2, 5, 20, 60, 300, model.MOST_READING - 1, model.MOST_READING))
    script = drawn(rng, count, limit=limit, nodes=rng.choice((2, 3, 4)), readings=rng.choice((tied, skewed, jumping, great, any_reading)))
    script.start()
    for _ in range(count):
        script.draw(MESSAGES | {b"inbox": 1, b"drift": 2, b"table": 1})
    script.show(b"drift", b"inbox")
    return script.script()


def refusals(rng):
    """Requests with several faults each, before and after the history is full."""
    count = rng.choice((25, 50))
    script = drawn(rng, count, nodes=rng.choice((2, 3)), room=rng.choice((0.2, 0.4)), limit=rng.choice((None, 0, 5)))
    script.start()
    script.broken = rng.choice((0.3, 0.5, 0.8))
    for _ in range(count):
        script.draw(ACTS | {b"lose": 2})
    for _ in range(count // 3):
        script.draw(SHOWS | TELLS)
    return script.script()


def malformed(rng):
    """Records of which some have a wrong word, too many or too few fields, or fields that are no numbers."""
    count = rng.choice((12, 25, 50))
    script = drawn(rng, count, broken=rng.choice((0, 0.2)))
    for _ in range(count):
        fields = script.fields(rng.choice([*model.WORDS]))
        script.ask(script.spoil(fields) if rng.random() < 0.4 else fields)
    return script.script()


def ties(rng):
    """Rounds in which all nodes read the same, and write and erase a few keys without knowing of each other, so that many ranks differ by their nodes alone.
    Between the rounds entries are passed on, and all tables are shown."""
    script = drawn(rng, 60, nodes=rng.choice((2, 3, 4)))
    script.keys = script.keys[:2]
    for start in range(100, 100 * rng.randrange(2, 5), 100):
        script.readings = lambda rng, step, node: start
        for _ in range(rng.randrange(2, 4)):
            script.start()
        for _ in range(rng.randrange(4, 12)):
            script.draw({b"erase": 1, b"send": 3, b"sync": 2, b"deliver": 5, b"pull": 2})
        script.show(b"table")
        script.draw({b"snapshot": 1})
    return script.script()


def tables(rng):
    """Writes and erasures at every node, syncs, and messages that come late, and then tables as they are and as they were at cuts."""
    count = rng.choice((15, 30, 60))
    script = drawn(rng, count, nodes=rng.choice((2, 3, 4)), readings=rng.choice((tied, rising, skewed, jumping)))
    for _ in range(count):
        script.draw(TABLES)
        if rng.random() < 0.2:
            script.show(b"table")
    script.show(b"table")
    for _ in range(rng.randrange(10)):
        script.draw({b"snapshot": 1})
    return script.script()


KINDS = (mixed, mixed, storms, inboxes, relations, explanations, limits, refusals, malformed, ties, tables)


def script(rng, kind):
    """The script of a kind, of KINDS in turn."""
    return KINDS[kind % len(KINDS)](rng)


def long_script(rng, length):
    """A history of so many events, which then is full, and questions of its events and nodes. Most stamps rise from the first reading."""
    script = Drawn(rng, 5, length, None, tied, [b"k"])
    script.ask([b"write", b"0", b"1000", b"k", b"v"])
    script.ask([b"send", b"0", b"10", b"1", b"k"])
    while len(script.store.events) < length:
        # The first send is delivered again and again.
        again = [b"deliver", b"1", b"10", b"1"]
        script.draw({b"write": 1, b"send": 3, b"pull": 3}) if rng.random() < 0.9 else script.ask(again)
    script.draw({b"write": 1})
    script.show(b"drift", b"table")
    ends = [0, 1, length - 1, length, *(place for page in range(1023, length, 1024) for place in (page - 1, page, page + 1))]
    for event in [*ends, *(rng.randrange(length) for _ in range(40))]:
        number, other = b"%d" % event, b"%d" % rng.randrange(length)
        for fields in [b"explain", number], [b"relation", number, other], [b"why", *sorted((number, other), key=int)]:
            script.ask(fields)
    for event in ends:
        script.ask([b"influenced", b"%d" % event])
        script.ask([b"tainted", b"%d" % event])
    script.draw({b"snapshot": 1})
    return script.script()


# Traces


def claim(rng, event, last, wrong):
    """The record of a trace that claims an event of a history, if the last stamp claimed at its node is that; and the stamp that it claims."""
    l, c = event.stamp
    if rng.random() < wrong:
        near = (l, c + 1), (l + 1, 0), (l, max(c - 1, 0)), (l - 1, c), (l, model.FULL)
        l, c = rng.choice((*near, (event.reading, 0), (event.reading - 1, c), last, (last[0], last[1] + 1)))
    word = event.word if event.carried else b"receive" if event.sent is not None else rng.choice((b"local", b"send"))
    sent = [event.sent] if word == b"receive" else []
    return [word, *(whole(rng, number) for number in (event.node, event.reading, *sent, l, c))], (l, c)


def spoilt(rng, fields):
    """A record of a trace with a fault, which may be one that only the whole trace shows."""
    place = rng.randrange(1, len(fields))
    choice = rng.randrange(6)
    if choice == 0:
        return [rng.choice((b"write", b"Local", b"", b"receives", b"deliver")), *fields[1:]]
    if choice == 1:
        return fields[:place] + fields[place + 1 :] if rng.random() < 0.5 else [*fields, b"1"]
    if choice == 2:
        return fields[:place] + [rng.choice(ODD_NUMBERS)] + fields[place + 1 :]
    if choice == 3:
        return fields[:-1] + [b"%d" % rng.choice((model.FULL + 1, model.MOST_NUMBER))]
    if choice == 4:
        return [fields[0], rng.choice((b"63", b"64", b"64", b"65536", b"%d" % model.MOST_NUMBER)), *fields[2:]]
    return fields[:2] + [rng.choice((b"0", b"%d" % model.MOST_READING, b"%d" % (model.MOST_READING + 1)))] + fields[3:]


def trace(rng):
    """A history as another system may have claimed it: with its own stamps, or some other ones, and by chance with faults."""
    count = rng.choice((4, 10, 25, 60))
    script = drawn(rng, count)
    for _ in range(count):
        script.draw({b"write": 4, b"send": 5, b"sync": 1, b"deliver": 5, b"pull": 3})
    wrong, faults = rng.choice((0, 0.1, 0.5)), rng.choice((0, 0, 0, 0.05, 0.2))
    records, last = [], {}
    for event in script.store.events:
        fields, last[event.node] = claim(rng, event, last.get(event.node, (0, 0)), wrong)
        if fields[0] == b"receive" and rng.random() < faults:
            # Of a send of the same node, of an event that may be no send, or of a later one.
            own = [other.number for other in script.store.at[event.node] if other.carried and other.number < event.number]
            fields[3] = b"%d" % rng.choice((*own[:3], rng.randrange(len(script.store.events) + 2), model.FULL + 1))
        records.append(spoilt(rng, fields) if rng.random() < faults / 2 else fields)
    return records
