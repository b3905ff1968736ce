#!/usr/bin/env python3
"""A model of `hlc audit`, written from docs/FORMATS.md and not from the code.

    .ci/audits/model.py [--packed B] [--dotted] [--tolerance D] [--receives RULE] [--unsent local] [--resent WHICH] [--lenient] [--all-faults] [--strict]
        [--limit D] [--groups] [--jsonl [--field NAME=PATH].. [--kind WORD=VALUE,..]..] [--reading-unit UNIT --l-unit UNIT] < LOG

It reads a log as bytes, and writes the report and ends with the status that the program has to have. It is plain and slow: each row is made
from the events, their direct predecessors and the least stamps, as the document says it, and nothing is kept beside them.
"""

import argparse
import bisect
import collections
import json
import os
import re
import sys

FULL = 2**32 - 1
# The greatest C of a floor that an event has of its own.
MOST_FLOOR_C = 2**31 - 1
MOST_NODES, LONGEST_NAME = 65_535, 256
MOST_READING, MOST_NUMBER = 2**63 - 1, 2**64 - 1
KINDS = (b"local", b"send", b"receive", b"restart")
# Those that have a message.
NAMED = (b"send", b"receive")
# What a clock does at a receive.
RECEIVES = TICK, MERGE, MERGE_CLOCK = "tick", "merge", "merge-clock"
# Which send of a message that is sent again a receive is of.
RESENT = FIRST, LAST = "first", "last"

# The columns of a log of JSON lines, in the places that they have in its records.
COLUMNS = (b"kind", b"node", b"reading", b"l", b"c", b"stamp", b"message", b"from", b"carried", b"carried_l", b"carried_c", b"seq", b"label")
# How many of a unit are a second.
UNITS = {"s": 1, "ms": 10**3, "us": 10**6, "ns": 10**9, "ntp64": 2**32}


class Bad(Exception):
    """The input isn't a log: the line, and why, which may be more than one word."""

    def __init__(self, line, *why):
        super().__init__(line, *why)
        self.line, self.why = line, why


class AllBad(Bad):
    """The input isn't a log: each reason that is told."""

    def __init__(self, faults):
        super().__init__(faults[0].line, *faults[0].why)
        self.faults = faults


# CSV in and out


def fields_of(text, start):
    """The fields of the record that starts there, which isn't a line's end, where the next one may start, and whether a quoted field never ends."""
    fields, field, place = [], bytearray(), start
    quoted, at_start = False, True
    while place < len(text):
        byte = text[place : place + 1]
        place += 1
        if quoted:
            if byte != b'"':
                field += byte
            elif text[place : place + 1] == b'"':
                field += byte
                place += 1
            else:
                quoted = False
        elif byte == b'"' and at_start:
            quoted, at_start = True, False
        elif byte == b",":
            fields.append(bytes(field))
            field, at_start = bytearray(), True
        elif byte in b"\r\n":
            break
        else:
            field += byte
            at_start = False
    return [*fields, bytes(field)], place, quoted


def records(text):
    """The records of a text, each with its line, up to one with a quotation mark that nothing closes, which is bad. A byte order mark at the
    head is no part of the text. A line ends with CR, with LF, or with CR LF, in quotation marks too."""
    text = text.removeprefix(b"\xef\xbb\xbf")
    ends = [end.end() for end in re.finditer(rb"\r\n|\r|\n", text)]
    place = 0
    while place < len(text):
        if text[place] in b"\r\n":
            place += 1
            continue
        line = bisect.bisect_right(ends, place) + 1
        end = text.find(b"\n", place)
        end = len(text) if end < 0 else end
        plain = text[place:end]
        if b'"' in plain or b"\r" in plain:
            fields, end, is_open = fields_of(text, place)
            if is_open:
                raise Bad(line, "quote")
            yield line, fields
        else:
            yield line, plain.split(b",")
        place = end


def file_name(fields):
    """The name of the file that a record marks, if it marks one."""
    field = fields[0]
    is_mark = len(fields) == 1 and field.startswith(b"==> ") and field[4:].endswith(b" <==") and 1 <= len(field) - 8 <= LONGEST_NAME
    return field[4:-4] if is_mark else None


# JSON lines


class Json:
    """Which value of a line is the field of a column, by its path, and which word a value of `kind` means."""

    def __init__(self, fields=(), kinds=()):
        # (those that were given, with the word of their events or none)
        self.given = []
        self.words = {}
        for text in fields:
            name, path = os.fsdecode(text).split("=", 1)
            word, _, name = name.rpartition(".")
            self.given.append((word.encode(), name.encode(), path.split(".")[1:]))
        for text in kinds:
            word, values = os.fsencode(text).split(b"=", 1)
            for value in values.split(b","):
                self.words.setdefault(value, word)
        for word in KINDS:
            self.words.setdefault(word, word)

    def records(self, text):
        """The records that the lines of a text stand for, each with its line."""
        for place, line in enumerate(text.split(b"\n")):
            line = line.removeprefix(b"\xef\xbb\xbf")
            if line.strip(b" \t\r"):
                mark = line.removesuffix(b"\r")
                yield place + 1, [mark] if file_name([mark]) else self.record(json_object(line))

    def record(self, found):
        """The record that tells what an object does, if that tells of an event."""
        word = self.words.get(self.field(found, b"", b"kind"))
        if word is None:
            return [b"skipped"]
        fields = {name: self.field(found, word, name) for name in COLUMNS}
        fields[b"kind"] = word
        for whole, l, c in ((b"stamp", b"l", b"c"), (b"carried", b"carried_l", b"carried_c")):
            fields[whole] = fields[whole].split(b"/")[0].replace(b":", b".", 1)
            if not fields[l] and not fields[c]:
                fields[l], _, fields[c] = fields[whole].partition(b".")
        return [*fields.values()]

    def field(self, found, word, name):
        """The text of the value at the path of a column of the events of a word."""
        path = [name.decode()]
        for given, column, keys in self.given:
            if column == name and given in (b"", word):
                path = keys
        for key in path:
            found = found.get(key) if isinstance(found, dict) else None
        if isinstance(found, str):
            return found.encode().replace(b"\\", b"\\\\").replace(b"\n", b"\\n").replace(b"\r", b"\\r")
        if isinstance(found, Number):
            return b"%d" % found.whole if found.whole is not None else b"-"
        return b""


class Number:
    """A number of a JSON text, by what it is if it is whole and neither negative nor too great."""

    def __init__(self, text):
        whole = re.fullmatch("[0-9]+", text) and int(text) <= MOST_NUMBER
        self.whole = int(text) if whole else None
        if abs(float(text)) == float("inf"):
            raise ValueError


def json_object(line):
    """The object that a line is, with its numbers as `Number`s; of any other line an empty one."""

    def refuse(text):
        raise ValueError

    try:
        found = json.loads(line.decode(), parse_int=Number, parse_float=Number, parse_constant=refuse)
        json.dumps(found, ensure_ascii=False, default=lambda number: 0).encode()
    except (ValueError, RecursionError):
        return {}
    return found if isinstance(found, dict) and depth(found) <= 127 else {}


def depth(found):
    """How deep arrays and objects stand in one another."""
    if isinstance(found, (dict, list)):
        return 1 + max(map(depth, found.values() if isinstance(found, dict) else found), default=0)
    return 0


class Line(int):
    """The number of a line, over all files, and how it is told: by its number in its file, behind the file's name, if it stands in one."""

    def __new__(cls, number, mark=None):
        """`mark` has the line of the last file mark before it, the file's name, and whether no mark before that has this name."""
        line = super().__new__(cls, number)
        line.told = b"%s:%d" % (mark[1], number - mark[0]) if mark else b"%d" % number
        line.can_be_asked = mark is None or mark[2]
        return line


def row(*cells):
    """A row as it is written."""
    cells = [cell.told if isinstance(cell, Line) else cell for cell in cells]
    fields = [cell if isinstance(cell, bytes) else str(cell).encode() for cell in cells]
    return b",".join(b'"' + field.replace(b'"', b'""') + b'"' if set(field) & set(b',"\r\n') else field for field in fields) + b"\n"


# Records


def number(field, most=MOST_NUMBER):
    """The number that a field writes; None if it writes none, or a greater one."""
    if not 1 <= len(field) <= 20 or set(field) - set(b"0123456789"):
        return None
    return int(field) if int(field) <= most else None


class Form:
    """How stamps are written: as two fields, as one number with C in its low bits, or as one field with a dot."""

    def __init__(self, packed=None, dotted=False):
        self.packed, self.dotted = packed, dotted
        self.columns = (b"stamp",) if dotted or packed else (b"l", b"c")
        self.carried_columns = (b"carried",) if dotted or packed else (b"carried_l", b"carried_c")
        self.width = len(self.columns)
        self.full = 2**packed - 1 if packed else FULL

    def stamp(self, fields):
        """The stamp (L, C), or None."""
        if self.packed:
            both = number(fields[0])
            return None if both is None else (both >> self.packed, both & self.full)
        parts = fields[0].split(b".") if self.dotted else fields
        if len(parts) != 2:
            return None
        l, c = number(parts[0]), number(parts[1], FULL)
        return None if l is None or c is None else (l, c)


def worst(columns, fields):
    """The column of a stamp that is no good: of two, that of C if L is a number."""
    return columns[-1] if len(columns) == 1 or number(fields[0]) is not None else columns[0]


class Event:
    """What a record tells of, with the node by its place among the names, and its direct predecessors. What it claims is None if the log tells
    no stamp; its stamp is then the one that it is given."""

    __slots__ = ("line", "kind", "node", "reading", "is_told", "claim", "stamp", "message", "sender", "carried", "seq", "label")
    __slots__ += ("before", "sent", "ticks", "floor", "least", "forcing")

    def __init__(self, line, kind, node, reading, claim, message, sender, carried, seq, label, tolerance):
        self.line, self.kind, self.node, self.claim, self.stamp, self.seq, self.label = line, kind, node, claim, claim, seq, label
        self.message, self.sender, self.carried = message, sender, carried
        # (if it isn't told what the clock read, that is taken as L, as far as a clock may read it; and if it is told, as far as it isn't known)
        self.is_told, l = reading is not None, claim[0] if claim else 0
        self.reading = max(1, min(reading, max(l, reading - tolerance)) if self.is_told else min(l, MOST_READING))
        self.before = self.sent = self.ticks = self.floor = self.forcing = self.least = None

    def keep(self, receives):
        """Keeps what the clock rule asks here: whether the stamp has to be above those directly before it, and a pair below which it may not be."""
        is_receive = self.kind in (b"receive", b"outside")
        self.ticks = not is_receive or receives == TICK
        self.floor = (0, 0) if is_receive and receives == MERGE else (self.reading, 0)
        if self.kind == b"restart":
            self.floor = self.stamp
        elif self.kind == b"outside":
            self.floor = max(self.floor, following(self, self.carried))


class Log:
    """The events of a text in the order of the lines, the names of its nodes, and the questions among the records."""

    def __init__(
        self, text, form, unsent_local=False, questions=False, tolerance=0, receives=TICK, json=None, units=None, resent=None, lenient=False, all_faults=False
    ):
        self.tolerance, self.units, self.skipped, self.left_out, self.resent = tolerance, units, [], [], 0
        self.form, self.events, self.nodes, self.questions, self.unsent, self.header = form, [], {}, [], 0, COLUMNS if json else None
        # (a second send of a message is one of the bad records where these are left out, unless it is said which send a receive is of)
        self.sent = set() if lenient and not resent else None
        mark, is_first, names, faults = None, True, set(), []
        entries = json.records(text) if json else records(text)
        while True:
            try:
                line, fields = next(entries)
            except StopIteration:
                break
            except Bad as bad:
                raise AllBad([*faults, Bad(Line(bad.line, mark), *bad.why)]) from bad
            name = file_name(fields)
            if name is not None:
                mark, is_first, self.header = (line, name, name not in names), True, COLUMNS if json else None
                names.add(name)
                continue
            try:
                self.take(is_first and not json, Line(line, mark), fields, json, questions)
            except Bad as bad:
                if bad.why[0] == "header" or not lenient and not all_faults:
                    raise AllBad([*faults, bad]) from bad
                if all_faults:
                    faults.append(bad)
                else:
                    self.left_out.append((bad.why[0], bad.line))
            finally:
                is_first = False
        if faults:
            raise AllBad(faults)
        # (as events stand: by their seqs, and then by their lines)
        self.standing = sorted(self.events, key=lambda event: event.seq)
        faults = self.link(unsent_local, resent)
        if faults:
            raise AllBad(sorted(faults, key=lambda bad: bad.line) if all_faults else faults[:1])
        for event in self.events:
            event.keep(receives)
        self.order = self.causal_order(lenient)
        for event in self.order:
            if event.claim is None:
                event.stamp = given_stamp(event)
        self.give_least_stamps()

    def take(self, may_be_header, line, fields, json, questions):
        """Takes in a record."""
        if json and fields[0] in KINDS:
            self.look_for_all(line, dict(zip(COLUMNS, fields)))
        if may_be_header and fields[0] == b"kind":
            self.take_header(line, fields)
        elif fields == [b"skipped"]:
            self.skipped.append(line)
        elif fields[0] == b"skipped":
            raise Bad(line, "fields")
        elif questions and fields[0] in QUESTIONS:
            self.questions.append(question(line, fields))
        else:
            self.events.append(self.event(line, *(self.in_place(line, fields) if self.header else (fields, ()))))

    def look_for_all(self, line, under):
        """Looks whether a record of JSON lines has what its event needs, and names the first column that it lacks."""
        is_receive = under[b"kind"] == b"receive"
        of_stamp = [under[name] for name in self.form.columns]
        lacks = [b"node"] if not under[b"node"] else []
        if not is_receive or any(of_stamp):
            lacks += [name for name, field in zip(self.form.columns, of_stamp) if not field]
        if is_receive and not under[b"message"]:
            if not under[b"from"]:
                lacks.append(b"message")
            else:
                lacks += [name for name in self.form.carried_columns if not under[name]]
        if lacks:
            raise Bad(line, "field", lacks[0])

    def read(self, field):
        """What a field says that a clock read, in the unit of L."""
        if self.units is None:
            return number(field, MOST_READING)
        reading, of_reading, of_l = number(field), UNITS[self.units[0]], UNITS[self.units[1]]
        if self.units[1] == "ntp64" and self.form.packed:
            of_l = 2 ** max(32 - self.form.packed, 0)
        if not reading:
            return None
        read = max(reading * of_l // of_reading, 1)
        return read if read <= MOST_READING else None

    def take_header(self, line, fields):
        """Keeps the names of the columns, if all are there that each event needs."""
        self.header = fields
        if not {b"node", *self.form.columns} <= {*fields}:
            raise Bad(line, "header")

    def in_place(self, line, fields):
        """The fields of a record under a header, as they would stand without one, those of what a receive's message carried, the node that it
        names as the sender, and its seq; of a record of no event, its fields as they are."""
        if fields[0] not in KINDS:
            return fields, ()
        if len(fields) != len(self.header):
            raise Bad(line, "fields")
        under = {}
        for name, field in zip(self.header, fields):
            under.setdefault(name, field)
        message = [under.get(b"message", b"")] if fields[0] in NAMED else []
        label = [under[b"label"]] if under.get(b"label") else []
        carried = [under.get(name, b"") for name in self.form.carried_columns] if fields[0] == b"receive" else ()
        sender = under.get(b"from", b"") if message == [b""] and fields[0] == b"receive" else b""
        return [fields[0], *(under.get(name, b"") for name in (b"node", b"reading", *self.form.columns)), *message, *label], carried, sender, under.get(b"seq", b"")

    def event(self, line, fields, carried, sender=b"", of_seq=b""):
        """The event that a record tells of, with the fields of what its message carried, the sender that it names in place of the message, and the
        field of its seq."""
        if fields[0] not in KINDS:
            raise Bad(line, "word")
        named = fields[0] in NAMED
        least = 3 + self.form.width + named
        if len(fields) not in (least, least + 1):
            raise Bad(line, "fields")
        of_stamp = fields[3 : 3 + self.form.width]
        reading, stamp = self.read(fields[2]), self.form.stamp(of_stamp)
        has_stamp = fields[0] != b"receive" or any(of_stamp)
        if fields[2] and not reading:
            raise Bad(line, "number", b"reading")
        if has_stamp and stamp is None or fields[0] == b"restart" and stamp[1] > MOST_FLOOR_C:
            raise Bad(line, "number", worst(self.form.columns, of_stamp))
        if fields[0] == b"restart":
            reading = None
        brought = self.form.stamp(carried) if any(carried) else None
        if any(carried) and (brought is None or brought[1] >= MOST_FLOOR_C) or sender and brought is None:
            raise Bad(line, "number", worst(self.form.carried_columns, carried))
        seq = number(of_seq) if of_seq else 0
        if seq is None:
            raise Bad(line, "number", b"seq")
        message = fields[least - 1] if named else None
        names = {b"node": fields[1]}
        if named and not self.is_nameless(fields[0], message):
            names[b"from" if sender else b"message"] = message or sender
        for column, name in names.items():
            if not 1 <= len(name) <= LONGEST_NAME:
                raise Bad(line, "name", column)
        if self.sent is not None and fields[0] == b"send" and message in self.sent:
            raise Bad(line, "sent-twice")
        if fields[1] not in self.nodes and len(self.nodes) == MOST_NODES:
            raise Bad(line, "node")
        node = self.nodes.setdefault(fields[1], len(self.nodes))
        if self.sent is not None and fields[0] == b"send" and message:
            self.sent.add(message)
        label = fields[least] if len(fields) > least else None
        return Event(line, fields[0], node, reading, stamp if has_stamp else None, message, sender, brought, seq, label, self.tolerance)

    def is_nameless(self, word, message):
        """Whether a record is a send whose message has no name, as under a header with a column for the senders."""
        return word == b"send" and message == b"" and self.header is not None and b"from" in self.header[1:]

    def link(self, unsent_local, resent):
        """Finds each event's direct predecessors, and answers why there is no order: first the messages that are sent again, and then those that nobody sends."""
        last, sends, first, faults = {}, {}, {}, []
        for event in self.standing:
            event.before, last[event.node] = last.get(event.node), event
        for event in self.events:
            if event.kind == b"send":
                if event.message in sends:
                    if not resent:
                        faults.append(Bad(event.line, "sent-twice", event.message))
                    self.resent += 1
                if event.message:
                    sends.setdefault(event.message, []).append(event)
                first.setdefault((event.node, event.stamp), event)
        for event in self.events:
            if event.kind == b"receive":
                # (a node that no event has sends nothing)
                by_node = first.get((self.nodes.get(event.sender), event.carried))
                message = by_node and by_node.message if event.sender else event.message
                event.sent = send_of(event, sends[message], resent) if message in sends else by_node if event.sender else None
                if event.sent is None and event.carried is not None:
                    event.kind = b"outside"
                elif event.sent is None and not unsent_local:
                    faults.append(Bad(event.line, "unsent", event.message))
                elif event.sent is None:
                    event.kind = b"local"
                    self.unsent += 1
        return faults

    def causal_order(self, lenient):
        """The events, each after its direct predecessors. Those that wait, since no order has a place for them, are left out where bad records are."""
        waits = {event: len(predecessors(event)) for event in self.events}
        after = collections.defaultdict(list)
        for event in self.events:
            for other in predecessors(event):
                after[other].append(event)
        order = [event for event in self.events if not waits[event]]
        for event in order:
            for other in after[event]:
                waits[other] -= 1
                if not waits[other]:
                    order.append(other)
        if len(order) < len(self.events) and lenient:
            self.left_out += [("cycle", event.line) for event in self.events if waits[event]]
            self.events, self.standing = ([event for event in events if not waits[event]] for events in (self.events, self.standing))
        elif len(order) < len(self.events):
            raise AllBad([Bad(next(event.line for event in self.standing if waits[event]), "cycle")])
        return order

    def give_least_stamps(self):
        """The least stamp of each event, and the direct predecessor because of which it is above its floor."""
        for event in self.order:
            event.least = rule(event, lambda event, other: other.least)
            above = event.least != event.floor
            event.forcing = next((other for other in predecessors(event) if above and following(event, other.least) == event.least), None)

    def of_node(self, node):
        return [event for event in self.standing if event.node == node]


# What is said of an event


def send_of(event, sends, resent):
    """The send that a receive is of, among those of its message."""
    claimed = [send for send in sends if send.claim == event.carried]
    before = [send for send in sends if send.line < event.line]
    return (claimed or (before[::-1] if resent == LAST else []) or sends)[0]


def predecessors(event):
    """The direct predecessors: the event of its node before it, and the send."""
    return [other for other in (event.before, event.sent) if other]


def rule(event, stamp_of):
    """The stamp that the clock rule gives after these stamps of the direct predecessors."""
    return max([event.floor] + [following(event, stamp_of(event, other)) for other in predecessors(event)])


def following(event, stamp):
    """The least stamp that an event may have directly after this one."""
    l, c = stamp
    return (l, c + 1) if event.ticks else (l, c)


def given_stamp(event):
    """The stamp that an event is given whose own the log doesn't tell: what the clock rule gives after what was claimed, as far as there are
    stamps."""
    l, c = rule(event, seen)
    return (l, c) if c <= FULL else min((l + 1, 0), (MOST_NUMBER, FULL))


def seen(event, other):
    """The stamp of a direct predecessor as an event saw it: the claimed one, or of the send what its message carried, if the log tells that."""
    return event.carried if other is event.sent and event.carried is not None else other.stamp


def is_behind(event):
    """Whether an event claims a stamp below its floor."""
    return event.stamp < event.floor


def not_above(event, other):
    """Whether an event claims a stamp that it may not have directly after that of another one, as it saw it."""
    return event.stamp < following(event, seen(event, other))


def verdict(event, full):
    """The verdict on what an event claims."""
    if is_behind(event):
        return "behind"
    if any(not_above(event, other) for other in predecessors(event)):
        return "not-above"
    if event.stamp < event.least:
        return "low"
    if event.stamp == event.least:
        return "least"
    return "carried" if rolls_over(event, full) else "ahead"


def rolls_over(event, full):
    """Whether the rule gives a C that can't be written, and the stamp has the next L instead."""
    l, c = rule(event, seen)
    return c > full and event.stamp == (l + 1, 0)


def causes(event, full):
    """What its rows have after the node's name: the rules that were broken here."""
    broken = broken_by_claim(event, full) if event.claim else []
    if event.sent and event.carried not in (None, event.sent.stamp):
        broken.append(("carried", event.sent.line))
    return broken


def broken_by_claim(event, full):
    """The rules that are broken by what an event claims. What the document leaves open: after a full C the rule gives the next L."""
    broken = [("behind",)] if is_behind(event) else []
    swapped = ("swapped",) if stand_swapped(event, full) else ()
    broken += [("not-above", event.before.line, *swapped)] if event.before and not_above(event, event.before) else []
    broken += [("not-above", event.sent.line)] if event.sent and not_above(event, event.sent) else []
    l, c = rule(event, seen)
    given = (l, c) if c <= full else (l + 1, 0)
    return [("ahead", *given)] if not broken and event.stamp != given else broken


def stand_swapped(event, full):
    """Whether an event and its node's event before it stand in each other's place: the log tells both stamps, and each is the one that the rule gives
    in the place of the other."""
    first, second = event.before, event
    if not first or not first.claim or not second.claim:
        return False
    return second.stamp == given_after(second, first.before, full) and first.stamp == given_after(first, second, full)


def given_after(event, before, full):
    """The stamp that the rule gives an event, if this, or none, is its node's event before it."""
    seen_there = [seen(event, other) for other in (before, event.sent) if other]
    l, c = max([event.floor, *(following(event, stamp) for stamp in seen_there)])
    return (l, c) if c <= full else (l + 1, 0)


def chain(event):
    """The chain of an event's least stamp, origin first."""
    events = [event]
    while events[-1].forcing:
        events.append(events[-1].forcing)
    return events[::-1]


def drift(events):
    """What is told of the drift of a node's events by the least stamps: the greatest of those whose reading is told, the line of the first event
    that has it, and that of its origin; or that there is none."""
    told = [event for event in events if event.is_told]
    if not told:
        return ("none",)
    ahead = max(map(drift_at, told))
    first = next(event for event in told if drift_at(event) == ahead)
    return ahead, first.line, chain(first)[0].line


def drift_at(event):
    """How far an event's least L is above its reading, if that is told; not at all, if it is below it, as it may be where the clock isn't read."""
    return max(event.least[0] - event.reading, 0) if event.is_told else 0


# The report


VERDICTS = ("behind", "not-above", "low", "least", "ahead", "carried")


def report(log, unsent_local=False, resent=None, limit=None):
    """The rows of the report."""
    names, full = [*log.nodes], log.form.full
    counts = collections.Counter(verdict(event, full) for event in log.events if event.claim)
    yield from (row("count", word, counts[word]) for word in VERDICTS if counts[word])
    for event in log.events:
        yield from (row("cause", event.line, names[event.node], *found) for found in causes(event, full))
    of_nodes = [[] for _ in names]
    for event in log.standing:
        of_nodes[event.node].append(event)
    for name, events in zip(names, of_nodes):
        yield row("node", name, len(events), *drift(events))
    sends = [event for event in log.events if event.kind == b"send"]
    receives = [event for event in log.events if event.kind == b"receive"]
    times = collections.Counter(event.sent for event in receives)
    yield row("messages", len(sends), len(receives), sum(time > 1 for time in times.values()), sum(not times[send] for send in sends))
    yield from (row("skew", names[sender], names[receiver], *shown) for (receiver, sender), shown in sorted(skews(log).items()))
    yield from (row("units", factor) for factor in (10**3, 10**6, 10**9) if are_scaled(log, factor))
    if unsent_local:
        yield row("unsent", log.unsent)
    if resent:
        yield row("resent", log.resent)
    outside = sum(event.kind == b"outside" for event in log.events)
    if outside:
        yield row("outside", outside)
    unread = sum(not event.is_told for event in log.events)
    if unread:
        yield row("unread", unread)
    unstamped = sum(event.claim is None for event in log.events)
    if unstamped:
        yield row("unstamped", unstamped)
    if log.skipped:
        yield row("skipped", len(log.skipped), log.skipped[0])
    for word in ("word", "fields", "number", "name", "node", "field", "sent-twice", "cycle"):
        lines = [line for why, line in log.left_out if why == word]
        if lines:
            yield row("left-out", word, len(lines), lines[0])
    for name, events in zip(names, of_nodes):
        # (these are named by lines, whatever their seqs)
        over = [event for event in sorted(events, key=lambda event: event.line) if limit is not None and claimed_ahead(event) > limit]
        if over:
            furthest = max(over, key=claimed_ahead)
            yield row("over", name, len(over), over[0].line, claimed_ahead(furthest), way(furthest)[0].line)


def group_rows(log):
    """The rows of the groups of causes: each with how many it has, and the line of the first, in the order of the first ones."""
    names, full = [*log.nodes], log.form.full
    found = {}
    for event in log.events:
        for word, of in compared(event, full):
            found.setdefault((event.node, word, None if of is None else of.node), []).append(event.line)
    for (node, word, of), lines in found.items():
        yield row("group", names[node], word, b"" if of is None else names[of], len(lines), lines[0])


def compared(event, full):
    """For each of an event's causes its word, and the event with whose stamp the rule compares, or None if it does so with the reading, or with what
    else is the floor."""
    above = [other for other in (event.before, event.sent) if other and event.claim and not_above(event, other)]
    for word, *_ in causes(event, full):
        if word == "behind":
            yield word, None
        elif word == "not-above":
            yield word, above.pop(0)
        elif word == "ahead":
            yield word, followed(event)
        else:
            yield word, event.sent


def followed(event):
    """The event whose stamp that of the rule comes directly after: the one with the greater stamp, its node's own if they tie. None if the floor is
    above both."""
    others = [other for other in (event.before, event.sent) if other]
    greater = max(others, key=lambda other: seen(event, other), default=None)
    return greater if greater and event.floor <= seen(event, greater) else None


def are_scaled(log, factor):
    """Whether all stamps are ahead, with L at a factor of each reading, to within a tenth."""
    claims = [event for event in log.events if event.claim]
    both = [event for event in claims if event.is_told]
    return (
        bool(both)
        and all(verdict(event, log.form.full) == "ahead" for event in claims)
        and all(9 * factor * event.reading <= 10 * event.claim[0] <= 11 * factor * event.reading for event in both)
    )


def claimed_ahead(event):
    """How far the L that an event claims is above its reading; not at all, if either isn't told."""
    return event.claim[0] - event.reading if event.claim and event.is_told else 0


def way(event):
    """The way on which the L that an event claims, or is given, came, from where it was brought in."""
    events = [event]
    while True:
        with_it = [other for other in predecessors(events[-1]) if other.stamp[0] == event.stamp[0]]
        if not with_it:
            return events[::-1]
        events.append(max(with_it, key=lambda other: other.stamp[1]))


def skews(log):
    """For two nodes, the receiver first, the greatest reading of a send less that of its receive, and the lines of the first message that
    shows it. What the document leaves open: they may be one node, and rows come by the receiver first."""
    greatest = {}
    for event in log.standing:
        if event.kind == b"receive" and event.is_told and event.sent.is_told:
            pair, ahead = (event.node, event.sent.node), event.sent.reading - event.reading
            if pair not in greatest or ahead > greatest[pair][0]:
                greatest[pair] = (ahead, event.sent.line, event.line)
    return greatest


def broken(log):
    """Whether a cause is `behind`, `not-above` or `carried`."""
    return any(found[0] != "ahead" for event in log.events for found in causes(event, log.form.full))


def over_limit(log, limit):
    """Whether a drift exceeds the limit, or a claimed L is above its reading by more than that."""
    return any(max(drift_at(event), claimed_ahead(event)) > limit for event in log.events)


# Questions


def question(line, fields):
    """A question as it is asked: its word, and lines, or the name of a node, and the word of a rule."""
    word, given = fields[0], fields[1:]
    wanted = len(given) >= 1 if word == b"check" else len(given) == (2 if word in OF_TWO else 1)
    if not wanted:
        raise Bad(line, "fields")
    if word in OF_NODES:
        if word == b"first" and given[1] not in RULES:
            raise Bad(line, "fields")
        return word, given
    lines = [location(field) for field in given]
    if None in lines:
        raise Bad(line, "number")
    return word, lines


def location(field):
    """How a line is told that a question names; None if the field names none."""
    name, colon, digits = field.rpartition(b":")
    if number(digits) is None or (colon and not 1 <= len(name) <= LONGEST_NAME):
        return None
    return name + colon + b"%d" % number(digits)


def explain(log, at, line):
    event = at[line]
    return "chain", line, *event.least, *(other.line for other in chain(event))


def check(log, at, line, *lines):
    events = [at.get(other) for other in lines]
    event = at.get(line)
    yes = (
        event is not None
        and None not in events
        and events[-1:] == [event]
        and (events[0].floor[0], events[0].floor[1] + sum(other.ticks for other in events[1:])) == event.least
        and all(other in predecessors(following) for other, following in zip(events, events[1:]))
    )
    return "check", line, "yes" if yes else "no"


def past(log, event):
    """The events that happened before an event."""
    found, open_ones = set(), [event]
    while open_ones:
        for other in predecessors(open_ones.pop()):
            if other not in found:
                found.add(other)
                open_ones.append(other)
    return found


def relation(log, at, line, other):
    one, two = at[line], at[other]
    how = "same" if one is two else "before" if one in past(log, two) else "after" if two in past(log, one) else "concurrent"
    return "relation", line, other, how


def influenced(log, at, line):
    later = {at[line]}
    for event in log.order:
        if any(other in later for other in predecessors(event)):
            later.add(event)
    return "influenced", line, *sorted(event.line for event in later - {at[line]})


def why(log, at, line, other):
    """The way back from the second event, breadth first, to the node's event before ahead of the send."""
    first, second = at[line], at[other]
    after, open_ones = {second: None}, [second]
    for event in open_ones:
        for before in predecessors(event):
            if before not in after:
                after[before] = event
                open_ones.append(before)
    path, event = [], first if first in after else None
    while event:
        path.append(event.line)
        event = after[event]
    return "path", line, other, *(path or ["none"])


def tainted(log, at, line):
    """The events whose least stamps come out lower, if all are made again without the one floor."""
    least = {}
    for event in log.order:
        floor = (0, 0) if event is at[line] else event.floor
        least[event] = max([floor] + [following(event, least[other]) for other in predecessors(event)])
    return "tainted", line, *sorted(event.line for event in log.events if least[event] < event.least)


def first(log, at, name, rule):
    of_node = log.of_node(log.nodes[name])
    lines = [event.line for event in of_node if any(word.encode() == rule for word, *_ in causes(event, log.form.full))]
    return "first", name, rule, *(lines[:1] or ["none"])


def drift_of(log, at, name):
    return "drift", name, *drift(log.of_node(log.nodes[name]))


def claimed(log, at, line):
    return "claimed", line, *at[line].stamp, *(event.line for event in way(at[line]))


def told(log, at, line):
    event = at[line]
    label = () if event.label is None else (event.label,)
    name = [*log.nodes][event.node]
    word = verdict(event, log.form.full) if event.claim else "unstamped"
    return "event", line, name, event.reading if event.is_told else b"", *event.stamp, *event.least, word, *label


QUESTIONS = {
    b"explain": explain,
    b"check": check,
    b"relation": relation,
    b"influenced": influenced,
    b"drift": drift_of,
    b"claimed": claimed,
    b"event": told,
    b"why": why,
    b"tainted": tainted,
    b"first": first,
}
# The words that two fields follow, those that the name of a node follows, and those of the rules that a clock may break.
OF_TWO = (b"relation", b"why", b"first")
OF_NODES = (b"drift", b"first")
RULES = (b"behind", b"not-above", b"ahead", b"carried")


def answers(log, asked):
    """A row for each question, in the order in which they are asked."""
    at = {event.line.told: event for event in log.events if event.line.can_be_asked}
    for word, given in asked:
        if word in OF_NODES:
            missing = given[0] not in log.nodes and "no-node"
        else:
            missing = word != b"check" and not all(line in at for line in given) and "no-event"
        yield row("refused", missing) if missing else row(*QUESTIONS[word](log, at, *given))


# The command


def audit(
    text,
    packed=None,
    dotted=False,
    tolerance=None,
    receives=None,
    unsent=None,
    resent=None,
    strict=False,
    limit=None,
    questions=False,
    ask=(),
    with_report=False,
    jsonl=False,
    field=(),
    kind=(),
    reading_unit=None,
    l_unit=None,
    lenient=False,
    all_faults=False,
    groups=False,
):
    """What the program writes of a text, what it says to standard error, and its status."""
    units, json_lines = (reading_unit, l_unit) if l_unit else None, Json(field, kind) if jsonl else None
    try:
        log = Log(text, Form(packed, dotted), unsent == "local", questions, tolerance or 0, receives or TICK, json_lines, units, resent, lenient, all_faults)
        asked = log.questions + [question(0, fields) for given in ask for _, fields in records(given)]
    except AllBad as bad:
        return b"".join(row("bad", fault.line, *fault.why) for fault in bad.faults), b"hlc: bad log\n", 4
    except Bad as bad:
        return row("bad", bad.line, *bad.why), b"hlc: bad log\n", 4
    rows = b"".join(answers(log, asked))
    if not asked or with_report:
        rows = b"".join(report(log, unsent == "local", resent, limit)) + rows
    if groups:
        rows += b"".join(group_rows(log))
    if strict and broken(log):
        return rows, b"hlc: broken stamps\n", 3
    if limit is not None and over_limit(log, limit):
        return rows, b"hlc: over the limit\n", 3
    if not log.events:
        return rows, b"hlc: no events\n", 4 if strict else 0
    return rows, b"", 0


def main():
    line = argparse.ArgumentParser()
    line.add_argument("--packed", type=int)
    line.add_argument("--dotted", action="store_true")
    line.add_argument("--tolerance", type=int)
    line.add_argument("--receives", choices=RECEIVES)
    line.add_argument("--unsent", choices=["local"])
    line.add_argument("--resent", choices=RESENT)
    line.add_argument("--strict", action="store_true")
    line.add_argument("--limit", type=int)
    line.add_argument("--questions", action="store_true", help="answer the questions among the records")
    line.add_argument("--ask", action="append", default=[], type=os.fsencode)
    line.add_argument("--report", action="store_true", dest="with_report")
    line.add_argument("--groups", action="store_true")
    line.add_argument("--lenient", action="store_true")
    line.add_argument("--all-faults", action="store_true")
    line.add_argument("--jsonl", action="store_true")
    line.add_argument("--field", action="append", default=[], type=os.fsencode)
    line.add_argument("--kind", action="append", default=[], type=os.fsencode)
    line.add_argument("--reading-unit", choices=[*UNITS][:4])
    line.add_argument("--l-unit", choices=UNITS)
    rows, said, status = audit(sys.stdin.buffer.read(), **vars(line.parse_args()))
    sys.stdout.buffer.write(rows)
    sys.stderr.buffer.write(said)
    sys.exit(status)


if __name__ == "__main__":
    main()
