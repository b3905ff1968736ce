"""Logs to audit, from seeds: small ones of every kind with and without faults, and those of a cluster with planted faults."""

import heapq
import json

import model

# Text


def field(rng, data, quotes):
    """A field, in quotes if it has to be, and else by chance."""
    if set(data) & set(b',"\r\n') or rng.random() < quotes:
        return b'"' + data.replace(b'"', b'""') + b'"'
    return data


def text(rng, records, plain=False):
    """The records as text. Unless it is to be plain, some fields are quoted, there may be blank lines, and lines end in several ways."""
    if plain:
        return b"".join(b",".join(field(rng, data, 0) for data in fields) + b"\n" for fields in records)
    quotes, blanks = rng.choice((0, 0, 0.1, 1)), rng.choice((0, 0, 0.2))
    ends = rng.choice(((b"\n",), (b"\n",), (b"\r\n",), (b"\r",), (b"\n", b"\r\n", b"\r")))
    lines = []
    for fields in records:
        while rng.random() < blanks:
            lines.append(rng.choice(ends))
        lines += [b",".join(field(rng, data, quotes) for data in fields), rng.choice(ends)]
    if lines and rng.random() < 0.2:
        lines.pop()
    return b"".join(lines)


def scrambled(rng):
    """A text of a few records, some of them bad, between line ends and quotation marks of every kind."""
    parts = [b"\r", b"\n", b"\r\n", b'"', b'""', b",", b"\xef\xbb\xbf", b"local,a,1,1,0", b"local,a,1,1,0,", b"foo", b" "]
    head = b"".join(b"local,a,1,1,%d%s" % (c, rng.choice((b"\r", b"\n", b"\r\n", b',"\r\n\n"\n', b',"\n\r"\r'))) for c in range(rng.randrange(4)))
    return head + b"".join(rng.choice(parts) for _ in range(rng.randrange(12)))


def opened(rng, data):
    """A text with one more quotation mark, mostly where a field begins: as a rule nothing closes it then, or what it closes is open."""
    begins = [0] + [place + 1 for place, byte in enumerate(data) if byte in b",\n"]
    place = rng.choice(begins) if rng.random() < 0.7 else rng.randrange(len(data) + 1)
    # A line's end of two bytes stays whole.
    place += data[place - 1 : place + 1] == b"\r\n"
    return data[:place] + b'"' + data[place:]


def mixed(rng, lists):
    """The items of all lists, mixed in any way that keeps each list's order."""
    turns = [turn for turn, items in enumerate(lists) for _ in items]
    rng.shuffle(turns)
    rests = [iter(items) for items in lists]
    return [next(rests[turn]) for turn in turns]


def stamp_fields(form, stamp):
    l, c = stamp
    if form.packed:
        return [b"%d" % (l << form.packed | c)]
    return [b"%d.%010d" % stamp] if form.dotted else [b"%d" % l, b"%d" % c]


def follow(form, reading, *stamps):
    """The stamp that a clock gives after these; after a full C it goes on with the next L."""
    l, c = max([(reading, 0)] + [(l, c + 1) for l, c in stamps])
    return (l, c) if c <= form.full else (l + 1, 0)


def received(form, receives, reading, seen):
    """The stamp that a clock gives at a receive, by what it does there, if the greater of its own stamp and the message's is this."""
    if receives == model.TICK:
        return follow(form, reading, seen)
    return max(seen, (reading, 0)) if receives == model.MERGE_CLOCK else seen


# Small logs


class Record(list):
    """The fields of a record as a log without a header has them, and beside them those of the stamp that its message carried, if it tells one, the
    node that it names as the sender, if it does so in place of the message, and its seq, if it has one."""

    carried, sender, seq = (), b"", b""


ODD = [b",", b'"', b"\n", b"\r\n", b"\r", b" ", b"\xff", b"\x00", b"\xef\xbb\xbf", "é".encode(), b"a", b"0", b"=", b"\\", b"local"]


def name(rng, odd):
    if not odd:
        return b"n%d" % rng.randrange(1000)
    if rng.random() < 0.03:
        return bytes([rng.randrange(256)]) * 256
    return b"".join(rng.choice(ODD) for _ in range(rng.randrange(1, 5)))


def names(rng, count, odd):
    found = {}
    while len(found) < count:
        found[name(rng, odd)] = None
    return [*found]


def claimed(rng, form, reading, last, given, wrong):
    """What a node claims that last claimed one stamp, and now should claim another."""
    most_l = (model.MOST_NUMBER >> form.packed if form.packed else model.MOST_NUMBER) - 1
    l, c = given
    if rng.random() < wrong:
        l, c = rng.choice(
            (
                last,
                (last[0], max(last[1] - 1, 0)),
                (reading - 1, c),
                (rng.randrange(reading), rng.randrange(3)),
                (reading, 0),
                (l + rng.randrange(1, 4), 0),
                (l, c + 1),
                (l, c + rng.randrange(1, 9)),
                (l, form.full),
                (l + 1, rng.randrange(2)),
                (l + 1, 0),
            )
        )
    return min(l, most_l), min(c, form.full)


def small_form(rng):
    return rng.choice((model.Form(), model.Form(), model.Form(dotted=True), model.Form(packed=rng.choice((1, 2, 3, 4, 12, 18, 32)))))


def carried(rng, form, stamp):
    """What a record tells of the stamp that its message carried, if it was this: mostly that, and only what a log can tell."""
    most_l = (model.MOST_NUMBER >> form.packed if form.packed else model.MOST_NUMBER) - 1
    l, c = stamp
    if rng.random() < 0.3:
        l, c = rng.choice(((l, c + 1), (l + 1, 0), (l + 3, 1), (max(l - 1, 0), c), (l, 0), (0, 0), (l, model.MOST_FLOOR_C)))
    return min(l, most_l), min(c, form.full, model.MOST_FLOOR_C - 1)


def restored(rng, form, reading, last):
    """The stamp to which a clock is restored that last gave this one: mostly one that is above it, and only what a log can tell."""
    most_l = (model.MOST_NUMBER >> form.packed if form.packed else model.MOST_NUMBER) - 1
    l, c = max(last, (reading, 0))
    bounds = ((l + 5, 0), (l, c + 1), (l, c + 4), (l + 1, 3), (l, model.MOST_FLOOR_C))
    l, c = rng.choice(bounds if rng.random() < 0.8 else (last, (max(l - 2, 0), c), (0, 0)))
    return min(l, most_l), min(c, form.full, model.MOST_FLOOR_C)


def each_form(rng, turn):
    """Each form of stamps in its turn."""
    return (model.Form(), model.Form(dotted=True), model.Form(packed=rng.choice((1, 4, 12, 31, 32))))[turn % 3]


def small(rng, form, receives=model.TICK, restarts=0, carries=0, untold=0, senders=0):
    """The records of each node of a small log, whose clocks do this at receives. So many of its events are restarts, so many of its receives
    tell what their messages carried, and so many don't tell their stamps. So many of its sends have no name for their message, and so many of the
    other receives name the node that sent, too, if they tell what was carried."""
    nodes, events = rng.randrange(1, 7), rng.randrange(41)
    odd, wrong, lost = rng.random() < 0.4, rng.choice((0, 0, 0.05, 0.2, 0.6)), rng.choice((0, 0, 0, 0.1))
    highest = min(model.MOST_READING, model.MOST_NUMBER >> (form.packed or 0)) - 500
    time = rng.choice((1, 1, 10, 10, 1000, highest))
    pace, labels, unread = rng.choice((1, 2, 5)), rng.choice((0, 0.3)), rng.choice((0, 0, 0, 0.2, 1))
    skew = [rng.randrange(10) * rng.randrange(2) for _ in range(nodes)]
    lists, last, sends = [[] for _ in range(nodes)], [(0, 0)] * nodes, []
    called, messages = names(rng, nodes, odd), names(rng, events + 1, odd)
    for place in range(events):
        time += rng.randrange(pace)
        node = rng.randrange(nodes)
        reading = time + skew[node]
        word, message, from_node, seen, brought = b"local", (), b"", last[node], None
        chance = rng.random()
        if restarts and rng.random() < restarts:
            word = b"restart"
        elif chance < lost:
            word, message = b"receive", (messages[events],)
            if carries:
                brought = carried(rng, form, (max(reading + rng.randrange(-3, 9), 0), rng.randrange(3)))
                seen = max(seen, brought)
                if rng.random() < senders:
                    message, from_node = (b"",), rng.choice([*called, b"nobody"])
        elif chance < 0.4 and sends:
            sender, sent, stamp = rng.choice(sends[-6:])
            if sender != node or rng.random() < 0.1:
                brought = carried(rng, form, stamp) if not sent or carries and rng.random() < carries else None
                word, message, seen = b"receive", (sent,), max(seen, brought or stamp)
                if not sent or brought and rng.random() < senders:
                    message, from_node = (b"",), called[sender]
        elif chance < 0.75:
            word, message = b"send", (b"" if rng.random() < senders else messages[place],)
        if word == b"restart":
            given = restored(rng, form, reading, last[node])
        elif word == b"receive":
            given = received(form, receives, reading, seen)
        else:
            given = follow(form, reading, seen) if seen != (0, 0) else (reading, 0)
        repeats = senders and word == b"send" and last[node] != (0, 0) and rng.random() < 0.2
        if not repeats and word != b"restart":
            given = claimed(rng, form, reading, last[node], given, wrong)
        stamp = last[node] = last[node] if repeats else given
        if word == b"send":
            sends.append((node, *message, stamp))
        label = [b"".join(rng.choice(ODD) for _ in range(rng.randrange(4)))] if rng.random() < labels else []
        read = b"" if rng.random() < unread else b"%d" % reading
        of_stamp = [b""] * form.width if word == b"receive" and rng.random() < untold else stamp_fields(form, stamp)
        record = Record([word, called[node], read, *of_stamp, *message, *label])
        record.carried, record.sender = stamp_fields(form, brought) if brought else (), from_node
        lists[node].append(record)
    return lists


def retried(rng, form, lists):
    """The same records, and some sends again: later at the same node or anywhere at another one, with the same stamp or one after it. Some of the
    receives that tell what their message carried tell such a stamp."""
    again, told = [], {}
    for node, records in enumerate(lists):
        for place, fields in enumerate(records):
            message = fields[3 + form.width : 4 + form.width]
            while fields[0] == b"send" and message != [b""] and rng.random() < 0.3:
                other = node if rng.random() < 0.7 else rng.randrange(len(lists))
                first = place + 1 if other == node else 0
                of_stamp = fields[3 : 3 + form.width]
                if rng.random() < 0.7:
                    of_stamp = stamp_fields(form, follow(form, 0, form.stamp(of_stamp)))
                again.append((other, rng.randrange(first, len(lists[other]) + 1), [fields[2], *of_stamp, *message]))
                told.setdefault(message[0], []).append(of_stamp)
    called = [next((fields[1] for fields in records), b"nobody") for records in lists]
    lists = [[copied(fields) for fields in records] for records in lists]
    for fields in (fields for records in lists for fields in records if carried_by(fields) and rng.random() < 0.5):
        fields.carried = rng.choice(told.get(fields[3 + form.width], [fields.carried]))
    for node, place, rest in sorted(again, key=lambda one: one[:2], reverse=True):
        lists[node].insert(place, Record([b"send", called[node], *rest]))
    return lists


def crossed(rng, lists):
    """The records of each node, of which those of some nodes stand the other way round, so that receives may wait for one another."""
    return [records[::-1] if rng.random() < 0.7 else records for records in lists]


def exchanged(rng, lists):
    """The same records, but some of them exchanged with the next one of their node, as where threads write their lines."""
    found = [[copied(fields) for fields in records] for records in lists]
    for records in found:
        place = 0
        while place + 1 < len(records):
            if rng.random() < 0.2:
                records[place], records[place + 1] = records[place + 1], records[place]
                place += 1
            place += 1
    return found


def copied(fields, seq=None):
    """The same record, by itself, with this seq, if one is given."""
    record = Record(fields)
    record.carried, record.sender, record.seq = carried_by(fields), sender_of(fields), seq_of(fields) if seq is None else seq
    return record


def shuffled(rng, lists):
    """The same records with seqs that say in which order those of each node stand, and these in another order. Some of a node have one seq and then
    stand in their order, and its first ones may have none, as with 0."""
    found = []
    for records in lists:
        seq, step, told = rng.choice((0, 0, 1, 1000, model.MOST_NUMBER - 3 * len(records))), rng.choice((1, 2, 3)), []
        for fields in records:
            told.append(copied(fields, b"%d" % seq if seq or rng.random() < 0.5 else b""))
            seq += rng.randrange(step + 1)
        # (any of those that stand first among the records of their seq that are left)
        found.append([])
        while told:
            fields = rng.choice(told) if rng.random() < 0.6 else told[0]
            first = next(other for other in told if int(other.seq or 0) == int(fields.seq or 0))
            found[-1].append(first)
            told = [other for other in told if other is not first]
    return found


BAD_SEQS = [b"-1", b"x", b"1.0", b"18446744073709551616", b" 1", b"0" * 21]


def with_bad_seq(rng, lists):
    """The same records with seqs, of which one may be none."""
    lists = shuffled(rng, lists)
    some = [fields for records in lists for fields in records]
    for fields in rng.sample(some, min(len(some), rng.choice((1, 1, 2)))):
        fields.seq = rng.choice(BAD_SEQS)
    return lists


def carried_by(fields):
    """The fields of what a record's message carried, if it tells that."""
    return getattr(fields, "carried", ())


def sender_of(fields):
    """The node that a record names as the sender, if it does."""
    return getattr(fields, "sender", b"")


def seq_of(fields):
    """The seq of a record, if it has one."""
    return getattr(fields, "seq", b"")


def names_senders(form, records):
    """Whether some record names a node as the sender, or sends a message without a name: then there has to be a column for the first."""
    return any(sender_of(fields) or fields[0] == b"send" and fields[3 + form.width : 4 + form.width] == [b""] for fields in records)


def needs_header(form, lists):
    """Whether some record tells what a log without a header can't tell."""
    return any(names_senders(form, records) or any(carried_by(fields) for fields in records) for records in lists)


def without_a_node(rng, lists):
    """The records of all nodes but one, whose log is missing."""
    missing = rng.randrange(len(lists))
    return [records for node, records in enumerate(lists) if node != missing]


# Headers

OTHER_COLUMNS = [b"", b"id", b"Node", b"node ", b"kinds", b"l.c", b"\xef\xbb\xbfnode", b"local"]


def junk(rng):
    return rng.choice((b"", b"x", b"0", b"4294967296", b"local", b"kind", b'"', b"a,b\n", b"m" * 257))


def column_list(rng, form, records, spoils):
    """The names of the columns after `kind`, in any order, each with whether it counts: others may be there too, names may come twice, and those
    that not every event needs may be missing. If the log is to be spoilt, any of them may be."""
    has_messages = any(fields[0] in (b"send", b"receive") for fields in records)
    has_readings = any(fields[0] in model.KINDS and fields[2:3] not in ([], [b""]) for fields in records)
    is_carrying = any(carried_by(fields) for fields in records)
    names = [b"node", *form.columns, *(form.carried_columns if is_carrying else ())] + [b"reading"] * (rng.random() < (0.9 if spoils else 1 if has_readings else 0.5))
    names += [b"seq"] * any(seq_of(fields) for fields in records)
    names += [b"from"] * (names_senders(form, records) or rng.random() < 0.1)
    names += [b"message"] * (rng.random() < (0.9 if spoils else 1 if has_messages else 0.5)) + [b"label"] * (rng.random() < 0.7)
    rng.shuffle(names)
    if spoils and rng.random() < 0.25:
        del names[rng.randrange(len(names))]
    columns = [(name, True) for name in names]
    for _ in range(rng.choice((0, 0, 1, 3))):
        columns.insert(rng.randrange(len(columns) + 1), (rng.choice(OTHER_COLUMNS), False))
    # A stamp in another form is a column like any other.
    for name in rng.sample([b"stamp", b"l", b"c"], rng.choice((0, 0, 1, 3))):
        if name not in form.columns:
            columns.insert(rng.randrange(len(columns) + 1), (name, False))
    for name in rng.sample([b"carried", b"carried_l", b"carried_c"], rng.choice((0, 0, 1, 3))) if is_carrying else ():
        if name not in form.carried_columns:
            columns.insert(rng.randrange(len(columns) + 1), (name, False))
    for _ in range(rng.choice((0, 0, 1, 2))):
        first = rng.randrange(len(columns))
        columns.insert(rng.randrange(first + 1, len(columns) + 1), (columns[first][0], False))
    if rng.random() < 0.2:
        columns.insert(rng.randrange(len(columns) + 1), (b"kind", False))
    return columns


def headed(rng, form, records, spoils=False):
    """The records of a log under a header, with its events' fields in its columns. If it is to be spoilt, something may be wrong with the header,
    with where it stands, or with how many fields a record has."""
    columns = column_list(rng, form, records, spoils)
    width, table = form.width, [[b"kind", *(name for name, _ in columns)]]
    is_carrying = any(carried_by(fields) for fields in records)
    for fields in records:
        if fields[0] not in model.KINDS:
            table.append(fields)
            continue
        least, brought = 3 + width + (fields[0] in model.NAMED), carried_by(fields) or [b""] * width
        missing, more = least - len(fields), fields[least + 1 :]
        source, fields = fields, fields[: least + 1] + [b""] * missing
        under = dict(zip((b"node", b"reading", *form.columns), fields[1 : 3 + width]))
        under[b"message"] = fields[least - 1] if least > 3 + width else junk(rng)
        under[b"label"] = fields[least] if len(fields) > least else b""
        under |= {name: field if fields[0] == b"receive" else junk(rng) for name, field in zip(form.carried_columns, brought) if is_carrying}
        under[b"seq"] = seq_of(source)
        # (where the message is named, the sender isn't read)
        under[b"from"] = sender_of(source) if fields[0] == b"receive" and fields[least - 1] == b"" else junk(rng)
        placed = [fields[0], *(under[name] if counts else junk(rng) for name, counts in columns), *more]
        table.append(placed[: max(len(placed) - max(missing, 0), 1)])
    if spoils:
        spoil_header(rng, table)
    return table


def spoil_header(rng, table):
    """A table whose header may be no header, or stand elsewhere, or be there twice."""
    how = rng.randrange(12)
    if how == 0:
        table[0][0] = rng.choice((b"Kind", b"kind ", b"", b"node"))
    elif how == 1:
        table.insert(rng.randrange(len(table)) + 1, table[0])
    elif how == 2:
        table.insert(rng.randrange(len(table)), table.pop(0))
    elif how == 3:
        table.insert(0, [b"event", b"2"])
    elif how == 4:
        fields = rng.choice(table)
        fields.append(b"node")
    elif how == 5:
        del rng.choice(table)[rng.randrange(1, 3) :]


# JSON lines

OTHER_LINES = [b"", b" \t", b"started", b"{}", b"[]", b"null", b'{"kind":"heartbeat"}', b'{"kind":7}', b'{"kind":null,"node":"a"}', b'{"kind":"local"', b"{\xff}", b"==>"]
KIND_VALUES = {b"local": ["op", "local"], b"send": ["rpc.send", "reply"], b"receive": ["rpc.recv", "done", "receive"], b"restart": ["up"]}
PATHS = [".{}", ".{}", ".clock.{}", ".a b.{}.value", ".$t.{}"]


def as_json(rng, form, records, spoils=False):
    """Records of events as JSON lines, among other lines, and the options by which they are read. If they are to be spoilt, some values are of
    another type."""
    paths = {name.decode(): [name.decode()] for name in model.COLUMNS}
    fields, kinds = [], []
    for name in rng.sample([*paths], rng.randrange(len(paths))):
        path = rng.choice(PATHS).format(rng.choice((name, "x" + name)))
        if path[1:].split(".") not in paths.values():
            paths[name] = path[1:].split(".")
            fields.append(f"{name}={path}")
    # (those of the events of one word, by the word and the column)
    of_word = {}
    for name in rng.sample([*paths], rng.randrange(4)):
        word, path = rng.choice(model.KINDS), ["of", name]
        if name != "kind":
            of_word[word, name] = path
            fields.insert(rng.randrange(len(fields) + 1) if f"{name}" not in {text.split("=")[0] for text in fields} else len(fields), f"{word.decode()}.{name}=.of.{name}")
    told = rng.random() < 0.7
    if told:
        kinds = [f"{word.decode()}={','.join(values)}" for word, values in KIND_VALUES.items()]
    lines = []
    for record in records:
        while rng.random() < 0.1:
            lines.append(rng.choice(OTHER_LINES))
        if record[0] not in model.KINDS:
            lines.append(b",".join(record).replace(b"\n", b"").replace(b"\r", b"").replace(b"\xef\xbb\xbf", b""))
            continue
        found = {}
        for name, value in values_of(rng, form, record, told).items():
            if spoils and rng.random() < 0.02:
                value = rng.choice((None, True, -1, 1.5, 0, 2**64, [], {}, {"x": 1}, "", "x" * 257, 10**300, "9" * 30))
            put(found, of_word.get((record[0], name), paths[name]), value)
        lines.append(json.dumps(found, ensure_ascii=rng.random() < 0.5).encode())
        if rng.random() < 0.05:
            lines[-1] = b"\xef\xbb\xbf " + lines[-1] + b"\r"
    text = b"\n".join(lines) + (b"\n" if rng.random() < 0.8 else b"")
    return text, {"jsonl": True, "field": fields, "kind": kinds}


def values_of(rng, form, record, told):
    """The values of a record's fields by their columns' names; a stamp as it may be written."""
    least = 3 + form.width + (record[0] in model.NAMED)
    values = {"kind": rng.choice(KIND_VALUES[record[0]]) if told else record[0].decode()}
    values["node"] = record[1].decode("latin-1") if len(record) > 1 else None
    values["reading"] = number_value(rng, record[2]) if len(record) > 2 else None
    values |= stamp_values(rng, form, record[3 : 3 + form.width], "l", "c", "stamp")
    values |= stamp_values(rng, form, carried_by(record), "carried_l", "carried_c", "carried")
    if record[0] in model.NAMED and len(record) >= least:
        values["message"] = record[least - 1].decode("latin-1")
    if sender_of(record):
        values["from"] = sender_of(record).decode("latin-1")
    if seq_of(record):
        values["seq"] = number_value(rng, seq_of(record))
    if len(record) > least:
        values["label"] = record[least].decode("latin-1")
    # (what isn't there, is null, or is empty is the same)
    kept = [(name, value) for name, value in values.items() if value not in (None, "") or rng.random() < 0.3]
    rng.shuffle(kept)
    return dict(kept)


def number_value(rng, field):
    """A number, or its text."""
    return int(field) if field.isdigit() and len(field) < 21 and not field.startswith(b"0") and rng.random() < 0.5 else field.decode("latin-1")


def stamp_values(rng, form, fields, l, c, whole):
    """The values of a stamp, if there is one: two fields may be one text as well."""
    fields = [*fields]
    if form.width == 1 and fields:
        of_writer = b"/33" if fields[0] and rng.random() < 0.3 else b""
        if form.dotted and rng.random() < 0.3:
            fields[0] = fields[0].replace(b".", b":", 1)
        return {whole: number_value(rng, fields[0]) if not of_writer else (fields[0] + of_writer).decode("latin-1")}
    if len(fields) == 2 and all(fields) and rng.random() < 0.3:
        return {whole: rng.choice((b":", b".")).join(fields).decode("latin-1")}
    return {name: number_value(rng, field) for name, field in zip((l, c), fields)}


def put(found, keys, value):
    """Puts a value into an object, under the keys of its path."""
    for key in keys[:-1]:
        found = found.setdefault(key, {})
    found[keys[-1]] = value


NO_STAMPS = [b"", b"-1", b"1.", b".1", b"1.2.3", b"1.x", b"4294967296", b"1.4294967296", b"18446744073709551616", b"0" * 20 + b"1"]


def spoilt(rng, form, lists):
    """Small logs with faults: what is said of each record, or how records stand, is changed."""
    some = [records for records in lists if records]
    together = rng.choice(rng.choice(some)) if some and rng.random() < 0.4 else None
    for _ in range(rng.choice((1, 2, 3)) if some else 0):
        fields = together or rng.choice(rng.choice(some))
        how = rng.randrange(9)
        if how == 0:
            fields[0] = rng.choice((b"Local", b"", b"sync", b"local ", b"receive\x00", b"write", b"\xef\xbb\xbflocal"))
        elif how == 1 and len(fields) > 1:
            del fields[rng.randrange(1, len(fields)) :]
        elif how == 2:
            fields += [b"x"] * rng.randrange(1, 3)
        elif how == 3 and len(fields) > 2:
            fields[2] = rng.choice((b"0", b"", b"+1", b"1 ", b"9223372036854775808", b"18446744073709551616", b"0" * 21, b"1e3", b"x"))
        elif how == 4 and len(fields) > 3 + form.width:
            place = 3 + rng.randrange(form.width)
            fields[place] = rng.choice(NO_STAMPS)
        elif how == 5:
            place = rng.choice((1, 3 + form.width))
            if place < len(fields):
                fields[place] = rng.choice((b"", b"m" * 257, b"m" * 256))
        elif how == 6 and fields[0] == b"send" and len(fields) > 3 + form.width:
            fields = [*fields]
            rng.choice(some).append(fields)
        elif how == 7 and fields[0] == b"receive" and len(fields) > 3 + form.width:
            fields[3 + form.width] = b"sent by nobody"
        else:
            rng.shuffle(rng.choice(some))
    return lists


def spoil_stamps(rng, form, lists):
    """Spoils what some restarts tell of their stamps, and some receives of what their messages carried; or only changes it."""
    some = [fields for records in lists for fields in records if fields[0] == b"restart" or carried_by(fields)]
    for fields in rng.sample(some, min(len(some), rng.choice((1, 1, 2)))):
        greatest = rng.choice((model.MOST_FLOOR_C - 1, model.MOST_FLOOR_C, model.MOST_FLOOR_C + 1, model.FULL))
        spoilt = stamp_fields(form, (7, min(greatest, form.full)))
        if rng.random() < 0.6:
            spoilt[rng.randrange(form.width)] = rng.choice(NO_STAMPS)
        if carried_by(fields):
            fields.carried = spoilt
        elif len(fields) > 2 + form.width:
            fields[3 : 3 + form.width] = spoilt


def spoil_what_is_told(rng, form, lists):
    """Spoils the stamps that some records tell or don't tell, or by what they name their messages; or only changes it."""
    some = [fields for records in lists for fields in records if len(fields) > 3 + form.width]
    for fields in rng.sample(some, min(len(some), rng.choice((1, 2, 4)))):
        how = rng.randrange(7)
        if how == 0:
            fields[3 : 3 + form.width] = [b""] * form.width
        elif how == 1:
            fields[3 + rng.randrange(form.width)] = rng.choice((b"", b"7"))
        elif how == 2 and fields[0] in model.NAMED:
            fields[3 + form.width] = b""
        elif sender_of(fields):
            fields.sender = rng.choice((b"", b"s" * 256, b"s" * 257)) if how < 6 else fields.sender
            fields.carried = () if how > 4 else fields.carried


def crowd(rng, form, nodes, messages):
    """The records of each of many nodes: all have an event, and so many messages go between them, half of them between a few."""
    skew, few = [rng.randrange(10) for _ in range(nodes)], rng.sample(range(nodes), 4)
    events, lists, last, sent = [(b"local", node, ()) for node in range(nodes)], [[] for _ in range(nodes)], [(0, 0)] * nodes, {}
    for number in range(messages):
        among, message = few if number % 2 else range(nodes), (b"m%d" % number,)
        events += [(b"send", rng.choice(among), message), (b"receive", rng.choice(among), message)]
    for place, (word, node, message) in enumerate(events):
        reading = 10 + place + skew[node]
        last[node] = follow(form, reading, last[node], *((sent[message],) if word == b"receive" else ()))
        if word == b"send":
            sent[message] = last[node]
        lists[node].append(Record([word, b"n%d" % node, b"%d" % reading, *stamp_fields(form, last[node]), *message]))
    return lists


# A cluster

MILLISECOND = 1_000_000
CLUSTER = [b"db-eu-1", b"db-eu-2", b"db-us-1", b"db-us-2", b"db-ap-1"]
JUMPER, JUMP = 2, 800 * MILLISECOND
# Which faults are planted, after which part of the events, and the causes that they have to have.
FAULTS = [
    (0.10, "old", {b"behind"}),
    (0.20, "equal", {b"not-above"}),
    (0.25, "twice", {b"behind", b"not-above"}),
    (0.30, "jump", set()),
    (0.55, "skip", {b"ahead"}),
    (0.70, "deaf", {b"not-above"}),
    (0.85, "back", {b"not-above"}),
]


def cluster(rng, form, events, faults=True):
    """The records of each node of a cluster; the faults, each as a node, a place at it, and the causes; the node and the place of the jump."""
    unit = 1000 if form.packed else 1
    planted, pending, jump = [], [*FAULTS] if faults else [], None
    nodes = len(CLUSTER)
    skew = [rng.randrange(-8 * MILLISECOND, 8 * MILLISECOND) for _ in range(nodes)]
    lists, last, inboxes = [[] for _ in range(nodes)], [(0, 0)] * nodes, [[] for _ in range(nodes)]
    time = 1_700_000_000_123_456_789
    for place in range(events):
        due = pending[0][1] if pending and place >= pending[0][0] * events else None
        time += rng.randrange(1, 400_000)
        node = JUMPER if due == "jump" else rng.randrange(nodes)
        reading = (time + skew[node] + JUMP * (due == "jump")) // unit
        inbox, chance = inboxes[node], rng.random()
        word, message, before = b"local", (), [last[node]]
        if due != "jump" and inbox and inbox[0][0] <= time and (chance < 0.4 or len(inbox) > 4):
            _, sent, stamp = heapq.heappop(inbox)
            if rng.random() < 0.01:
                heapq.heappush(inbox, (time + MILLISECOND, sent, stamp))
            word, message, before = b"receive", (sent,), [last[node], stamp]
        elif due == "jump" or chance < 0.75:
            word, message = b"send", (b"m%d" % place,)
        stamp = follow(form, reading, *before)
        l, c = last[node]
        if due == "old" and word != b"receive" and l and reading > l and c < form.full:
            stamp = (l, c + 1)
        elif due == "equal" and l >= reading:
            stamp = last[node]
        elif due == "twice" and word != b"receive" and 0 < l < reading:
            stamp = last[node]
        elif due == "skip":
            stamp = (stamp[0] + 5 * MILLISECOND // unit, 0)
        elif due == "deaf" and word == b"receive" and follow(form, reading, last[node]) <= before[1]:
            stamp = follow(form, reading, last[node])
        elif due == "back" and word == b"local" and l > reading:
            stamp = (reading, 0)
        elif due != "jump":
            due = None
        if due:
            causes = pending.pop(0)[2]
            if causes:
                planted.append((node, len(lists[node]), causes))
            else:
                jump = (node, len(lists[node]))
        if word == b"send":
            for other in rng.sample([other for other in range(nodes) if other != node], rng.choice((1, 1, 1, 2))):
                if rng.random() > 0.02 or due:
                    heapq.heappush(inboxes[other], (time + rng.randrange(100_000, 3 * MILLISECOND), message[0], stamp))
        last[node] = stamp
        lists[node].append([word, CLUSTER[node], b"%d" % reading, *stamp_fields(form, stamp), *message])
    return lists, planted, jump


def bare(form, lists):
    """The header and the records of each node of a cluster's log, as they are where a receive gets no stamp, and names no more of its message than
    the node that sent it and the stamp that it carried."""
    header = [b"kind", b"node", b"reading", *form.columns, *form.carried_columns, b"from"]
    width = form.width
    sends = {fields[-1]: fields for records in lists for fields in records if fields[0] == b"send"}

    def told(fields):
        sent = sends[fields[-1]] if fields[0] == b"receive" else None
        if sent:
            return [*fields[:3], *[b""] * width, *sent[3 : 3 + width], sent[1]]
        return [*fields[: 3 + width], *[b""] * (width + 1)]

    return header, [[told(fields) for fields in records] for records in lists]
