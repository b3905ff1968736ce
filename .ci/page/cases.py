"""Texts to ask the page and the program, from seeds: scripts, traces, logs and storms, well and badly formed."""

import json
import random

KEYS = ["a", "b", "cart", '"x,y"', '"a ""b"""', "ä", "", "<b>", '"two\nlines"']


def spoilt(rng, text):
    """The text, often with some letters that don't belong there."""
    for _ in range(rng.choice((0, 0, 0, 1, 2))):
        if text:
            place = rng.randrange(len(text))
            text = text[:place] + rng.choice(('"', ",", "\n", "\r\n", "9", "x", "", "\r", "\0")) + text[place + 1 :]
    return text.encode() + rng.choice((b"", b"", b"", b"\xff"))


def joined(rng, rows):
    return "\n".join(rows) + rng.choice(("", "\n"))


def script(rng):
    rows, events = [], 0
    for number in range(rng.choice((0, 1, 3, 10, 40))):
        node, reading, key, event = rng.randrange(3), rng.randint(1, 60), rng.choice(KEYS), rng.randrange(events + 1)
        rows.append(
            rng.choice(
                [f"write,{node},{reading},{key},v{number}"] * 4
                + [f"send,{node},{reading},{(node + 1) % 3},{key}", f"deliver,{node},{reading},{event}", f"pull,{node},{reading},k,v"] * 2
                + [f"erase,{node},{reading},{key}", f"sync,{node},{reading},{(node + 2) % 3}", f"lose,{event}", f"get,{node},{key}", f"table,{node}"]
                + [f"explain,{event}", f"relation,{event},{rng.randrange(events + 1)}", f"influenced,{event}", f"drift,{node}", f"check,{event},{event}"]
                + [f"why,{rng.randrange(events + 1)},{event}", f"tainted,{event}"]
                + [f"snapshot,{rng.randint(1, 60)},{rng.randint(0, 3)},{node}", f"inbox,{node}", key]
            )
        )
        events += 1
    return spoilt(rng, joined(rng, rows))


def trace(rng):
    """A trace; a few of them have more than a million bytes."""
    rows, places = [], 0
    for _ in range(60_000 if rng.random() < 0.002 else rng.choice((0, 1, 2, 5, 12, 40))):
        node, reading, l, c = rng.randrange(4), rng.randint(1, 30), rng.randint(1, 32), rng.choice((0, 0, 1, 2, 3))
        sent = rng.randrange(places + 1)
        rows.append(rng.choice((f"local,{node},{reading},{l},{c}", f"send,{node},{reading},{l},{c}", f"sync,{node},{reading},{l},{c}", f"receive,{node},{reading},{sent},{l},{c}")))
        places += 1
    return spoilt(rng, joined(rng, rows))


def log(rng, form):
    names, rows, messages = rng.sample(["a", "b", "n1", '"x,y"', "ä", "<i>"], 3), [], 0

    def stamp():
        l, c = rng.randint(1, 32), rng.choice((0, 0, 1, 2, 3))
        return f"{l << form | c}" if 1 <= form <= 32 else f"{l}.{c:010}" if form else f"{l},{c}"

    for _ in range(rng.choice((0, 1, 2, 6, 20))):
        node, reading, label = rng.choice(names), rng.randint(1, 30), rng.choice(("", ",<b>", ",why"))
        rows.append(f"local,{node},{reading},{stamp()}{label}")
        if rng.random() < 0.5:
            rows.append(f"send,{node},{reading},{stamp()},m{messages}{label}")
            if rng.random() < 0.9:
                rows.append(f"receive,{rng.choice(names)},{rng.randint(1, 30)},{stamp()},m{messages}")
            messages += 1
    if rng.random() < 0.4:
        line = rng.randint(1, len(rows) + 1)
        asked = [f"explain,{line}", f"relation,1,{line}", f"influenced,{line}", f"drift,{names[0]}", f"claimed,{line}", f"event,{line}", f"check,{line},1"]
        rows += rng.sample([*asked, f"why,1,{line}", f"tainted,{line}", f"first,{names[0]},behind"], 3)
    return spoilt(rng, joined(rng, rows))


def option(name, value):
    return [] if value is None else [f"--{name}", str(value)]


def settings(rng):
    """The settings of a cluster, a few of them out of their limits, as the words of the command line and as the page's."""
    nodes, capacity = rng.choice((2, 3, 3, 64) * 4 + (1, 65)), rng.choice((1, 8, 32, 1024) * 4 + (0,))
    limit = rng.choice((None, None, 0, 5, 20, 2**63 - 1))
    words = ["--nodes", str(nodes), "--capacity", str(capacity), *option("limit", limit)]
    return words, {"nodes": nodes, "capacity": capacity, "limit": "" if limit is None else str(limit)}


def run_case(rng):
    words, options = settings(rng)
    return ["run", *words], options, script(rng)


def view(rng, first):
    """What of a picture is asked for: events from a first number on."""
    return {name: rng.choice((None, rng.randrange(first, 20))) for name in ("explain", "from", "to")}


def drawn(words, options, asked):
    """The words and the page's options with what is asked of a picture."""
    for name, value in asked.items():
        words, options = words + option(name, value), {**options, name: "" if value is None else str(value)}
    return words, options


def around(rng):
    """So many rows about an event, or the chain of one alone, as the words of the command line and as the page's options."""
    event, rows, explained = rng.randrange(1, 20), rng.randint(1, 6), rng.choice((None, rng.randrange(1, 20)))
    if rng.random() < 0.4:
        return ["--explain", str(event), "--only-chain"], {"explain": str(event), "only": True}
    return ["--around", str(event), "--rows", str(rows), *option("explain", explained)], {"around": str(event), "rows": rows, "explain": "" if explained is None else str(explained)}


def draw_case(rng):
    if rng.random() < 0.2:
        words, options = settings(rng)
        event = str(rng.randrange(20))
        return ["draw", *words, "--explain", event, "--only-chain"], {**options, "explain": event, "only": True}, script(rng)
    asked = view(rng, 0)
    if asked["from"] is not None and asked["to"] is not None:
        asked["from"], asked["to"] = sorted((asked["from"], asked["to"]))
    words, options = drawn(*settings(rng), asked)
    return ["draw", *words], options, script(rng)


def trace_case(rng):
    (words, options), vector = settings(rng), rng.random() < 0.5
    return ["trace", *words, *(["--vector"] if vector else [])], {**options, "vector": vector}, script(rng)


def judge_case(rng):
    return ["judge"], {}, trace(rng)


def put(told, path, value):
    """A value in an object, at the end of a path."""
    *above, last = path.split(".")[1:]
    for key in above:
        told = told.setdefault(key, {})
    told[last] = value


def lines(rng, form, fields, kinds):
    """A log as lines of JSON, which says its columns where the fields say that they stand."""
    paths, named = dict(text.split("=", 1) for text in fields), dict(text.split("=", 1) for text in kinds)
    rows = []
    for number in range(rng.choice((0, 1, 2, 6, 20))):
        word, l, c = rng.choice(("local", "send", "receive", "receive", "restart", "started")), rng.randint(1, 32), rng.choice((0, 0, 1, 2))
        told = {"level": rng.choice(("info", 7, None)), "label": rng.choice(("", "<b>", "a\nb", 3))}
        stamp = {"stamp": l << form | c if 1 <= form <= 32 else rng.choice((f"{l}.{c}", f"{l}:{c}/id"))} if form or rng.random() < 0.3 else {"l": l, "c": rng.choice((c, str(c)))}
        columns = {"kind": rng.choice(named.get(word, word).split(",")), "node": rng.choice("ab"), "reading": rng.randint(1, 30), **stamp}
        if word in ("send", "receive"):
            columns["message"] = f"m{rng.randrange(number + 1)}"
        for name, value in columns.items():
            put(told, paths.get(f"{word}.{name}", paths.get(name, f".{name}")), value)
        rows += [json.dumps(told), *rng.choice(([], [], [], ["", "12:00 started", "[1]"]))]
    return spoilt(rng, joined(rng, rows))


def many(name, texts):
    return [word for text in texts for word in (f"--{name}", text)]


def reading(rng):
    """How a log is read, as the words of the command line and as the page's, and a log."""
    form, unsent = rng.choice((0, 0, 4, 12, 32, 33)), rng.random() < 0.4
    tolerance, receives = rng.choice((None, None, 0, 3, 2**63 - 1)), rng.choice((None, "tick", "merge", "merge-clock"))
    resent, faults = rng.choice((None, None, "first", "last")), rng.choice((None, None, "lenient", "all-faults"))
    readings, unit = rng.choice(((None, None), (None, None), ("s", "s"), ("ms", "us"), ("us", "ms"), ("ns", "ntp64")))
    words = [*(["--dotted"] if form == 33 else option("packed", form or None)), *option("tolerance", tolerance), *option("receives", receives)]
    words += ["--unsent", "local"] if unsent else []
    words += [*option("resent", resent), *([f"--{faults}"] if faults else []), *option("reading-unit", readings), *option("l-unit", unit)]
    options = {"form": form, "tolerance": "" if tolerance is None else str(tolerance), "receives": receives or "tick", "unsent": unsent}
    options |= {"resent": resent or "", "bad": faults or "", "reading-unit": readings or "", "l-unit": unit or ""}
    if rng.random() < 0.5:
        return words, options, log(rng, form)
    fields = [text for text in ("kind=.event", "node=.at.node", "receive.message=.parent", "node=.of") if rng.random() < 0.4]
    kinds = rng.choice(([], ["send=posted,sent"], ["local=1", "send=posted"]))
    text = lines(rng, form, fields, kinds)
    fields += rng.choice(([],) * 20 + (["x=.a"], ["node"]))
    kinds += rng.choice(([],) * 20 + (["post=x"], ["send=x,,y"]))
    return [*words, "--jsonl", *many("field", fields), *many("kind", kinds)], {**options, "jsonl": True, "fields": fields, "kinds": kinds}, text


def audit_case(rng):
    words, options, text = reading(rng)
    limit, report, groups = rng.choice((None, None, 0, 5)), rng.random() < 0.3, rng.random() < 0.3
    asked, output = rng.choice(([], [], ["event,1"], ["explain,2", "drift,a"], ["relation,1,2", "event"])), rng.choice((None, None, "csv", "json", "text", "text"))
    words = ["audit", *words, *option("limit", limit), "--strict", *(["--report"] if report else []), *(["--groups"] if groups else []), *many("ask", asked), *option("output", output)]
    return words, {**options, "limit": "" if limit is None else str(limit), "report": report, "groups": groups, "asked": asked, "output": output or ""}, text


def told_log(rng):
    """How a log is read, as the words of the command line and as the parts of an address, and a log that an address can have."""
    while True:
        words, options, text = reading(rng)
        if not text.strip() or b"\xff" in text or not {"x=.a", "node", "post=x", "send=x,,y"}.isdisjoint(words):
            continue
        form, limit = options.pop("form"), rng.choice((None, 0, 5))
        stamps = {"stamps": "dotted"} if form == 33 else {"stamps": "packed", "bits": form} if form else {"stamps": "pair"}
        parts = {name: "\n".join(value) if isinstance(value, list) else "1" if value is True else value for name, value in options.items() if value}
        return [*words, *option("limit", limit)], {"kind": "log", **stamps, **parts, **({} if limit is None else {"limit": limit}), "text": text.decode()}, text


def vectors_case(rng):
    words, options, text = reading(rng)
    return ["vectors", *words], options, text


def draw_log_case(rng):
    words, options, text = reading(rng)
    if rng.random() < 0.4:
        more, part = around(rng)
        return ["draw-log", *words, *more], {**options, **part}, text
    words, options = drawn(words, options, view(rng, 1))
    return ["draw-log", *words], options, text


def storm_case(rng):
    nodes, steps = rng.choice((*range(2, 9), *range(2, 9), 1, 65)), rng.randint(0, 12)
    seed = rng.choice((rng.randrange(100), rng.randrange(2**63)))
    return ["storm", "--nodes", str(nodes), "--steps", str(steps), "--seed", str(seed)], {"nodes": nodes, "steps": steps, "seed": str(seed)}, b""


CASES = {"run": run_case, "draw": draw_case, "trace": trace_case, "judge": judge_case, "audit": audit_case, "draw-log": draw_log_case, "vectors": vectors_case, "storm": storm_case}


def cases(command, count):
    """So many cases of a command: the words of the command line, the page's options, and the text."""
    return [CASES[command](random.Random(f"{command} {seed}")) for seed in range(count)]
