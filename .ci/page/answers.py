"""What the page answers and draws is what the program does, byte by byte."""

import base64
import json
import re
import xml.etree.ElementTree as tree
from concurrent.futures import ThreadPoolExecutor

from cases import CASES, cases
from page import asked, hold, words_of

SAYS = {1: (1, "no such event"), 2: (3, "broken stamps"), 3: (4, "bad log"), 6: (1, "too many records"), 8: (3, "over the limit")}
# Bad settings are refused by the program's command line, with status 2. It says which, and the page doesn't.
STATUS = {0: (0, ""), 5: (2, ""), **{status: (ended, f"hlc: {text}\n") for status, (ended, text) in SAYS.items()}}
# The program notes of a script that it draws that no record is an event, and of an audited log that it has none. The page shows the refusals, and no row.
NO_EVENTS = "hlc: no events\n"
NOTE = re.compile(r"hlc: none of [1-9]\d* records is an event\n")

# Which word an answer begins with, if it isn't that of the record.
ANSWERS = {**dict.fromkeys("write erase send sync deliver pull".split(), "event"), "lose": "lost", "get": "entry", "explain": "chain", "why": "path"}


def try_cases(page, program, count):
    """Random cases of each command. While the page answers them, the program does, on all processors."""
    with ThreadPoolExecutor() as pool:
        for command in CASES:
            given = cases(command, count)
            runs = pool.map(lambda case: asked(program, case[0], case[2]), given)
            told = [got for start in range(0, count, 100) for got in page.calls(command, given[start : start + 100])]
            bad = 0
            for seed, ((words, _, text), (status, answer), (out, code, said)) in enumerate(zip(given, told, runs, strict=True)):
                if command in ("draw", "trace") and code == 0 and NOTE.fullmatch(said) or command == "audit" and said == NO_EVENTS:
                    code, said = 0, ""
                ran = out, code, "" if code == 2 else said
                if (answer, *STATUS.get(status, (None, None))) != ran:
                    bad += 1
                    if bad == 1:
                        print(f"{command} {seed}: {words} of {text}: the page says {status} {answer[:300]}, the program {ran[1:]} {ran[0][:300]}")
            hold(f"{bad} of {count} cases of {command} differ", not bad)


def try_lines(page):
    """Each record of a script has one answer, beside its own line, and the line of a bad log is that of a record."""
    for kind, command in [("script", "run"), ("log", "audit")]:
        given = cases(command, 300)
        sent = json.dumps([[base64.b64encode(text).decode(), {**options, "kind": kind, "explain": "", "from": "", "to": "", "output": ""}] for _, options, text in given])
        got = page.ask(
            f"""(async () => {{
            const told = [];
            for (const [text, options] of {sent}) {{
                const {{ status, answers, lines, groups }} = await hlc.ask('work', Uint8Array.from(atob(text), letter => letter.charCodeAt(0)), options);
                const beside = [...groups.subarray(0, -1)].map((start, place) => new TextDecoder('latin1').decode(answers.subarray(start, groups[place + 1])).split(/[,\\n]/));
                told.push([status, [...lines], beside]);
            }}
            return told; }})()"""
        )
        for seed, ((_, _, text), (status, lines, beside)) in enumerate(zip(given, got, strict=True)):
            if kind == "script" and status == 0:
                hold(f"{kind} {seed}: {len(lines)} records and {len(beside)} answers", len(lines) == len(beside))
                known = re.split(rb"\r\n?|\n", text.removeprefix(b"\xef\xbb\xbf"))
                for line, row in ((line, row) for line, row in zip(lines, beside) if lines.count(line) == 1):
                    word = known[line].strip(b"\r").split(b",")[0].decode("latin1")
                    right = row[0] in {"refused", ANSWERS.get(word, word), "none" if word == "get" else "", "gone" if word == "get" else ""}
                    hold(f"{kind} {seed}: beside line {line + 1}, {known[line]}, stands {row}", right)
            if status == 3:
                hold(f"{kind} {seed}: no record begins on the line of {beside}", int(beside[0][1]) - 1 in lines)


def try_examples(page, program):
    """Each example, as it is shown."""
    names = page.ask("[...document.getElementById('example').options].map(option => option.text)")[1:]
    for place, name in enumerate(names):
        page.do(f"document.getElementById('example').value = '{place}'; document.getElementById('example').dispatchEvent(new Event('change'))")
        text = page.saved("save-text")
        lines = words_of(page)
        hold(f"{name}: the command lines are {lines}", len(lines) == (1 if page.value("kind") == "trace" else 2))
        hold(f"{name}: the answers differ", page.saved("save-answers") == asked(program, lines[0], text)[0])
        hold(f"{name}: other answers are shown", page.text("answers").encode() == asked(program, lines[0], text)[0])
        if len(lines) == 2:
            drawn = asked(program, lines[1], text)[0]
            hold(f"{name}: the picture differs", page.saved("save-svg") == drawn)
            dots = [group.get("id") for group in tree.fromstring(drawn).iter("{http://www.w3.org/2000/svg}g")]
            hold(f"{name}: other dots are shown", page.ask("[...document.querySelectorAll('#picture g[id]')].map(dot => dot.id)") == dots)
    return len(names)
