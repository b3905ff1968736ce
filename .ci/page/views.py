"""What of an execution is shown: filters and folds, a script step by step, two executions side by side, and what came out on top."""

import json
import re
import xml.etree.ElementTree as tree

import csv
import random
import time
from urllib.parse import urlencode

from cases import told_log
from page import TOP, asked, hold
from use import long_log

WORDED_LOGS = 120


def put(page, **values):
    """Sets controls that act by themselves, as a user does."""
    for name, value in values.items():
        page.ask(
            f"""(() => {{ const it = document.getElementById('{name.replace('_', '-')}');
            if (it.type === 'checkbox') it.checked = {json.dumps(value is True)}; else it.value = {json.dumps(str(value))};
            it.dispatchEvent(new Event('change', {{ bubbles: true }})); }})()"""
        )


# Of each arrow: whether it begins and ends at the sides of dots that are shown.
ARROWS_MEET = """[...document.querySelectorAll('#picture polyline.m, #picture polyline.p')].every(line => [line.points[0], line.points[line.points.length - 1]].every(point =>
    [...document.querySelectorAll('#picture g[id]')].some(dot => { const { e, f } = dot.transform.baseVal[0].matrix; return f === point.y && Math.abs(Math.abs(e - point.x) - 11) < 1; })))"""


def try_filters(page, program):
    """What the filters leave of the lost update, and of its arrows; and all of it again."""
    page.example("The lost update")
    page.ask("document.getElementById('filters').open = true")
    everything = page.dots()
    for values, events in [
        ({"shown": "message", "of": "4"}, [4, 5]),
        ({"shown": "message", "of": "5"}, [4, 5]),
        ({"shown": "past", "of": "5"}, [0, 1, 2, 3, 4, 5]),
        ({"shown": "future", "of": "7"}, [7, 8, 9]),
        ({"shown": "node", "node": "node 2"}, [3, 4, 5]),
        ({"shown": "causes"}, []),
        ({"shown": "all", "clock_from": "100", "clock_to": "105"}, [0, 1, 2, 5, 6]),
        ({"clock_from": "900", "clock_to": ""}, [3, 4]),
    ]:
        put(page, **values)
        hold(f"of the filters {values} there are {page.dots()}", page.dots() == [f"e{event}" for event in events])
        hold(f"of the filters {values} arrows lead nowhere", page.ask(ARROWS_MEET))
        hold(f"of the filters {values} it says {page.text('filtered')}", page.text("filtered") == f"{len(events)} of the 10 events that are drawn")
    hold(f"the address has no filters: {page.ask('location.hash')}", "&clock-from=900" in page.ask("location.hash"))
    saved = tree.fromstring(page.saved("save-svg"))
    hold("what is saved isn't what is shown", [group.get("id") for group in saved.iter("{http://www.w3.org/2000/svg}g")] == ["e3", "e4"])
    page.ask("document.getElementById('unfilter').click()")
    page.ask("[...document.querySelectorAll('#lanes input')].find(box => box.value === 'node 2').click()")
    hold("a node isn't hidden", page.dots() == ["e0", "e1", "e2", "e5", "e6", "e7", "e8", "e9"] and page.ask("document.querySelectorAll('#picture text.n').length") == 2)
    hold("without a node arrows lead nowhere", page.ask(ARROWS_MEET) and page.ask("document.querySelectorAll('#picture polyline').length") == 2)
    page.open(page.ask("location.hash"))
    hold("a node that is hidden comes back from the address", page.dots() == ["e0", "e1", "e2", "e5", "e6", "e7", "e8", "e9"])
    page.click("#e2 text")
    page.wait("document.getElementById('told').textContent !== ''")
    hold("a click brings a hidden node back", page.ask("document.querySelectorAll('#picture text.n').length") == 2)
    page.ask("[...document.querySelectorAll('#told a')].length, document.querySelector('#unfilter').click()")
    hold("not all is shown again", page.dots() == everything and page.text("filtered") == "")


def try_folds(page, program):
    """Events between messages are one dot with their number, until that is clicked on; what is found, or breaks the clock rule, isn't folded."""
    rows = [f"local,a,{10 + place},{10 + place},0,step {place}" for place in range(17)] + ["send,a,30,30,0,m", "receive,b,31,31,0,m"] + [f"local,b,{40 + place},{40 + place},0" for place in range(5)]
    text = "\n".join([*rows, "local,b,50,49,0"]) + "\n"
    page.answer("log", text, stamps="pair", limit="", explain="")
    put(page, folds=True)
    hold(f"folded there are {page.dots()}", page.dots() == ["e18", "e19", "e25", "f1", "f20"])
    shown = page.ask("[...document.querySelectorAll('#picture > svg > text')].map(text => text.textContent)")
    hold(f"of folded events it says {shown}", "17 events, (10, 0) to (26, 0)" in shown and page.ask("document.querySelector('#f1 > text').textContent") == "17")
    page.ask("document.getElementById('f20').focus()")
    page.key("ArrowUp", 38)
    hold(f"from folded events an arrow key leads to {page.ask('document.activeElement.id')}", page.ask("document.activeElement.id") == "e19")
    page.click("#f1 text")
    hold(f"unfolded there are {len(page.dots())}", len(page.dots()) == 21 and page.ask("document.activeElement.id") == "e1")
    put(page, folds=False)
    put(page, folds=True)
    page.ask("document.getElementById('search').value = 'label:step'; document.getElementById('find').click()")
    page.wait("document.getElementById('found').textContent !== ''")
    hits = page.ask("document.querySelectorAll('#picture .hit').length")
    hold(f"a search marks {hits} and says {page.text('found')}", hits == 17 and page.text("found") == "1 of 17: line 1")
    put(page, folds=False)


def try_filtered_log(page, program):
    """Filters look at all events of a log, not at the first ones alone."""
    page.open("#kind=script&text=")
    page.answer("log", long_log(2_000, 1_481), stamps="pair", limit="", explain="")
    page.do("document.getElementById('shown').value = 'causes'; document.getElementById('shown').dispatchEvent(new Event('change'))")
    hold(f"of 2,000 events the causes are {page.dots()}", page.dots() == ["e1481"])
    page.fill(around="1990")
    page.do("document.getElementById('draw').click()")
    hold(f"about an event the causes are {page.dots()}", page.dots() == ["e1481"])
    page.fill(around="")
    page.do("document.getElementById('unfilter').click()")
    hold(f"without filters {len(page.dots())} are drawn", len(page.dots()) == 500)


def try_steps(page, program):
    """A script that is played: each step says what it did, and has the picture and the tables up to it."""
    page.example("The lost update, with a limit")
    lines = page.value("text").splitlines(keepends=True)
    page.ask("document.getElementById('play').click()")
    page.wait("document.getElementById('step-count').textContent === '1 of 10'")
    for _ in range(5):
        before = page.text("step-count")
        page.key(" ", 32)
        page.wait(f"document.getElementById('step-count').textContent !== {json.dumps(before)}")
    hold(f"of the refused one it says {page.text('step-said')}", page.text("step-said") == "The message of event 4 comes to node 1. It is refused: too far ahead. Nothing changes.")
    page.key(" ", 32)
    page.wait("document.getElementById('step-count').textContent === '7 of 10'")
    hold(f"of a write it says {page.text('step-said')}", page.text("step-said") == "Node 1 writes cart = apple and pear. Event 5 has the stamp (105, 0).")
    hold(f"why: {page.text('step-why')}", page.text("step-why") == "Its clock read 105, and its last stamp was (102, 0). The clock is above all of these, so L is what it read, and C is 0.")
    words = "draw --nodes 3 --capacity 64 --limit 500 --explain 5 --from 0 --to 5".split()
    hold("the picture of a step differs", page.saved("save-svg") == asked(program, words, "".join(lines[:7]).encode())[0])
    tables = page.ask("[...document.querySelectorAll('#step-tables table')].map(table => [table.caption.textContent, ...[...table.tBodies[0].rows].map(row => [...row.cells].map(cell => cell.textContent).join())])")
    hold(f"the tables are {tables}", tables == [["Node 0", "cart,apple,(100, 0)"], ["Node 1", "cart,apple and pear,(105, 0)"], ["Node 2", "cart,pear,(900, 0)"]])
    page.key(" ", 32, shift=True)
    page.wait("document.getElementById('step-count').textContent === '6 of 10'")
    page.key("Escape", 27)
    hold("the text doesn't come back", page.ask("document.getElementById('left').offsetParent !== null && document.getElementById('step-part').hidden"))
    hold(f"the picture comes back with {page.dots()}", len(page.dots()) == 8)
    page.example("The lost update")
    page.ask("document.getElementById('play').click()")
    page.wait("document.getElementById('step-count').textContent === '1 of 10'")
    for _ in range(5):
        before = page.text("step-count")
        page.ask("document.getElementById('step-on').click()")
        page.wait(f"document.getElementById('step-count').textContent !== {json.dumps(before)}")
    why = "Its clock read 104, its last stamp was (102, 0), and the message carried (901, 0). The greatest L is 901, 797 ahead of its clock, and C is one more than 0, since a stamp has to rise."
    hold(f"why a delivery has its stamp: {page.text('step-why')}", page.text("step-why") == why)
    hold("a step doesn't mark its chain", page.ask("[...document.querySelectorAll('#picture g.k')].map(dot => dot.id)") == ["e4", "e5"])
    page.key("Escape", 27)
    page.answer("script", "write,0,9,a,x\nsync,0,9,1\npull,1,5,k,v\npull,1,5,k,v\nlose,7\n", nodes=2, capacity=16, limit="", explain="")
    page.ask("document.getElementById('play').click()")
    page.wait("document.getElementById('step-count').textContent === '1 of 5'")
    for place in range(2, 4):
        page.key(" ", 32)
        page.wait(f"document.getElementById('step-count').textContent === '{place} of 5'")
    hold(f"why a pull has its stamp: {page.text('step-why')}", "the message carried (9, 1)" in page.text("step-why"))
    page.key("Escape", 27)


def marks(page, frame):
    """Which rows of a picture have which marks."""
    return page.ask(
        f"""(() => {{ const dots = new Map([...document.querySelectorAll('#{frame} g[id]')].map(dot => [String(dot.transform.baseVal[0].matrix.f), dot.id.replace('other-', '')]));
        return [...document.querySelectorAll('#{frame} .mark')].map(mark => dots.get(mark.getAttribute('y')) + mark.textContent).sort(); }})()"""
    )


def try_beside(page, program):
    """A script with a limit beside itself, and a log that passed beside one that didn't."""
    page.example("The lost update")
    page.ask("document.getElementById('beside-part').open = true")
    page.fill(**{"other-limit": "500"})
    page.ask("document.getElementById('beside-limit').click()")
    page.wait("document.getElementById('compared').textContent !== ''")
    text = page.saved("save-text")
    drawn = asked(program, "draw --nodes 3 --capacity 64 --limit 500".split(), text)[0]
    dots = [group.get("id") for group in tree.fromstring(drawn).iter("{http://www.w3.org/2000/svg}g")]
    hold("the other picture differs", page.ask("[...document.querySelectorAll('#other g[id]')].map(dot => dot.id)") == [f"other-{dot}" for dot in dots])
    hold(f"here these are marked: {marks(page, 'picture')}", marks(page, "picture") == ["e5\u25c6", "e6\u2260", "e9\u25c6"])
    hold(f"there these are marked: {marks(page, 'other')}", marks(page, "other") == ["e5\u2260"])
    hold(f"it says {page.text('compared')}", page.text("compared").startswith("2 events are here alone, and 0 events there alone."))
    rows = page.ask("[...document.querySelectorAll('#differences tbody tr')].map(row => [...row.cells].map(cell => cell.textContent))")
    hold(f"the differences are {rows}", rows[:2] == [["6", "event 5, (901, 1)", "refused, too-far-ahead"], ["7", "event 6, (901, 2)", "event 5, (105, 0)"]])
    page.click("#e6 text")
    page.wait("document.getElementById('said').textContent.startsWith('Drawn')")
    hold("after a click the marks are gone", marks(page, "picture") == ["e5\u25c6", "e6\u2260", "e9\u25c6"])
    put(page, shown="node", node="node 2")
    hold(f"filtered there are the marks {marks(page, 'picture')}", marks(page, "picture") == ["e5\u25c6"])
    page.ask("document.getElementById('unfilter').click(), document.getElementById('apart').click()")
    hold("the other one doesn't go", page.ask("document.getElementById('there').hidden") and marks(page, "picture") == [])
    page.answer("log", "local,a,10,10,0,begin\nsend,a,11,11,0,m,ask\nreceive,b,12,12,0,m,take\nlocal,b,13,13,0,done\n", stamps="pair", limit="", explain="")
    other = "local,a,20,20,0,begin\\nlocal,a,20,20,1,begin\\nsend,a,21,21,0,x9,ask\\nreceive,b,22,22,0,x9,take\\nlocal,b,23,22,0,failed\\n"
    page.ask(
        f"""(() => {{ const files = new DataTransfer(); files.items.add(new File(['{other}'], 'failed.log'));
        document.getElementById('other-files').files = files.files; document.getElementById('other-files').dispatchEvent(new Event('change')); }})()"""
    )
    page.wait("document.getElementById('compared').textContent !== ''")
    hold(f"of the log that passed these are marked: {marks(page, 'picture')}", marks(page, "picture") == ["e4\u25c6"])
    hold(f"of the one that didn't these are marked: {marks(page, 'other')}", marks(page, "other") == ["e2\u25c6", "e5\u25c6"])
    hold("the other one has no name", page.text("h-there") == "failed.log" and page.ask("document.querySelectorAll('#other g[tabindex=\"0\"]').length") == 0)
    page.ask("document.getElementById('apart').click()")


def try_saves(page, program):
    """A history as a log, and with vectors; a log with vectors."""
    page.example("The lost update")
    text = page.saved("save-text")
    for name, words in [("save-log", "trace --nodes 3 --capacity 64"), ("save-vectors", "trace --nodes 3 --capacity 64 --vector")]:
        hold(f"{name} saves something else", page.saved(name) == asked(program, words.split(), text)[0])
    page.example("A log with broken stamps")
    hold("a log with vectors differs", page.saved("save-vectors") == asked(program, ["vectors"], page.saved("save-text"))[0])
    hold("a log is saved as a history", page.ask("document.getElementById('save-log').offsetParent === null"))


def try_conclusions(page, program):
    """What came out stands on top: of a log as the program says it."""
    page.example("The lost update, with a limit")
    hold(f"of a script it says {page.text('conclusion')}", page.text("conclusion") == "8 events. 2 records were refused, the first on line 6.")
    page.open("#kind=trace&text=" + "local,0,10,10,0%0Alocal,0,10,10,0%0Alocal,0,20,11,0%0A")
    hold(f"of a trace it says {page.text('conclusion')}", page.text("conclusion") == "2 stamps of 3 break the clock rule, the first on line 2.")
    page.example("A log with broken stamps")
    hold(f"of a log it says {page.text('conclusion')}", page.text("conclusion").startswith("The clock rule is broken, most of all at n2,\nonce in its 4 events:"))
    told = page.ask("[...document.querySelectorAll('#table-cause tbody tr')].map(row => row.lastChild.textContent)")
    hold(f"the causes are told as {told}", told[:3] == ["claimed 100.3, after 100.3 at line 4", "claimed 101.0, after 250.0 at line 6", "claimed 107.0, where 103.0 is asked"])
    page.ask("document.querySelector('#conclusion a').click()")
    hold(f"its link leads to {page.text('here')}", page.text("here").startswith("Line 5"))
    page.answer("log", "local,a,10,10,0\nreceive,b,1,1,1,m\n")
    hold(f"of a bad log it says {page.text('conclusion')}", page.text("conclusion") == "The input is no log: at line 2 its fault is `unsent`.")
    page.answer("log", '{"kind":"local","node":"a","reading":10,"l":10,"c":0}\n')
    hold(f"of lines of JSON it says {page.text('hint')}", page.text("hint") == "Its lines are of JSON: say so, above.")
    forms = page.ask("document.getElementById('legend').hidden")
    page.example("A log with broken stamps")
    names = page.ask("[...document.querySelectorAll('#forms li')].map(form => form.textContent.trim())")
    hold(f"forms without a picture, or of it: {names}", forms and "a least stamp" in names and "a cause: the clock rule was broken there" in names and "a message" in names)


def tell(page, parts):
    """Has the page answer what an address has."""
    # (chromium leaves changes of the address out where there are more than 200 in ten seconds)
    time.sleep(0.4)
    page.do(f"location.hash = {json.dumps('#' + urlencode(parts))}")


# Of each group, once it is shown alone: its name, the rows of the causes that are listed, and the dots.
ALONE = """[...document.querySelectorAll('#table-group tbody button')].map(button => { button.click();
    return [button.dataset.group, [...document.querySelectorAll('#table-cause tbody tr')].map(row => [...row.cells].map(cell => cell.textContent)), [...document.querySelectorAll('#picture g[id]')].map(dot => dot.id)]; })"""


def holds_groups(page, program, words, text, what):
    """Each group of a log that is shown has its own causes alone in the list and in the picture, and together they have all."""
    rows = list(csv.reader(asked(program, ["audit", *words, "--groups"], text)[0].decode().splitlines()))
    groups, causes = [row[1:] for row in rows if row[0] == "group"], [row[1:] for row in rows if row[0] == "cause"]
    alone = page.ask(ALONE)
    named = [[",".join(csv_field(field) for field in group[:3]), int(group[3]), group[4]] for group in groups]
    hold(f"{what}: the groups are {alone}, and not {groups}", [[name, len(listed), listed[0][0]] for name, listed, _ in alone] == named)
    for (name, listed, dots), group in zip(alone, groups):
        hold(f"{what}: of {name} there are {listed}", all(cause[1:3] == group[:2] for cause in listed))
        hold(f"{what}: of {name} {dots} are drawn", sorted(dots) == sorted({f"e{cause[0]}" for cause in listed}))
    together = sorted(cause[:5] for _, listed, _ in alone for cause in listed)
    hold(f"{what}: the causes of the groups are {together}", together == sorted((cause + [""] * 5)[:5] for cause in causes))
    return len(groups)


def csv_field(field):
    return '"' + field.replace('"', '""') + '"' if any(letter in field for letter in ',"\n\r') else field


def try_words(page, program):
    """Of a log the page says what the program says: its first lines on top, and the whole text, which is copied and saved as it is. Its groups have the causes that the program counts."""
    page.open("#kind=script&text=")
    bad = 0
    for seed in range(WORDED_LOGS):
        words, parts, text = told_log(random.Random(f"told {seed}"))
        tell(page, parts)
        wanted = asked(program, ["audit", *words, "--output", "text"], text)[0].decode()
        if (page.text("conclusion"), page.text("words")) != (wanted.split("\n\n")[0].rstrip("\n"), wanted):
            bad += 1
            if bad == 1:
                print(f"words {seed}: {words} of {text}: the page says {page.text('conclusion')[:200]}, {page.text('words')[:200]}, the program {wanted[:200]}")
        if page.ask("document.querySelector('#table-group button') !== null"):
            holds_groups(page, program, words, text, f"{words} of {text}")
    hold(f"{bad} of {WORDED_LOGS} logs are told in other words", not bad)
    text = asked("cat", [f"{TOP}/examples/audit/broken.log"], b"")[0]
    tell(page, {"kind": "log", "text": text.decode()})
    wanted = asked(program, "audit --output text".split(), text)[0]
    hold("the report is saved otherwise", page.saved("save-words") == wanted)
    copied = page.ask("new Promise(copied => { navigator.clipboard.writeText = async text => copied(text); document.getElementById('copy-words').click(); })")
    hold("the report is copied otherwise", copied == wanted.decode())
    page.ask("[...document.querySelectorAll('#words a')].find(link => link.textContent === 'line 6').click()")
    hold(f"a link of the report leads to {page.text('here')}", page.text("here") == "Line 6")


MANY_GROUPS = """send,a,10,10,0,m
send,"x,y",20,20,0,n
local,b,5,5,0
receive,b,6,6,0,m
receive,b,7,7,0,n
local,b,8,7,0
local,b,9,30,0
local,b,10,31,0
send,a,40,40,0,o
receive,b,11,41,0,o
local,a,41,40,5
local,b,12,41,1
"""


def try_groups(page, program):
    """A group of causes that is shown alone, by a click, a key and an address, and all of them again."""
    page.open("#kind=script&text=")
    page.answer("log", MANY_GROUPS, stamps="pair", limit="", explain="")
    count = holds_groups(page, program, [], MANY_GROUPS.encode(), "many groups")
    hold(f"there are {count} groups", count >= 6)
    hold(f"what is shown alone isn't said: {page.text('narrowed')}", page.text("narrowed") == "Alone, here and in the picture: a: stamps below what its clock reads Show all causes")
    hold("the address doesn't say it", "shown=group&group=a%2Cbehind%2C" in page.ask("location.hash"))
    address, dots, narrowed = f"{page.ask('location.hash')}&{urlencode({'text': MANY_GROUPS})}", page.dots(), page.text("narrowed")
    page.ask("document.querySelector('#narrowed button').focus()")
    page.key("Enter", 13)
    page.wait("document.getElementById('narrowed').hidden")
    hold(f"after all are shown again {len(page.dots())} are drawn", len(page.dots()) == 12 and page.ask("document.activeElement.dataset.group") == "a,behind,")
    page.ask("document.querySelectorAll('#table-group button')[0].focus()")
    page.key("Enter", 13)
    hold(f"a key shows {page.text('narrowed')} alone", not page.ask("document.getElementById('narrowed').hidden") and page.ask("document.querySelectorAll('#table-group [aria-pressed=true]').length") == 1)
    page.ask("document.getElementById('unfilter').click()")
    hold("the filters' own button leaves it", page.ask("document.getElementById('narrowed').hidden") and len(page.dots()) == 12)
    page.open(address)
    hold(f"from the address {page.dots()} are drawn", page.dots() == dots and page.text("narrowed") == narrowed)
    page.open("#kind=script&text=")
    page.answer("log", long_log(2_000, 1_481), stamps="pair", limit="", explain="")
    page.do("document.querySelector('#table-group button').click()")
    hold(f"of a group in 2,000 events {page.dots()} are drawn", page.dots() == ["e1481"])
    page.do("document.querySelector('#narrowed button').click()")
    hold(f"without it {len(page.dots())} are drawn", len(page.dots()) == 500 and page.ask("document.getElementById('narrowed').hidden"))


CHECKS = [try_filters, try_folds, try_filtered_log, try_steps, try_beside, try_saves, try_conclusions, try_words, try_groups]
