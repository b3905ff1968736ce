"""Texts that are opened, dropped, stopped and brought back."""

import json
import os
import subprocess
import tempfile
from urllib.parse import quote

from page import TOP, asked, hold, words_of


def bytes_of(data):
    return f"new Uint8Array({list(data)})"


def tailed(folder, *names):
    """What `tail` makes of files of a folder."""
    return subprocess.run(["tail", "-n", "+1", *names], cwd=folder, capture_output=True, check=True).stdout


def try_several_files(page, program):
    """Files that are dropped together, added and removed."""
    files = {
        "eu.log": b"local,eu,10,10,0\nsend,eu,11,11,0,m\n",
        "us.log": b"receive,us,12,12,0,m\nlocal,us,12,12,0\nlocal,us,14,14,0",
        "ap.log": b"\nlocal,ap,20,20,0\nexplain,us.log:3\n",
        "more.log": b"local,ap,30,29,0\n",
    }
    page.open("#kind=script&nodes=2&capacity=16&text=")
    with tempfile.TemporaryDirectory() as folder:
        for name, data in files.items():
            with open(f"{folder}/{name}", "wb") as file:
                file.write(data)

        def holds(what, *names):
            text = page.saved("save-text")
            hold(f"{what}: the text is {text}", text == tailed(folder, *names))
            shown = page.ask("[...document.querySelectorAll('#files li a')].map(file => file.textContent)")
            hold(f"{what}: the files are {shown}", shown == list(names))
            audited = asked(program, ["audit"], text)[0]
            hold(f"{what}: the answers are {page.text('answers')}", page.text("answers").encode() == audited)
            shell = subprocess.run(["bash", "-c", f"hlc() {{ {program} \"$@\"; }}; {page.text('line')}"], capture_output=True, cwd=folder)
            hold(f"{what}: the command lines are {page.text('line')}", shell.stdout.startswith(audited) and shell.stdout[len(audited) :] == asked(program, words_of(page)[1], text)[0])

        page.drop(*[(name, bytes_of(files[name])) for name in ["eu.log", "us.log", "ap.log"]])
        hold(f"three logs are a {page.value('kind')}", page.value("kind") == "log")
        holds("three files", "eu.log", "us.log", "ap.log")
        page.do("document.getElementById('report').click(); document.getElementById('answer').click()")
        page.ask("[...document.querySelectorAll('#tables a')].find(link => link.textContent === 'us.log:2').click()")
        hold(f"a link to us.log:2 leads to {page.text('here')}", page.text("here") == "Line us.log:2: cause,us,not-above,us.log:1")
        number = page.ask("document.querySelector('#numbers .at').textContent")
        hold(f"beside it stands the number {number}", number == "2")
        hold(f"its answer stands beside {page.beside()}", page.beside()[11] == "chain,us.log:3,14,0,us.log:3")
        page.click("#e7 text")
        page.wait("document.getElementById('told').textContent !== ''")
        hold(f"the chain of a dot is {page.text('told')}", page.text("told").startswith("The event of line us.log:2 has the least stamp (12, 1)"))
        hold(f"the command lines name it by {words_of(page)}", words_of(page)[1] == ["draw-log", "--explain", "us.log:2"] and page.value("explain") == "us.log:2")
        hold("its picture differs", page.saved("save-svg") == asked(program, words_of(page)[1], page.saved("save-text"))[0])
        page.fill(explain="us.log:9")
        page.press("draw")
        hold(f"of a line that isn't there it says {page.text('said')}", "there is no line us.log:9" in page.text("said"))
        page.fill(explain="")
        page.do("document.getElementById('report').click(); document.getElementById('answer').click()")
        page.drop(("more.log", bytes_of(files["more.log"])))
        holds("one more", "eu.log", "us.log", "ap.log", "more.log")
        page.do("document.querySelectorAll('#files button')[2].click()")
        holds("one less", "eu.log", "us.log", "more.log")
        page.press("undo")
        holds("one less, undone", "eu.log", "us.log", "ap.log", "more.log")
        for _ in range(3):
            page.do("document.querySelectorAll('#files button')[1].click()")
        hold("one file alone is marked", page.saved("save-text") == files["eu.log"] and page.text("files").startswith("eu.log 2 lines"))
        page.drop(("eu.log", bytes_of(b"local,eu,12,12,0\n")), ('a,"b".log', bytes_of(b"local,x,9,9,0\nlocal,x,9,8,0\n")))
        names = page.ask("[...document.querySelectorAll('#files li a')].map(file => file.textContent)")
        hold(f"files of one name are {names}", names == ["eu.log", "eu.log (2)", 'a,"b".log'])
        page.ask("document.querySelector('#tables a').click()")
        hold(f"a link into a name with a comma leads to {page.text('here')}", page.text("here").startswith('Line a,"b".log:2: cause,x,behind'))


def try_long_files(page, program):
    """Files that are too long to be edited, one of them with other line ends: their lines are found by their names, and one is taken away."""
    page.open("#kind=script&text=")
    script = "Array.from({ length: 5000 }, (_, place) => `local,%s,${10 + place},${place === %d ? 1 : 10 + place},0%s`).join('')"
    page.drop(("a.log", script % ("a", 4000, "\\n")), ("b c.log", script % ("b", 3000, "\\r\\n")), ("d.log", script % ("d", 4999, "\\n")))
    text = page.saved("save-text")
    hold("long files are answered otherwise", page.saved("save-answers") == asked(program, ["audit"], text)[0] and page.ask("document.getElementById('text').hidden"))
    for name, line in [("b c.log:3001", "local,b,3010,1,0"), ("d.log:5000", "local,d,5009,1,0")]:
        page.do(f"[...document.querySelectorAll('#tables a')].find(link => link.textContent === '{name}').click()")
        page.wait("document.querySelector('#picture .sought') !== null")
        hold(f"a link to {name} leads to {page.text('here')}", page.text("here").startswith(f"Line {name}: cause,") and page.ask("document.querySelector('#lines .at').textContent") == line)
        hold(f"about {name} another picture is drawn", page.saved("save-svg") == asked(program, ["draw-log", "--around", name], text)[0] and page.value("around") == name)
    page.do("document.querySelectorAll('#files button')[1].click()")
    hold(f"without one there are {page.text('files')}", page.text("files") == "a.log 5,000 lines ×d.log 5,000 lines ×")
    page.press("undo")
    hold("a file that was taken away doesn't come back", page.saved("save-text") == text)


def try_files(page, program):
    """Dropped files: one that can be edited, one that is kept as it is, and one that is too large."""
    page.open("#kind=script&nodes=2&capacity=16&text=")
    text = b"write,0,10,a,x\nwrite,0,11,a,y\n"
    page.drop(("small.csv", bytes_of(text)))
    hold("a small file isn't edited", page.value("text") == text.decode() and page.ask("document.getElementById('kept').hidden"))
    hold(f"options stay: {page.value('nodes')}", page.value("nodes") == "3" and page.value("capacity") == "1024")
    page.open("#kind=script&text=")
    kept = b'write,0,10,"a\r\nb",\xff\r\nwrite,0,11,a,y\r\ntable,0\r\n'
    page.drop(("kept.csv", bytes_of(kept)))
    hold("a file with other line ends is edited", page.ask("document.getElementById('text').hidden") and "kept.csv" in page.text("files"))
    hold("a kept file gives other answers", page.saved("save-answers") == asked(program, "run --nodes 3 --capacity 1024".split(), kept)[0])
    hold(f"a kept file has another command line: {page.text('line')}", "hlc run --nodes 3 --capacity 1024 < 'kept.csv'" in page.text("line"))
    page.open("#kind=script&text=")
    page.drop(("many.csv", "'local,a,1,1,0\\n'.repeat(200000) + 'local,a,1,x,0'"))
    hold(f"the last line of many is {page.text('tables')}", page.saved("save-answers") == b"bad,200001,number,l\n")
    page.ask("document.querySelector('#tables a').click()")
    hold(f"it leads to {page.text('here')}", page.text("here") == "Line 200001: bad,number,l")
    page.drop(("large.csv", "new Uint8Array(100000001)"))
    hold(f"of a large file it says {page.text('said')}", "100 MB at most" in page.text("said"))


def try_long_text(page, program):
    """Each line of a long text can be reached, and its number be read."""
    page.open("#kind=script&text=")
    page.drop(("long.csv", "Array.from({ length: 100000 }, (_, place) => `local,a,${place + 1},${place + 1},0\\n`).join('')"))
    hold(f"its lines are counted as {page.text('whole')}", "100,000 lines" in page.text("whole") and "100,000 lines" in page.text("files"))
    last = page.ask(
        """(async () => { const kept = document.getElementById('kept'); kept.scrollTop = kept.scrollHeight; await new Promise(requestAnimationFrame); await new Promise(requestAnimationFrame);
        return [...document.querySelectorAll('#lines div')].map(line => line.textContent).filter(line => line).at(-1); })()"""
    )
    hold(f"scrolled to the end it shows {last}", last == "local,a,100000,100000,0")
    cut = page.ask("[...document.querySelectorAll('#numbers div')].filter(number => number.scrollWidth > number.clientWidth).length")
    hold("numbers of lines are cut", not cut and "100000" in page.ask("[...document.querySelectorAll('#numbers div')].map(number => number.textContent)"))
    page.ask("document.getElementById('kept').focus()")
    for name, code, line in [("Home", 36, 1), ("ArrowDown", 40, 2), ("End", 35, 100_000), ("ArrowUp", 38, 99_999)]:
        page.key(name, code)
        hold(f"{name} leads to {page.text('here')}", page.text("here") == f"Line {line}")


def try_million(page, program):
    """A log of a million lines is opened, asked, and drawn around an event far down."""
    text = "".join(f"local,n{line % 8},{line},{line - (line == 900_001)},0\n" for line in range(1, 1_000_001)).encode()
    page.open("#kind=script&text=")
    page.drop(("million.csv", "Array.from({ length: 1000000 }, (_, place) => `local,n${(place + 1) % 8},${place + 1},${place + 1 - (place === 900000)},0\\n`).join('')"))
    hold(f"a million lines are counted as {page.text('whole')}", "1,000,000 lines" in page.text("whole"))
    hold("of a million lines the audit differs", page.saved("save-answers") == asked(program, ["audit"], text)[0])
    page.do("document.querySelector('#tables a').click()")
    page.wait("document.querySelector('#picture .sought') !== null")
    hold(f"of a million lines it draws {words_of(page)}", words_of(page)[1] == ["draw-log", "--around", "900001"])
    hold("of a million lines the picture differs", page.saved("save-svg") == asked(program, ["draw-log", "--around", "900001"], text)[0])
    page.click("#e900001 text")
    page.wait("document.getElementById('told').textContent !== ''")
    hold(f"of one of a million it says {page.text('told')}", page.text("told").startswith("The event of line 900001 "))


def try_kinds(page, program):
    """The kind of a text that is opened is told by its words, and the options of the text before it don't stay."""
    examples = page.ask("JSON.parse(document.getElementById('examples').textContent)")
    for it in examples:
        page.open("#kind=script&nodes=5&capacity=9&limit=3&tolerance=4&receives=merge&text=write,0,1,a,b")
        page.drop(("some.txt", json.dumps(it["text"])))
        stamps = it["options"].get("stamps", "pair")
        told = {name: page.value(name) for name in ["kind", "nodes", "capacity", "limit", "tolerance", "receives", "stamps"]}
        wanted = {"kind": it["kind"], "nodes": "3", "capacity": "1024", "limit": "", "tolerance": "", "receives": "tick", "stamps": stamps}
        hold(f"{it['name']} is taken as {told}", told == wanted)


# Lines as a service writes them, with others between them, and how they are read.
SERVICE = """{"level":"info","msg":"listening"}
{"event":"rpc.send","service":"eu","hlc":"100.0","clock":{"wall":100},"rpc":"a7","what":"cart"}
{"event":"rpc.recv","service":"us","hlc":"100:1/u2","clock":{"wall":"90"},"rpc":"a7"}

{"event":"rpc.send","service":"us","hlc":"100.0","clock":{"wall":101},"rpc":"a8","what":"cart"}
"""
FIELDS = ["kind=.event", "node=.service", "stamp=.hlc", "reading=.clock.wall", "message=.rpc", "label=.what"]
SERVICE_KINDS = ["send=rpc.send", "receive=rpc.recv"]
SERVICE_WORDS = ["--jsonl", *[word for text in FIELDS for word in ("--field", text)], *[word for text in SERVICE_KINDS for word in ("--kind", text)]]


def try_json(page, program):
    """Lines of JSON that are dropped: what the page tells of them, and their audit and picture once it is said where an event stands."""
    page.open("#kind=script&text=")
    page.drop(("service.jsonl", json.dumps(SERVICE)))
    hold("lines of JSON aren't taken as such", page.value("kind") == "log" and page.ask("document.getElementById('jsonl').checked && document.getElementById('fields').offsetParent !== null"))
    hold(f"of their keys it says {page.text('paths')}", page.text("paths") == "Here there are .level .msg .event .service .hlc .clock.wall .rpc .what")
    hold(f"of lines without events it says {page.text('conclusion')}", page.text("conclusion") == "The log has no event." and page.text("hint") == "Fields and kinds, above, say where in a line an event stands.")
    page.fill(fields="\n".join(FIELDS) + "\nnode")
    page.press("answer")
    hold(f"of a field that is none it says {page.text('said')}", page.text("said").startswith("Fields: node isn't of the form NAME=.PATH") and page.ask("document.getElementById('fields').ariaInvalid") == "true")
    page.fill(fields="\n".join(FIELDS), kinds="\n".join(SERVICE_KINDS))
    page.press("answer")
    hold(f"their causes are told as {page.text('tables')[:300]}", "claimed 100.0, after 100.1 at line 3" in page.text("tables"))
    words = words_of(page)
    hold(f"the command lines are {words}", words == [["audit", *SERVICE_WORDS, "--strict"], ["draw-log", *SERVICE_WORDS]])
    hold("their audit differs", page.saved("save-answers") == asked(program, words[0], SERVICE.encode())[0])
    hold("their picture differs", page.saved("save-svg") == asked(program, words[1], SERVICE.encode())[0])
    hold(f"beside them stands {page.beside()}", page.beside()[4] == "cause,us,behind cause,us,not-above,3")
    page.click("#e3 text")
    page.wait("document.getElementById('told').textContent !== ''")
    hold(f"a chain of them is {page.text('told')}", page.text("told").startswith("The event of line 3 has the least stamp (100, 1) because of the chain 2 → 3"))
    for found, says in [("node:us", "1 of 2: line 3"), ("label:cart node:us", "1 of 1: line 5"), ("a7", "1 of 2: line 2")]:
        page.ask(f"document.getElementById('found').textContent = ''; document.getElementById('search').value = '{found}'; document.getElementById('find').click()")
        page.wait("document.getElementById('found').textContent !== ''")
        hold(f"a search for {found} says {page.text('found')}", page.text("found") == says)
    page.open(f"{page.ask('location.hash')}&text={quote(SERVICE)}")
    hold("options of lines of JSON don't come back from the address", words_of(page)[1][: len(SERVICE_WORDS) + 1] == ["draw-log", *SERVICE_WORDS])


# Two files whose headers name the columns in another order.
HEADED = """==> eu.csv <==
kind,node,label,reading,l,c,message
send,a,first,10,10,0,m
==> us.csv <==
kind,message,c,l,reading,node,label
receive,m,1,10,5,b,second
"""


def try_headers(page, program):
    """A search by fields, where each file has a header of its own."""
    page.open("#kind=script&text=")
    page.answer("log", HEADED, stamps="pair", limit="")
    for found, says in [("node:a", "1 of 1: line eu.csv:2"), ("node:b", "1 of 1: line us.csv:2"), ("label:second", "1 of 1: line us.csv:2"), ("node:m", "Nothing found.")]:
        page.ask(f"document.getElementById('found').textContent = ''; document.getElementById('search').value = '{found}'; document.getElementById('find').click()")
        page.wait("document.getElementById('found').textContent !== ''")
        hold(f"a search for {found} says {page.text('found')}", page.text("found") == says)


def try_reading(page, program):
    """The other options by which a log is read, and what they leave of it."""
    text = "send,a,10,10,0,m\nsend,a,20,20,0,m\nreceive,b,20,20,1,m\nlocal,b,x,30,0\nlocal,b,40,39,0\n"
    page.open("#kind=script&text=")
    for values, words in [
        ({"bad": "all-faults"}, ["--all-faults"]),
        ({"bad": "lenient"}, ["--lenient"]),
        ({"bad": "lenient", "resent": "last", "reading-unit": "ms", "l-unit": "us"}, ["--reading-unit", "ms", "--l-unit", "us", "--resent", "last", "--lenient"]),
    ]:
        page.answer("log", text, **{"stamps": "pair", "limit": "", "reading-unit": "", "l-unit": "", "resent": "", **values})
        told, drawn = asked(program, ["audit", *words], text.encode())[0], asked(program, ["draw-log", *words], text.encode())[0]
        hold(f"with {words} the audit differs", page.text("answers").encode() == told)
        hold(f"with {words} the command line is {words_of(page)}", [word for word in words_of(page)[0] if word != "--strict"] == ["audit", *words])
        hold(f"with {words} the picture differs", drawn.startswith(b"bad") or page.saved("save-svg") == drawn)
    page.do("document.getElementById('groups').click(); document.getElementById('answer').click()")
    hold(f"in groups the answers are {page.text('answers')[-200:]}", "\ngroup,b,behind,,2,3\n" in page.text("answers") and "--groups" in words_of(page)[0])
    page.open(page.ask("location.hash"))
    hold("the options aren't shown", page.ask("document.getElementById('reading').open") and page.value("bad") == "lenient" and page.value("l-unit") == "us")
    page.answer("log", text, **{"l-unit": ""})
    hold(f"of one unit alone it says {page.text('said')}", page.text("said") == "L in: one unit needs the other.")


def try_undo(page, program):
    """What was typed comes back, and answers stay until the next ones."""
    page.open("#kind=script&nodes=2&capacity=16&text=write,0,10,a,mine")
    page.example("A log with broken stamps")
    hold("an example doesn't replace the text", "mine" not in page.value("text"))
    page.ask("document.getElementById('text').focus(), document.getElementById('said').textContent = ''")
    page.key("z", 90, ctrl=True)
    page.settle()
    hold(f"Ctrl+Z brings back {page.value('text')}", page.value("text") == "write,0,10,a,mine" and page.value("kind") == "script" and page.value("nodes") == "2")
    page.example("A log with broken stamps")
    page.press("undo")
    hold("a button doesn't bring the text back", page.value("text") == "write,0,10,a,mine" and page.text("answers") == "event,0,10,0\n")
    page.ask("document.getElementById('text').focus(), document.getElementById('text').setSelectionRange(17, 17)")
    page.browser.call("Input.insertText", text="\nget,0,a")
    stays = page.ask("[document.getElementById('main').classList.contains('outdated'), document.getElementById('answers').textContent, document.querySelectorAll('#picture g[id]').length]")
    hold(f"after a key there stay {stays}", stays == [True, "event,0,10,0\n", 1] and page.beside()[:2] == ["", ""])
    hold(f"it says {page.text('said')}", "Ctrl+Enter" in page.text("said"))
    page.ask("document.getElementById('said').textContent = ''")
    page.key("Enter", 13, ctrl=True)
    page.settle()
    hold("Ctrl+Enter doesn't answer", page.beside()[1] == "entry,a,10,0,0,0,mine" and not page.ask("document.querySelector('.outdated')"))


def try_outdated(page, program):
    """What was answered stays, greyed, when another text or another kind takes its place, or an option changes, and until it is answered anew."""
    page.example("A log with broken stamps")
    here = "[document.getElementById('main').classList.contains('outdated'), document.querySelectorAll('#table-cause tbody tr').length, document.querySelectorAll('#picture g[id]').length]"
    stays = page.ask(f"(() => {{ const example = document.getElementById('example'); example.value = '0'; example.dispatchEvent(new Event('change')); return {here}; }})()")
    page.settle()
    hold(f"of another example there stay {stays}", stays == [True, 4, 11] and page.ask(here) == [False, 0, 10])
    hold("its report stays", page.ask("document.getElementById('report-part').hidden && document.getElementById('words-part').hidden"))
    page.example("A log with broken stamps")
    page.fill(limit="3")
    hold(f"after an option there stay {page.ask(here)}, and it says {page.text('said')}", page.ask(here) == [True, 4, 11] and "options have changed" in page.text("said"))
    page.ask("document.getElementById('limit').focus(), document.getElementById('said').textContent = ''")
    page.key("Enter", 13, ctrl=True)
    page.settle()
    hold("Ctrl+Enter in an option doesn't answer", not page.ask(here)[0] and "--limit" in words_of(page)[0])
    page.ask("(() => { const kind = document.getElementById('kind'); kind.value = 'trace'; kind.dispatchEvent(new Event('change')); })()")
    hold(f"after another kind there stay {page.ask(here)}", page.ask(here) == [True, 4, 11])
    page.press("answer")
    hold(f"as a trace there are {page.ask(here)}", page.ask("document.getElementById('report-part').hidden && document.getElementById('picture-part').hidden"))
    page.open("#kind=script&nodes=1&text=write,0,10,a,x")
    hold(f"a text stays in an address that is refused: {page.ask('location.hash')}", page.ask("location.hash") == "#kind=script&nodes=1" and page.value("text") == "write,0,10,a,x")
    page.open("#kind=script&nodes=2&capacity=16&text=write,0,10,a,x")


def try_stop(page, program):
    """A run that is stopped, and one after it."""
    page.open("#kind=script&nodes=2&capacity=16&text=")
    page.ask("document.getElementById('said').textContent = ''")
    page.ask(
        """(() => { const files = new DataTransfer(); files.items.add(new File(['write,0,10,a,x\\ntable,0\\n'.repeat(500000)], 'long.csv'));
        document.getElementById('editor').dispatchEvent(new DragEvent('drop', { dataTransfer: files, bubbles: true, cancelable: true })); })()"""
    )
    page.wait("!document.getElementById('stop').disabled && document.getElementById('said').textContent.includes('..')")
    page.wait("!document.getElementById('progress').hidden")
    page.ask("document.getElementById('stop').click()")
    page.settle()
    hold("a stopped run shows progress", page.ask("document.getElementById('progress').hidden"))
    hold(f"a stopped run says {page.text('said')}", page.text("said") == "Stopped.")
    page.open("#kind=script&nodes=2&capacity=16&text=write,0,10,a,x")
    hold("after a stopped run it answers something else", page.text("answers") == "event,0,10,0\n")


CHECKS = [try_several_files, try_long_files, try_files, try_long_text, try_million, try_kinds, try_json, try_headers, try_reading, try_undo, try_outdated, try_stop]
