"""The page as it is used: clicks, keys, searches, links and reports."""

import json
import subprocess
import tempfile

from page import TOP, asked, hold, marked, words_of

def try_clicks(page, program):
    """Clicks and keys on events of the lost update, and what is said beside its lines."""
    page.example("The lost update")
    page.answer("script", page.value("text"), explain="", nodes=3, capacity=64)
    hold("something is marked unasked", marked(page) == [])
    try_picture(page)
    page.click("#e6 text")
    page.wait("document.getElementById('told').textContent.includes('chain')")
    hold(f"a click on event 6 marks {marked(page)}", marked(page) == [4, 5, 6])
    hold(f"its chain is {page.text('told')}", page.text("told") == "Event 6 (901, 2) has that stamp because of the chain 4 → 5 → 6: event 4 read 901, and each step had to count one.")
    page.click("#e7 text")
    page.wait("document.getElementById('told').textContent.includes('concurrent')")
    hold(f"of what is pointed at it says {page.text('pointed')}", page.text("pointed").startswith("event 7 at node 0"))
    hold(f"of a second click it says {page.text('told')}", page.text("told") == "Event 6 is concurrent with event 7.")
    hold("the chain isn't marked any more", marked(page) == [4, 5, 6])
    page.ask("document.getElementById('e9').focus()")
    hold(f"of event 9 it says {page.text('pointed')}", page.text("pointed").startswith("event 9 at node 1"))
    page.key("Enter", 13)
    page.wait("document.getElementById('told').textContent.startsWith('Event 9')")
    hold(f"the key marks {marked(page)}", marked(page) == [4, 5, 6, 9])
    hold("the option isn't kept", page.value("explain") == "9" and "explain=9" in page.ask("location.hash"))
    beside = page.ask("[...document.querySelectorAll('#beside div')].map(note => note.textContent)")
    hold(f"beside line 16 stands {beside[15]}", beside[15] == "snapshot,1,1  |  entry,cart,100,0,0,0,apple" and beside[6] == "event,6,901,2")


def try_picture(page):
    """From and to, zoom, and a picture that is dragged."""
    width = "Number(document.querySelector('#picture svg').getAttribute('width'))"
    page.do("document.getElementById('explain').value = ''; document.getElementById('from').value = '2'; document.getElementById('to').value = '4'; document.getElementById('answer').click()")
    hold("from and to draw other events", page.dots() == ["e2", "e3", "e4"])
    page.do("document.getElementById('from').value = document.getElementById('to').value = ''; document.getElementById('answer').click()")
    whole = page.ask(width)
    for name, factor in [("larger", 1.25), ("larger", 1.5625), ("smaller", 1.25), ("whole-size", 1)]:
        page.ask(f"document.getElementById('{name}').click()")
        hold(f"{name} makes {page.ask(width)} of {whole}", abs(page.ask(width) - factor * whole) < 1)
    for _ in range(6):
        page.ask("document.getElementById('larger').click()")
    x, y = page.ask("(() => { document.getElementById('picture').scrollIntoView(); const box = document.getElementById('picture').getBoundingClientRect(); return [box.x + 300, box.y + 200]; })()")
    for kind, place in [("mousePressed", 0), ("mouseMoved", 60), ("mouseMoved", 120), ("mouseReleased", 120)]:
        page.browser.call("Input.dispatchMouseEvent", type=kind, x=x - place, y=y - place, button="left", buttons=1, clickCount=1)
    moved = page.ask("[document.getElementById('picture').scrollLeft, document.getElementById('picture').scrollTop]")
    hold(f"dragged by 120, the picture moves by {moved}", moved[0] == 120 and moved[1] == 120)
    hold("a drag is taken for a click", marked(page) == [])
    page.ask("document.getElementById('fit').click()")
    hold("a picture that fits is wider than its frame", page.ask(f"{width} <= document.getElementById('picture').clientWidth + 1"))
    page.ask("document.getElementById('whole-size').click()")


def try_log(page, program):
    """Clicks on events of a log, whose dots are named by lines, and what it has no event for."""
    text = asked("cat", [f"{TOP}/examples/audit/broken.log"], b"")[0].decode()
    page.answer("log", text, stamps="pair", limit="")
    hold("something of a log is marked unasked", marked(page) == [])
    page.click("#e5 text")
    page.wait("document.getElementById('told').textContent !== ''")
    hold(f"a click on line 5 marks {marked(page)}", sorted(marked(page)) == [1, 2, 3, 4, 5])
    why = "because of the chain 1 → 2 → 3 → 4 → 5: the event of line 1 read 100, and each step had to count one."
    claims = "It claims (100, 3), whose L was passed along 1 → 2 → 3 → 4 → 5."
    hold(f"its chain is {page.text('told')}", page.text("told") == f"The event of line 5 has the least stamp (100, 4) {why} {claims}")
    hold(f"of what is pointed at it says {page.text('pointed')}", page.text("pointed").startswith("event 5 at n2"))
    words = words_of(page)
    hold(f"the command lines are {words}", words == [["audit", "--strict"], ["draw-log", "--explain", "5"]])
    hold("the line isn't kept", "explain=5" in page.ask("location.hash"))
    hold("the marked picture differs", page.saved("save-svg") == asked(program, words[1], text.encode())[0])
    page.ask("[...document.querySelectorAll('#told a')].find(link => link.textContent === '3').click()")
    hold(f"a link of the chain leads to {page.text('here')}", page.text("here") == "Line 3" and page.ask("document.querySelector('#picture .sought').id") == "e3")
    page.click("#e6 text")
    page.wait("document.getElementById('told').textContent.includes('line 6')")
    hold(f"of a second click it says {page.text('told')}", page.text("told") == "The event of line 5 is concurrent with the event of line 6.")
    page.do("document.getElementById('from').value = '7'; document.getElementById('to').value = '6'; document.getElementById('answer').click()")
    hold("from below to draws something", page.saved("save-svg") == asked(program, "draw-log --explain 5 --from 7 --to 6".split(), text.encode())[0])
    page.do("document.getElementById('from').value = document.getElementById('to').value = ''; document.getElementById('explain').value = '99'; document.getElementById('answer').click()")
    page.wait("document.getElementById('told').textContent !== ''")
    hold(f"of a line of no event it says {page.text('said')}", "hlc: no such event" in page.text("said") and page.text("told") == "There is no event on line 99.")
    hold("nothing can be asked again", page.ask("document.getElementById('explain').offsetParent !== null && !document.querySelector('#picture svg')"))
    page.do("document.getElementById('explain').value = ''; document.getElementById('answer').click()")
    hold("the picture doesn't come again", page.saved("save-svg") == asked(program, ["draw-log"], text.encode())[0])


def try_storm(page, program):
    """A script by seed."""
    page.do("for (const [name, value] of [['storm-nodes', 4], ['storm-steps', 9], ['storm-seed', 11]]) document.getElementById(name).value = value; document.getElementById('storm').click()")
    script = asked(program, "storm --nodes 4 --steps 9 --seed 11".split(), b"")[0]
    hold("a storm is another script", page.value("text").encode() == script and page.value("capacity") == "36")
    hold("a storm is answered otherwise", page.saved("save-answers") == asked(program, "run --nodes 4 --capacity 36".split(), script)[0])


def try_search(page, program):
    """A search by key and by node, and a link in a report."""
    page.ask("document.getElementById('search').value = 'node:0 pear'; document.getElementById('find').click()")
    page.wait("document.getElementById('found').textContent !== ''")
    hold(f"a search for what isn't there finds {page.text('found')}", page.text("found") == "Nothing found.")
    for words, found in [("pear", "1 of 2: line 4"), ("pear", "2 of 2: line 7"), ("key:cart node:1", "1 of 2: line 7")]:
        page.ask(f"document.getElementById('found').textContent = ''; document.getElementById('search').value = '{words}'; document.getElementById('find').click()")
        page.wait("document.getElementById('found').textContent !== ''")
        hold(f"a search for {words} says {page.text('found')}, and not {found}", page.text("found") == found)
    hold(f"the cursor is at {page.text('here')}", page.text("here") == "Line 7: event,6,901,2")
    hold("its event isn't shown", page.ask("document.querySelector('#picture .sought').id") == "e6")
    page.answer("log", "local,a,10,10,0,one\nlocal,a,10,9,0,two\nsend,b,5,5,0,m\n")
    page.ask("[...document.querySelectorAll('#tables a')].find(link => link.textContent === '2').click()")
    hold(f"a link of a report leads to {page.text('here')}", page.text("here").startswith("Line 2: cause,a,behind"))
    hold(f"of a broken log it says {page.text('said')}", "broken" in page.text("said"))


def linked(page):
    """The fragment of the link that the page gives of the whole case."""
    page.ask("navigator.clipboard.writeText = text => { window.copied = text; return Promise.resolve(); }, document.getElementById('copy-link').click()")
    page.wait("window.copied")
    return page.ask("window.copied.replace(/^[^#]*/, '')")


def try_links(page, program):
    """A case in a link, options in the address, and the same on a command line."""
    text = 'write,0,10,"a,b",<i>&\nsend,0,10,1,"a,b"\ndeliver,1,7,1\nexplain,2\n'
    page.answer("script", text, nodes=2, capacity=16, limit=5, explain=2)
    hold(f"the text is in the address: {page.ask('location.hash')}", page.ask("location.hash") == "#kind=script&nodes=2&capacity=16&limit=5&explain=2")
    fragment, said, lines = linked(page), page.text("answers"), page.text("line")
    page.open(fragment)
    hold("a link gives another text", page.value("text") == text)
    hold(f"a link gives other answers: {page.text('answers')}", page.text("answers") == said == asked(program, "run --nodes 2 --capacity 16 --limit 5".split(), text.encode())[0].decode())
    hold("the text stays in the address", "text=" not in page.ask("location.hash"))
    hold("the text stands in the command lines twice", lines.count("<i>&") == 1)
    with tempfile.TemporaryDirectory() as folder:
        shell = subprocess.run(["bash", "-c", f"hlc() {{ {program} \"$@\"; }}; {lines}"], capture_output=True, cwd=folder)
    wanted = [asked(program, words.split(), text.encode())[0] for words in ["run --nodes 2 --capacity 16 --limit 5", "draw --nodes 2 --capacity 16 --limit 5 --explain 2"]]
    hold(f"the command line gives something else: {lines}", shell.stdout == b"".join(wanted))
    for bad in ["#kind=nothing&text=x", "#text=x", "#x", "#kind=script", "#kind=script&nodes=<b>&text=x"]:
        page.open(bad)
        hold(f"{bad} makes markup", not page.ask("document.querySelector('main b')"))
        if bad.startswith("#kind=nothing"):
            hold(f"of an unknown kind it says {page.text('said')}", "of the kind nothing, which there isn't" in page.text("said"))
    page.example("A log with broken stamps")
    fragment, text = page.ask("location.hash"), page.value("text")
    page.open(fragment)
    hold("the address doesn't name the example", "text=" not in fragment and page.value("text") == text and page.value("kind") == "log")


def try_notes(page, program):
    """What breaks the clock rule stands out, and questions of a log have their answers beside them."""
    page.open("#kind=trace&text=" + "local,0,10,10,0%0Alocal,0,10,10,0%0Alocal,0,20,11,0%0A")
    wrong = page.ask("[...document.querySelectorAll('#beside .wrong')].map(note => note.textContent)")
    hold(f"of a trace these stand out: {wrong}", wrong == ["verdict,1,not-above,0", "verdict,2,behind"])
    page.answer("log", "local,a,10,10,0\nexplain,1\nlocal,a,11,11,0\n\nrelation,1,3\nexplain,9\n")
    hold(f"beside the questions of a log stand {page.beside()}", page.beside()[:6] == ["", "chain,1,10,0,1", "", "", "relation,1,3,before", "refused,no-event"])


def long_log(count, cause):
    """A log of so many events of one node, each of which happened before the next, and on one line the clock rule is broken."""
    return "".join(f"local,a,{10 + line},{(9 if line == cause else 10) + line},0\n" for line in range(1, count + 1))


def try_around(page, program):
    """Links, searches, clicks and the chain that is asked for show their events, wherever these stand."""
    text = long_log(2_000, 1_481)
    page.answer("log", text, explain="", **{"from": "", "to": ""})
    hold("a long log isn't drawn from its beginning", page.dots()[0] == "e1" and len(page.dots()) == 500)

    def leads_to(what, act, words):
        page.do(act)
        page.wait("document.querySelector('#picture .sought, #picture g.k') !== null")
        event = words[-1] if words[-1].isdigit() else words[words.index("--explain") + 1]
        hold(f"{what} draws {page.dots()[:1]}", f"e{event}" in page.dots() and page.saved("save-svg") == asked(program, ["draw-log", *words], text.encode())[0])
        hold(f"{what} gives the command lines {words_of(page)}", words_of(page)[1] == ["draw-log", *words])

    leads_to("a link of a cause", "document.querySelector('#tables a').click()", ["--around", "1481"])
    leads_to("a search", "document.getElementById('search').value = '1910'; document.getElementById('find').click()", ["--around", "1900"])
    page.fill(around="", explain="1200")
    leads_to("a chain", "document.getElementById('draw').click()", ["--explain", "1200", "--around", "1200"])
    hold(f"of the chain it says {page.text('told')}", page.text("told").startswith("The event of line 1200 has the least stamp (1210, 0)"))
    leads_to("its switch", "document.getElementById('only').click()", ["--explain", "1200", "--only-chain"])
    page.open("#kind=log&explain=1500&text=" + text.replace("\n", "%0A"))
    hold("a link with a chain doesn't show it", page.value("around") == "1500" and "e1500" in page.dots() and marked(page) == [1500])
    script = "".join(f"write,0,{10 + place},k,v{place}\n" for place in range(900))
    page.answer("script", script, explain="", around="", nodes=3, capacity=1024)
    page.do("document.getElementById('search').value = 'v700'; document.getElementById('find').click()")
    page.wait("document.querySelector('#picture .sought') !== null")
    words = "draw --nodes 3 --capacity 1024 --from 681 --to 720".split()
    hold(f"a search in a script draws {words_of(page)}", words_of(page)[1] == words and page.saved("save-svg") == asked(program, words, script.encode())[0])
    page.fill(explain="700")
    page.do("document.getElementById('only').click()")
    words = "draw --nodes 3 --capacity 1024 --explain 700 --only-chain".split()
    hold("the chain of a script alone differs", words_of(page)[1] == words and page.saved("save-svg") == asked(program, words, script.encode())[0])


def try_long_lists(page, program):
    """Of long lists a part is shown, with what shows and saves the rest."""
    count = 20_000
    text = "send,a,10,10,0,m\n" + "".join(f"local,a,10,10,{line}\n" for line in range(1, count)) + f"influenced,1\nexplain,{count}\n"
    page.open("#kind=log&text=")
    page.drop(("chain.csv", json.dumps(text)))
    hold("a long list makes a cell of each item", page.ask("document.querySelectorAll('#tables td').length") < 100)
    hold("a long list is shown whole", page.ask("document.querySelectorAll('#tables a').length") < 1_000)
    more = "[...document.querySelectorAll('#tables .more button')]"
    names = page.ask(f"{more}.map(more => more.textContent)")
    hold(f"of long lists it says {names}", names == ["19,800 more", "Save all", "19,799 more", "Save all"] or names == ["19,799 more", "Save all", "19,800 more", "Save all"])
    before = page.ask("document.querySelectorAll('#tables a').length")
    page.ask(f"{more}[0].click()")
    hold("more isn't shown", page.ask("document.querySelectorAll('#tables a').length") == before + 2_000)
    page.ask(f"{more}[1].id = 'save-list'")
    hold("a long list isn't saved whole", len(page.saved("save-list").splitlines()) in (count, count - 1))
    page.fill(explain=str(count))
    page.do("document.getElementById('draw').click()")
    page.wait("document.getElementById('told').textContent !== ''")
    hold("a long chain has a link for each event", page.ask("document.querySelectorAll('#told a').length") < 1_000 and "19,800 more" in page.text("told"))


def try_faults(page, program):
    """What the program's faults and mistakes say here, and at which lines."""
    page.answer("script", "write,0,10,a,x\n\nWrite,0,10,a,x\n", nodes=2, capacity=16, explain=9)
    hold(f"a missing event: {page.text('said')}", page.text("said").startswith("hlc: no such event"))
    hold(f"a refused record: {page.text('faults')}", page.text("faults").strip() == "1 refused: lines 3")
    for name, value, says in [("nodes", "1", "Nodes: a whole number from 2 to 64."), ("limit", "-1", "Limit: a whole number from 0 to 9223372036854775807.")]:
        page.answer("script", "x", **{"nodes": 2, "limit": "", "explain": "", name: value})
        hold(f"{name} {value}: {page.text('said')}", page.text("said") == says and page.ask(f"document.getElementById('{name}').getAttribute('aria-invalid')") == "true")
    page.answer("script", "x", nodes=2, limit="", **{"from": 2, "to": 1})
    hold(f"from above to: {page.text('said')}", page.text("said") == "hlc: --from is above --to")
    page.ask("document.getElementById('from').value = document.getElementById('to').value = ''")
    page.answer("trace", "local,0,10,10,0\n\nlocal,0,x,1,1\n")
    hold(f"a bad trace: {page.text('faults')}", page.text("faults").strip() == "No trace: line 3")
    page.answer("log", "local,a,10,10,0\nreceive,b,1,1,1,m\n")
    hold(f"a bad log: {page.text('said')}", page.text("said").startswith("hlc: bad log"))
    page.answer("log", "\n")
    hold(f"a log without events: {page.text('said')}", page.text("said").startswith("hlc: no events\n"))


CHECKS = [try_clicks, try_search, try_log, try_storm, try_links, try_notes, try_around, try_long_lists, try_faults]
