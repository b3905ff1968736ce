"""What the page looks like, how it is reached, and what it must not do."""

import json
import shutil

from browser import Browser
from page import Page, hold

def try_hostile(page):
    """Text that would be markup or a script."""
    evil = """<img src=x onerror=hurt()></textarea><script>hurt()</script><svg onload=hurt()>]]>&lt;b&gt;"""
    quoted = '"' + evil.replace('"', '""') + '"'
    elements = "document.querySelectorAll('img, iframe, object, embed, base, link').length + document.scripts.length"
    before = page.ask(f"window.hurt = () => {{ window.hurts = 1; }}, {elements}")
    page.answer("script", f"write,0,10,{quoted},{quoted}\n{quoted}\nget,0,{quoted}\n", nodes=2, capacity=16, explain=0)
    hold("hostile text isn't shown as text", evil[:20] in page.text("answers") and "\\x" not in page.text("answers"))
    page.answer("log", f"local,{quoted},10,9,0,{quoted}\nevent,1\ndrift,{quoted}\n")
    hold("a hostile name isn't shown as text", evil in page.text("tables"))
    page.ask(f"location.hash = '#kind=script&nodes=2&text=' + encodeURIComponent({json.dumps(quoted)})")
    page.ask(f"document.getElementById('search').value = {json.dumps(evil)}; document.getElementById('find').click()")
    page.drop((evil, "new Uint8Array([13, 255])"))
    hold("a hostile name of a file isn't shown as text", evil in page.text("files"))
    hold("hostile text became elements", page.ask(elements) == before and not page.ask("window.hurts"))
    hold("something can be fetched", page.ask("fetch('https://127.0.0.1:1/').then(() => 'fetched', () => 'refused')") == "refused")


def try_names(page, program):
    """What a screen reader is told: each control has a name, and each can be reached."""
    for fragment in ["#kind=script&nodes=3&capacity=64&explain=0&text=write,0,10,a,x", "#kind=log&stamps=packed&text=local,a,10,10"]:
        page.open(fragment)
        for node in page.browser.call("Accessibility.getFullAXTree")["nodes"]:
            role = node.get("role", {}).get("value")
            if role in {"button", "textbox", "searchbox", "combobox", "checkbox", "link", "group", "progressbar"} and not node.get("ignored") and role != "group":
                hold(f"a {role} has no name", node.get("name", {}).get("value"))
        hold("a control can't be reached", not page.ask("document.querySelector('button[tabindex=\"-1\"], input[tabindex=\"-1\"]')"))
        hold("there are several live regions", page.ask("document.querySelectorAll('[role=status], [aria-live], output').length") == 1)
        links = page.ask("[...document.querySelectorAll('main a')].map(link => link.getAttribute('aria-label') ?? '')")
        hold(f"links are named {links[:5]}", all(" " in name for name in links))


# Texts whose letters stand out too little from their ground, by the ratio of WCAG 2: 4.5 to 1, and 3 to 1 for large ones.
FAINT = """(() => {
    const colour = text => { const [, space, parts] = /^(rgba?|color)\\((?:srgb )?([^)]*)\\)/.exec(text); const [r, g, b, a = '1'] = parts.split(/[\\s,/]+/); return [...[r, g, b].map(part => Number(part) / (space === 'color' ? 1 : 255)), Number(a)]; };
    const over = ([r, g, b, a], ground) => [r, g, b].map((part, place) => part * a + ground[place] * (1 - a));
    const groundOf = it => { if (!it) return over(colour(getComputedStyle(document.documentElement).colorScheme && matchMedia('(prefers-color-scheme: dark)').matches ? 'rgb(0,0,0)' : 'rgb(255,255,255)'), [1, 1, 1]); return over(colour(getComputedStyle(it).backgroundColor), groundOf(it.parentElement)); };
    const light = parts => { const [r, g, b] = parts.map(part => (part <= 0.04045 ? part / 12.92 : ((part + 0.055) / 1.055) ** 2.4)); return 0.2126 * r + 0.7152 * g + 0.0722 * b; };
    const found = [];
    const texts = document.createTreeWalker(document.body, NodeFilter.SHOW_TEXT);
    for (let text = texts.nextNode(); text; text = texts.nextNode()) {
        const it = text.parentElement, style = getComputedStyle(it), size = parseFloat(style.fontSize);
        if (!text.data.trim() || !it.checkVisibility() || it.closest('svg, script, noscript, option, :disabled')) continue;
        const ground = groundOf(it), one = light(over(colour(style.color), ground)), other = light(ground);
        const ratio = (Math.max(one, other) + 0.05) / (Math.min(one, other) + 0.05);
        if (ratio < (size >= 24 || (size >= 18.6 && style.fontWeight >= 700) ? 3 : 4.5)) found.push(`${ratio.toFixed(1)} ${it.tagName} ${it.id} ${text.data.trim().slice(0, 30)}`);
    }
    return found; })()"""

# What the Tab key comes to and has no name, or a place of its own in the order.
UNNAMED = """[...document.querySelectorAll('a[href], button, input, select, textarea, summary, [tabindex]')].filter(it => it.checkVisibility() && it.tabIndex >= 0 && (it.tabIndex > 0
    || !(it.getAttribute('aria-label') || it.getAttribute('aria-labelledby') || it.labels?.[0]?.textContent.trim() || it.textContent.trim()))).map(it => `${it.tagName} ${it.id}`)"""


def try_contrast(page, program):
    """Texts stand out from their ground, light and dark, and what can be reached has a name, with all that can be opened open."""
    for scheme in ["light", "dark"]:
        page.browser.call("Emulation.setEmulatedMedia", features=[{"name": "prefers-color-scheme", "value": scheme}])
        page.open()
        page.ask("for (const part of document.querySelectorAll('details')) part.open = true")
        page.fill(**{"other-limit": "500"})
        page.ask("document.getElementById('beside-limit').click()")
        page.wait("document.getElementById('compared').textContent !== ''")
        hold(f"{scheme}, a script: faint are {page.ask(FAINT)}", not page.ask(FAINT))
        hold(f"a script: without names are {page.ask(UNNAMED)}", not page.ask(UNNAMED))
        page.ask("document.getElementById('play').click()")
        page.wait("document.getElementById('step-count').textContent !== ''")
        hold(f"{scheme}, a step: faint are {page.ask(FAINT)}", not page.ask(FAINT))
        size = page.ask("parseFloat(getComputedStyle(document.getElementById('step-said')).fontSize)")
        page.key("Escape", 27)
        page.example("A log with broken stamps")
        page.ask("document.getElementById('search').value = 'n2'; document.getElementById('find').click()")
        page.wait("document.getElementById('found').textContent !== ''")
        hold(f"{scheme}, a log: faint are {page.ask(FAINT)}", not page.ask(FAINT))
        hold(f"a log: without names are {page.ask(UNNAMED)}", not page.ask(UNNAMED))
    page.browser.call("Emulation.setEmulatedMedia", features=[])
    hold(f"a step is told in letters of {size} pixels", size >= 18)


def try_old_engine(browser, page):
    """An engine without memories of 64 bits."""
    number = browser.call("Page.addScriptToEvaluateOnNewDocument", source="WebAssembly.validate = () => false")["identifier"]
    browser.open(page.address)
    page.wait("document.getElementById('trouble') && !document.getElementById('trouble').hidden")
    hold(f"an old engine is told {page.text('trouble')}", "memory64" in page.text("trouble") and "Firefox" in page.text("trouble"))
    browser.call("Page.removeScriptToEvaluateOnNewDocument", identifier=number)


def sized(page, width, height, mobile=False):
    page.browser.call("Emulation.setDeviceMetricsOverride", width=width, height=height, deviceScaleFactor=1, mobile=mobile)
    page.browser.call("Emulation.setTouchEmulationEnabled", enabled=mobile)


def box(page, selector):
    return page.ask(f"(() => {{ const {{ left, top, right, bottom }} = document.querySelector({json.dumps(selector)}).getBoundingClientRect(); return [left, top, right, bottom].map(Math.round); }})()")


def try_room(page, program):
    """The picture stands beside the text where there is room, and first where there isn't."""
    sized(page, 1280, 800)
    page.open()
    text, picture, size = box(page, "#text"), box(page, "#picture"), page.ask("[document.documentElement.scrollHeight, document.documentElement.scrollWidth]")
    hold(f"the text stands at {text}, the picture at {picture}", text[2] <= picture[0] and max(text[1], picture[1]) < 400 and picture[3] - picture[1] > 250)
    hold(f"the whole page has to be scrolled: {size}", size[0] <= 800 and size[1] <= 1280)
    hold("left and right don't scroll by themselves", page.ask("getComputedStyle(document.getElementById('left')).overflowY === 'auto' && document.getElementById('left').scrollHeight > document.getElementById('left').clientHeight"))
    page.ask("document.getElementById('e4').scrollIntoView({ block: 'center' })")
    before = box(page, "#e4")
    page.click("#e4 text")
    page.wait("document.getElementById('told').textContent !== ''")
    hold(f"a click moves the picture from {before} to {box(page, '#e4')}", all(abs(one - other) <= 2 for one, other in zip(before, box(page, "#e4"))))
    sized(page, 390, 844, mobile=True)
    page.open()
    picture, text, wide = box(page, "#picture"), box(page, "#text"), page.ask("document.documentElement.scrollWidth")
    hold(f"on a phone the picture stands at {picture}, the text at {text}", picture[1] < 400 and picture[3] <= text[1] and wide <= 390)


def try_fingers(page, program):
    """A swipe scrolls the picture, and two fingers zoom it."""
    page.ask("document.getElementById('picture').scrollTo(0, 0)")
    left, top, _, _ = box(page, "#picture")
    page.touch(*[[(left + 300 - step, top + 150)] for step in range(0, 240, 20)])
    page.wait("document.getElementById('picture').scrollLeft > 100", seconds=5)
    width = "Number(document.querySelector('#picture svg').getAttribute('width'))"
    before = page.ask(width)
    page.touch(*[[(left + 150 - step, top + 150), (left + 200 + step, top + 150)] for step in range(0, 60, 10)])
    hold(f"two fingers make {page.ask(width)} of {before}", page.ask(width) > 2 * before)
    page.browser.call("Emulation.setTouchEmulationEnabled", enabled=False)
    page.browser.call("Emulation.clearDeviceMetricsOverride")


def try_arrows(page, program):
    """Dots are one stop of the Tab key; arrows go to the events beside one, and along messages."""
    page.open()
    stops = page.ask("document.querySelectorAll('#picture g[tabindex=\"0\"]').length")
    hold(f"{stops} dots are stops of the Tab key", stops == 1 and page.ask("document.querySelectorAll('#picture g[id]').length") == 10)
    page.ask("document.getElementById('e5').focus()")
    for name, code, event in [("ArrowLeft", 37, 4), ("ArrowUp", 38, 3), ("ArrowDown", 40, 4), ("ArrowRight", 39, 5), ("End", 35, 9), ("ArrowLeft", 37, 8), ("Home", 36, 0)]:
        page.key(name, code)
        got = page.ask("document.activeElement.id")
        hold(f"{name} leads to {got}, and not to event {event}", got == f"e{event}" and page.text("pointed").startswith(f"event {event} "))


def try_little_memory(path):
    """A text for which there isn't memory."""
    with Browser(shutil.which("chromium"), "--js-flags=--wasm-max-mem-pages=600") as browser:
        page = Page(browser, path)
        page.open()
        page.drop(("large.csv", "'local,a,1,1,0\\n'.repeat(1000000)"))
        hold(f"without memory it says {page.text('said')}", page.text("said").startswith("1,000,000") is False and "hlc: out of memory" in page.text("said"))
        page.example("The lost update")
        hold(f"after that it says {page.text('said')}", "hlc" not in page.text("said"))


CHECKS = [try_names, try_room, try_fingers, try_arrows, try_contrast]
