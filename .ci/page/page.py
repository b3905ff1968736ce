"""The page in a browser, what the program answers, and what was found wrong."""

import base64
import json
import os
import re
import shlex
import subprocess

TOP = os.path.realpath(f"{os.path.dirname(os.path.abspath(__file__))}/../..")

wrong = []


def hold(what, holds):
    if not holds:
        print(f"WRONG: {what}", flush=True)
        wrong.append(what)


def asked(program, words, text):
    ran = subprocess.run([program, *words], input=text, capture_output=True, timeout=50)
    return ran.stdout, ran.returncode, ran.stderr.decode()


class Page:
    """The page in a browser."""

    def __init__(self, browser, path):
        self.browser, self.address = browser, f"file://{os.path.realpath(path)}"
        self.ask, self.wait = browser.ask, browser.wait

    def open(self, fragment=""):
        self.browser.open(f"{self.address}{fragment}")
        self.wait("document.documentElement.dataset.ready === 'yes'")
        self.settle()

    def settle(self):
        """Waits until it has answered, and shows no progress."""
        self.wait(r"/ in [\d.]+ ms|Stopped|hlc: |takes files|whole number|no text:|there is no line|of the form|one unit/.test(document.getElementById('said').textContent) && document.getElementById('stop').disabled")

    def text(self, name):
        return self.ask(f"document.getElementById('{name}').textContent")

    def value(self, name):
        return self.ask(f"document.getElementById('{name}').value")

    def do(self, script):
        """Does something that the page answers anew."""
        self.ask("document.getElementById('said').textContent = ''")
        self.ask(script)
        self.settle()

    def answer(self, kind, text, **options):
        """Fills in the page, and presses its button."""
        if not self.ask("document.getElementById('kept').hidden"):
            self.open("#kind=script&text=")
        filled = "".join(f"document.getElementById('{name}').value = {json.dumps(str(value))};" for name, value in options.items())
        self.do(
            f"""document.getElementById('kind').value = '{kind}'; document.getElementById('kind').dispatchEvent(new Event('change')); {filled}
            document.getElementById('text').value = {json.dumps(text)}; document.getElementById('text').dispatchEvent(new Event('input'));
            document.getElementById('answer').click()"""
        )

    def example(self, name):
        """Shows an example, by its name."""
        self.do(
            f"""(() => {{ const example = document.getElementById('example');
            example.value = [...example.options].find(option => option.text === {json.dumps(name)}).value; example.dispatchEvent(new Event('change')); }})()"""
        )

    def fill(self, **values):
        """Writes into controls, as a user does, and says nothing more."""
        for name, value in values.items():
            self.ask(f"(() => {{ const it = document.getElementById('{name}'); it.value = {json.dumps(str(value))}; it.dispatchEvent(new Event('input', {{ bubbles: true }})); }})()")

    def press(self, name):
        """Presses a button that the page answers anew."""
        self.do(f"document.getElementById('{name}').click()")

    def drop(self, *files):
        """Drops files on the page: names, and scripts that give their bytes."""
        made = "".join(f"files.items.add(new File([{script}], {json.dumps(name)}));" for name, script in files)
        self.do(
            f"""(() => {{ const files = new DataTransfer(); {made}
            document.getElementById('editor').dispatchEvent(new DragEvent('drop', {{ dataTransfer: files, bubbles: true, cancelable: true }})); }})()"""
        )

    def dots(self):
        return self.ask("[...document.querySelectorAll('#picture g[id]')].map(dot => dot.id)")

    def beside(self):
        """What stands beside the lines that can be seen."""
        return self.ask("[...document.querySelectorAll('#beside div')].map(note => note.textContent)")

    def saved(self, button):
        """What a button saves, as bytes."""
        return base64.b64decode(
            self.ask(
                f"""new Promise(resolve => {{
                const kept = URL.createObjectURL;
                URL.createObjectURL = blob => {{
                    URL.createObjectURL = kept;
                    blob.arrayBuffer().then(bytes => resolve(btoa(Array.from(new Uint8Array(bytes), byte => String.fromCharCode(byte)).join(''))));
                    return '#';
                }};
                document.getElementById('{button}').click(); }})"""
            )
        )

    def click(self, selector):
        """A click of the mouse in the middle of an element."""
        x, y = self.ask(
            f"""(() => {{ const it = document.querySelector({json.dumps(selector)}); it.scrollIntoView({{ block: 'center' }});
            const box = it.getBoundingClientRect(); return [box.x + box.width / 2, box.y + box.height / 2]; }})()"""
        )
        self.browser.call("Input.dispatchMouseEvent", type="mouseMoved", x=x, y=y)
        for kind in ["mousePressed", "mouseReleased"]:
            self.browser.call("Input.dispatchMouseEvent", type=kind, x=x, y=y, button="left", clickCount=1)

    def key(self, name, code, ctrl=False, shift=False):
        for kind in ["keyDown", "keyUp"]:
            text = "\r" if name == "Enter" and kind == "keyDown" else ""
            self.browser.call("Input.dispatchKeyEvent", type=kind, key=name, code=name, windowsVirtualKeyCode=code, text=text, modifiers=(2 if ctrl else 0) + (8 if shift else 0))

    def touch(self, *steps):
        """Fingers that are put on the page, moved and taken away: at each step their places."""
        for place, points in enumerate([*steps, []]):
            kind = "touchEnd" if not points else "touchStart" if not place else "touchMove"
            self.browser.call("Input.dispatchTouchEvent", type=kind, touchPoints=[{"x": x, "y": y, "id": finger} for finger, (x, y) in enumerate(points)])

    def calls(self, command, given):
        """The statuses and the bytes that a command gives for texts with options."""
        sent = json.dumps([[base64.b64encode(text).decode(), options] for _, options, text in given])
        got = self.ask(
            f"""(async () => {{
            const told = [];
            for (const [text, options] of {sent}) {{
                const {{ status, bytes }} = await hlc.ask('{command}', Uint8Array.from(atob(text), letter => letter.charCodeAt(0)), options);
                let letters = '';
                for (const byte of bytes) letters += String.fromCharCode(byte);
                told.push([status, btoa(letters)]);
            }}
            return told; }})()"""
        )
        return [(status, base64.b64decode(text)) for status, text in got]


def marked(page):
    """The events that the picture marks."""
    return page.ask("[...document.querySelectorAll('#picture g.k')].map(dot => Number(dot.id.slice(1)))")


def words_of(page):
    """The command lines that the page says give the same, without the text."""
    return [shlex.split(re.search(r"^.*(?:\| |^)hlc (.*?)(?: < .*)?$", line)[1]) for line in page.text("line").splitlines() if re.search(r"(?:\| |^)hlc ", line)]
