#!/usr/bin/env python3
"""Uses the page that tools/page serves, as a person does in a real browser, and says what is otherwise than it should be.

    python3 tests/runners/browsed.py [--program PATH] [--pictures FOLDER] [--only WORDS]

In chromium, by Debian's python3-selenium, a text is typed, refused at its place, mended by the edit of its hint, and run, with the keyboard
alone too; each way in which a run may end is seen, and what a program lacks is told. Nothing that was typed is lost, everything can be
undone, and what is said of an earlier text is marked. Each state is looked at in light and dark, wide and narrow: nothing is wider than the
window, each text stands out, each control has a name. Each example has the colours that the rules of tokens give. --pictures writes what
was seen of each state. The last line is `N passed, M failed`. The server itself is tried by `served.py`.
"""
import base64
import os
import sys
import time

try:
    from selenium import webdriver
    from selenium.common.exceptions import WebDriverException
    from selenium.webdriver.chrome.service import Service
    from selenium.webdriver.common.action_chains import ActionChains
    from selenium.webdriver.common.by import By
    from selenium.webdriver.common.keys import Keys
except ModuleNotFoundError:
    # The `python3` found first in the PATH is not Debian's, so the script restarts with Debian's.
    is_debian = os.path.realpath(sys.executable) == os.path.realpath("/usr/bin/python3")
    if not is_debian and os.path.exists("/usr/lib/python3/dist-packages/selenium"):
        os.execv("/usr/bin/python3", ["/usr/bin/python3", *sys.argv])
    webdriver = None

import suite  # first: it makes the references and the generators importable
import editors
from served import C_OVERRUN, DEEP, ECHO, ENDLESS, FILLED, HELLO, MARKUP, NEAR, OUTPUT, PRINTING, SHORT, THROWN, WITHOUT_END
from served import NotThere, Server

TOOLS = ("chromium", "chromedriver", "python3-selenium", "python3-aiohttp", "python3-markdown", "python3-pycparser",
    "libjs-codemirror")
# The maximum wait for an expected event and the pause between two polls, in seconds.
SECONDS, LOOK = 300, 0.1
SIZES = {"wide": (1280, 900), "narrow": (360, 780)}
SCHEMES = ("light", "dark")
# The minimum contrast of a text with its background, by the guidelines for accessible pages.
CONTRAST = 4.5
# The maximum processor time, in seconds, that the browser may spend on formatting a text of 300 lines.
FORMATTING, LINES = 0.2, 300
KEPT = 10

CROWDED = "int main(){/* a count */int count=3;\n\n\nwhile(count>0)count=count-1;return count;}"
LAID_OUT = "int main() { /* a count */\n  int count = 3;\n\n  while (count > 0) count = count - 1;\n  return count;\n}\n"
TWO = "int half(int total) { return totla / 2; }\nint main() { int count = 1; return coun + half(2); }\n"
WARNED = "int main() { int n = 3; return n << 33; }\n"
MOVED = "int main() {\n  int @`U u = rnew(unique_region) 5;\n  ufree(u);\n  return *u;\n}\n"
WIDE_LETTERS = "int main() { /* äöü \U0001f600 */ return lost; }\n"
ESCAPING = "int main() {\n  int *`main p = NULL;\n  Inner: {\n    int y = 2;\n    p = &y;\n  }\n  return *p;\n}\n"
DIVIDED = "int main() {\n  int n = getchar() - 'x';\n  return 7 / n;\n}\n"
# Characters that control a terminal or are invisible, and the form in which the page shows them.
HIDDEN = "\u200b\u200e\u061c\u00ad\u2028\u202e\u2066\ufeff\x1b\x7f"
HIDDEN_SHOWN = "".join(f"\\x{byte:02x}" for byte in HIDDEN.encode("utf-8"))
# The keys that are typed, and the text that automatic indentation makes of them.
TYPED = "int main() {\nif (1 < 2) {\nputchar('a');\n}\nreturn 0;\n}\n"
INDENTED = "int main() {\n  if (1 < 2) {\n    putchar('a');\n  }\n  return 0;\n}\n"


class Window:
    """One window of a browser with nothing kept of it."""

    def __init__(self):
        options = webdriver.ChromeOptions()
        options.binary_location = "/usr/bin/chromium"
        words = ["--headless=new", "--disable-gpu", "--disable-dev-shm-usage", "--force-device-scale-factor=1", "--hide-scrollbars",
            "--lang=en"]
        for word in words + (["--no-sandbox"] if os.geteuid() == 0 else []):
            options.add_argument(word)
        options.set_capability("goog:loggingPrefs", {"browser": "ALL"})
        self.driver = webdriver.Chrome(service=Service("/usr/bin/chromedriver"), options=options)
        self.driver.set_script_timeout(SECONDS)

    def __enter__(self):
        return self

    def __exit__(self, *_):
        self.driver.quit()

    # ---- what a person does

    def go(self, address):
        self.driver.get(address)

    def element(self, selector):
        return self.driver.find_element(By.CSS_SELECTOR, selector)

    def click(self, selector):
        self.element(selector).click()

    def type(self, selector, text):
        """Types a text into an element, after what stands there."""
        self.element(selector).send_keys(text)

    def press(self, *keys):
        """Presses keys together, wherever the focus is."""
        keys = [getattr(Keys, it, it) for it in keys]
        chain = ActionChains(self.driver)
        for it in keys:
            chain.key_down(it)
        for it in reversed(keys):
            chain.key_up(it)
        chain.perform()

    def paste(self, text):
        """Pastes a text where the focus is, as the browser does at Ctrl V."""
        self.run(
            "const held = new DataTransfer(); held.setData('text/plain', arguments[0]);"
            "const pasted = new ClipboardEvent('paste', {clipboardData: held, bubbles: true, cancelable: true});"
            "document.activeElement.dispatchEvent(pasted)", text)

    # ---- what is seen

    def run(self, script, *arguments):
        """What a script in the page answers."""
        return self.driver.execute_script(script, *arguments)

    def text(self, selector):
        """What a person reads of an element."""
        return self.run("return document.querySelector(arguments[0]).innerText.trim()", selector)

    def focus(self):
        return self.run("const it = document.activeElement; return it.id || it.className || it.tagName")

    def wait(self, what, is_there):
        """Waits until something is there, and returns it."""
        end = time.monotonic() + SECONDS
        while True:
            found = is_there()
            if found:
                return found
            if time.monotonic() > end:
                raise NotThere(f"this did not come: {what}")
            time.sleep(LOOK)

    def wait_for(self, selector, wanted):
        """Waits until an element's text has these words."""
        try:
            return self.wait(wanted, lambda: wanted in self.text(selector))
        except NotThere:
            raise NotThere(f"{selector} has not come to say {wanted!r}: it says {suite.shown(self.text(selector))}") from None

    def picture(self, path):
        """Writes what the whole page looks like, with what a person would scroll to."""
        with open(path, "wb") as file:
            file.write(base64.b64decode(self.devtools("Page.captureScreenshot", format="png", captureBeyondViewport=True)["data"]))

    # ---- what is asked of the browser

    def devtools(self, command, **words):
        return self.driver.execute_cdp_cmd(command, words)

    def size(self, width, height):
        self.devtools("Emulation.setDeviceMetricsOverride", width=width, height=height, deviceScaleFactor=1, mobile=False)

    def scheme(self, name):
        self.devtools("Emulation.setEmulatedMedia", features=[{"name": "prefers-color-scheme", "value": name}])

    def tree(self):
        """What a screen reader has of the page: the role, the name and whether it takes the focus, of each node that is not hidden."""
        found = []
        for node in self.devtools("Accessibility.getFullAXTree")["nodes"]:
            if not node["ignored"]:
                properties = {it["name"]: it["value"].get("value") for it in node.get("properties", [])}
                found.append((node["role"]["value"], node.get("name", {}).get("value", ""), bool(properties.get("focusable"))))
        return found

    def worked(self):
        """The seconds of a processor that the page's thread has worked."""
        return next(it["value"] for it in self.devtools("Performance.getMetrics")["metrics"] if it["name"] == "TaskDuration")

    def errors(self):
        """What the browser complains of: errors of scripts, and what the page's policy forbade."""
        return [it["message"] for it in self.driver.get_log("browser")]


# ---- what a person does with the page


class Person:
    """Somebody at the page in a browser."""

    def __init__(self, window, server, pictures):
        self.window, self.server, self.pictures = window, server, pictures
        self.can = server.can()
        self.faults = []

    def want(self, what, wanted, got):
        if wanted != got:
            self.faults.append(suite.difference(what, wanted, got))

    def open(self, part="", fresh=True):
        """Opens the page, without what the browser has kept of it where it is to be fresh."""
        self.window.go("about:blank")
        # Errors that the web page reported about an earlier server, which was stopped, do not count
        # as errors of the current server.
        self.window.errors()
        self.window.go(self.server.address + part)
        self.begun()
        if fresh:
            self.window.run("localStorage.clear(); window.addEventListener('pagehide', () => localStorage.clear())")
            self.window.go("about:blank")
            self.window.go(self.server.address + part)
            self.begun()

    def begun(self):
        self.window.wait("the examples", lambda: self.window.run("return document.querySelectorAll('#example option').length > 10"))

    def write(self, text, given=""):
        """Pastes a text in place of the one that stands there."""
        self.window.run("const it = document.querySelector('#input'); it.value = arguments[0]; it.dispatchEvent(new Event('input'))", given)
        self.window.run("editor.focus()")
        self.window.press("CONTROL", "a")
        if text:
            self.window.paste(text)
        else:
            self.window.press("BACKSPACE")
        self.want("what was pasted", text, self.source())

    def source(self):
        return self.window.run("return editor.text()")

    def verdict(self, words):
        """Waits for the verdict on the text that stands there."""
        settled = "return document.querySelector('#verdict').getAttribute('aria-busy') === 'false'"
        self.window.wait("a verdict", lambda: self.window.run(settled))
        self.window.wait_for("#verdict", words)

    def run(self, words):
        self.window.click("#run")
        self.window.wait_for("#end", words)

    def part(self, name):
        self.window.click(f"#tab-{name}")

    def choose(self, selector, value):
        """Chooses an option, as a person does with the keyboard."""
        self.window.run(
            "const it = document.querySelector(arguments[0]); it.value = arguments[1]; it.dispatchEvent(new Event('change'))",
            selector, value)

    def marked(self):
        """What is marked in the text, with the kind of each mark."""
        return self.window.run(
            "const marks = editor.cm.getAllMarks().filter(it => /CodeMirror-lint-mark/.test(it.className));"
            "return marks.map(it => { const {from, to} = it.find();"
            " return [/warning/.test(it.className) ? 'warning' : 'refusal', editor.cm.getRange(from, to)] })")

    def selected(self):
        return self.window.run("return editor.cm.getSelection()")

    def findings(self):
        return self.window.run("return [...document.querySelectorAll('#findings .message')].map(it => it.textContent)")

    def output(self):
        return self.window.run("return document.querySelector('#output').textContent")

    def kept(self):
        return self.window.run("return stored().kept.map(it => it.source)")

    def see(self, name):
        """Looks at a state in each size and scheme: what is too wide, what hardly stands out."""
        part = self.window.run("return document.body.dataset.part")
        for size, (width, height) in SIZES.items():
            self.window.size(width, height)
            parts = [part] if size == "wide" else ["program", part]
            for shown in parts:
                self.window.run("show(arguments[0])", shown)
                for scheme in SCHEMES:
                    self.window.scheme(scheme)
                    where = f"{name}, {shown}, {size} and {scheme}"
                    self.want(f"{where}: what is wider than the window", [], self.window.run(TOO_WIDE))
                    self.want(f"{where}: what hardly stands out", [], self.window.run(FAINT, CONTRAST))
                    if self.pictures:
                        self.window.picture(os.path.join(self.pictures, f"{name}-{size}-{shown}-{scheme}.png"))
        self.window.size(*SIZES["wide"])
        self.window.scheme("light")
        self.window.run("show(arguments[0])", part)
        self.hear(name)

    def hear(self, name):
        """What a screen reader has: each control has a name, and no other of its kind has the same."""
        controls = [(role, said) for role, said,
            focusable in self.window.tree() if focusable and role not in ("RootWebArea", "option", "generic")]
        self.want(f"{name}: controls without a name", [], [role for role, said in controls if not said.strip()])
        buttons = [said for role, said in controls if role == "button"]
        self.want(f"{name}: buttons of one name", sorted({*buttons}), sorted(buttons))
        self.want(f"{name}: what the browser complains of", [], self.window.errors())


# Lists the elements of the page that reach beyond the window's right edge, outside any element that
# scrolls.
TOO_WIDE = """
const most = document.documentElement.clientWidth;
const inScroll = it => it.closest('.editor, .scroll, .rule, #output, .skip') || !it.checkVisibility();
const isWide = it => !inScroll(it) && it.getBoundingClientRect().right > most + 1;
return [...document.body.querySelectorAll('*')].filter(isWide).map(it => it.tagName + '#' + it.id);
"""
# Lists the texts whose colour has too little contrast with their background, except disabled
# buttons.
FAINT = """
const numbers = colour => (colour.match(/[\\d.]+/g) || []).map(Number);
const part = it => { const x = it / 255; return x <= 0.03928 ? x / 12.92 : ((x + 0.055) / 1.055) ** 2.4; };
const light = ([r, g, b]) => 0.2126 * part(r) + 0.7152 * part(g) + 0.0722 * part(b);
const behind = it => { for (let at = it; at; at = at.parentElement) { const c = numbers(getComputedStyle(at).backgroundColor);
  if (c.length === 3 || c[3] > 0) return c; } return [255, 255, 255]; };
const walker = document.createTreeWalker(document.body, NodeFilter.SHOW_TEXT);
const found = [];
for (let node = walker.nextNode(); node; node = walker.nextNode()) {
  const it = node.parentElement;
  const isApart = it.closest('textarea, [disabled], select, noscript, script, .CodeMirror-measure');
  if (!node.data.trim() || isApart || !it.checkVisibility()) continue;
  const ink = light(numbers(getComputedStyle(it).color)), paper = light(behind(it));
  const contrast = (Math.max(ink, paper) + 0.05) / (Math.min(ink, paper) + 0.05);
  const words = it.tagName + '.' + it.className + ' ' + node.data.trim().slice(0, 30) + ' ' + contrast.toFixed(1);
  if (contrast < arguments[0]) found.push(words);
}
return found;
"""
# Returns true if the focused element has a visible outline.
OUTLINED = "const s = getComputedStyle(document.activeElement); return s.outlineStyle !== 'none' && parseFloat(s.outlineWidth) >= 2"
# Returns true if the page has loaded, with an editor of the given kind.
BEGUN = "return typeof editor === 'object' && editor?.constructor.name === arguments[0] && about !== null"
# Returns the kind of each character of a text, as the page colours the text.
COLOURS = """
const found = [];
const cm = editor.cm;
cm.eachLine(line => {
  if (found.length) found.push([1, '']);
  let end = 0;
  for (const it of cm.getLineTokens(cm.getLineNumber(line), true)) { found.push([it.end - it.start, it.type || '']); end = it.end; }
  if (end < line.text.length) found.push([line.text.length - end, '']);
});
return found;
"""


def opens(person):
    """The page comes with an example, its verdict, and what the program cannot."""
    person.open()
    person.verdict("Accepted.")
    with open(os.path.join(suite.ROOT, "examples", "hello.cyc"), encoding="utf-8") as file:
        person.want("the first example", file.read(), person.source())
    lacking = {"json": "check --json", "places": "run --places", "report": "run --report", "format": "lay programs out"}
    for name, words in lacking.items():
        person.want(f"whether it is told that {words} is lacking", name not in person.can, words in person.window.text("#notice"))
    person.want("the title", "Cyclone: write, check and run", person.window.run("return document.title"))
    person.want("the editor", "RichEditor", person.window.run("return editor.constructor.name"))
    person.want("what is kept of an example as it is", [], person.kept())
    person.see("opened")


def mends(person):
    """A text is refused at its place, mended by its edit, and run."""
    person.open()
    person.write(NEAR)
    person.verdict("Refused: 1 refusal.")
    person.want("what is marked", [["refusal", "coun"]], person.marked())
    person.want("what is found", ["Refused: undeclared name `coun`"], person.findings())
    person.want("the hint", True, "did you mean `count`?" in person.window.text("#findings"))
    person.want("the marks beside the line numbers", 1,
        person.window.run("return document.querySelectorAll('.CodeMirror-lint-marker').length"))
    person.see("refused")
    person.window.click("#findings details summary")
    person.window.wait_for("#findings .rule", "fault 20")
    person.window.click("#findings .edit")
    person.verdict("Accepted.")
    person.want("the mended text", NEAR.replace("coun;", "count;"), person.source())
    person.want("what is marked then", [], person.marked())
    person.run("main returned 3")
    person.want("the output", "3", person.output())
    person.see("returned")
    person.window.run("editor.focus()")
    person.window.press("CONTROL", "z")
    person.verdict("Refused")
    person.want("the text after it was undone", NEAR, person.source())


def tells_all(person):
    """More than one refusal, each with its place and edit; a warning; what else is at fault."""
    person.open()
    person.write(TWO)
    person.verdict("Refused: 2 refusals.")
    person.want("what is marked", [["refusal", "totla"], ["refusal", "coun"]], person.marked())
    person.want("what is found", ["Refused: undeclared name `totla`", "Refused too: undeclared name `coun`"],
        person.findings())
    person.write(WARNED)
    person.verdict("Accepted, with 1 warning.")
    person.want("what is warned of", [["warning", "<<"]], person.marked())
    person.see("warned")
    person.write(MOVED)
    person.verdict("Refused: 1 refusal.")
    person.want("the object at fault", True, "u" in person.findings()[0] and len(person.window.run("return findings[0].related")) > 0)
    person.write(ESCAPING)
    person.verdict("Refused: 1 refusal.")
    person.want("the region at fault", True, "`Inner does not outlive `main" in person.window.text("#findings"))
    person.see("region")
    person.write(WIDE_LETTERS)
    person.verdict("Refused: 1 refusal.")
    person.want("what is marked after wide letters", [["refusal", "lost"]], person.marked())


def uses_keys(person):
    """All of it with the keyboard alone."""
    person.open()
    window = person.window
    window.run("document.activeElement.blur(); window.scrollTo(0, 0)")
    found = []
    for _ in range(20):
        window.press("TAB")
        found.append(window.focus())
        if found[-1] == "source":
            break
        shown = window.run(OUTLINED)
        person.want(f"whether the focus is seen on {found[-1]}", True, shown)
    person.want("where the tabulator goes", ["skip", "example", "language", "run", "lay", "list", "link", "tab-running", "source"], found)
    person.write(TWO)
    person.verdict("Refused: 2 refusals.")
    window.press("CONTROL", "HOME")
    window.press("F8")
    person.want("where F8 goes first", "totla", person.selected())
    window.press("F8")
    person.want("where it goes then", "coun", person.selected())
    window.press("SHIFT", "F8")
    window.wait("the second edit", lambda: "return count +" in person.source())
    person.verdict("Refused: 1 refusal.")
    window.press("F8")
    window.press("SHIFT", "F8")
    person.verdict("Accepted.")
    window.press("CONTROL", "ENTER")
    window.wait_for("#end", "main returned 2")
    for _ in range(2):
        window.press("TAB")
    person.want("where the tabulator goes after the text", "input", window.focus())
    window.run("document.querySelector('#tab-running').focus()")
    for wanted in ("tab-listing", "tab-reading", "tab-running"):
        window.press("ARROW_RIGHT")
        person.want("where an arrow goes", wanted, window.focus())
        shown = window.run("return [...document.querySelectorAll('.part')].filter(it => it.checkVisibility()).map(it => it.id)")
        person.want("the part that is shown then", [wanted.removeprefix("tab-")], shown)
    roles = [(role, said) for role, said, _ in window.tree() if role in ("textbox", "tab", "tabpanel") and said]
    for wanted in (("textbox", "Program"), ("textbox", "Input"), ("tab", "Run"), ("tab", "Listing"), ("tabpanel", "Run")):
        person.want(f"whether a screen reader has {wanted}", True, wanted in roles)


def indents(person):
    """What is typed is indented, and everything can be undone."""
    person.open()
    person.write("")
    person.window.type("#source", TYPED)
    person.want("the text that was typed", INDENTED, person.source())
    person.window.press("CONTROL", "a")
    person.window.press("CONTROL", "/")
    person.want("the text as a comment", True, all(line.startswith("//") for line in person.source().split("\n") if line))
    person.window.press("CONTROL", "z")
    person.want("the text after that is undone", INDENTED, person.source())
    person.choose("#example", "count")
    person.want("whether the example is there", True, "getchar" in person.source())
    person.window.run("editor.focus()")
    person.window.press("CONTROL", "z")
    person.want("the text after the example is undone", INDENTED, person.source())
    for _ in range(60):
        person.window.press("CONTROL", "z")
        if "putchar('H')" in person.source():
            break
    person.want("whether all is undone to the first text", True, "putchar('H')" in person.source())


def searches(person):
    """A text is searched, its blocks are folded, and its brackets are matched."""
    person.open()
    person.write(INDENTED)
    person.window.press("CONTROL", "HOME")
    person.window.press("CONTROL", "f")
    person.window.wait("the field for words", lambda: person.window.run("return !!document.querySelector('.CodeMirror-dialog input')"))
    person.window.type(".CodeMirror-dialog input", "putchar\n")
    person.want("what is found", "putchar", person.selected())
    person.window.press("ESCAPE")
    person.window.run("editor.focus()")
    person.window.press("CONTROL", "HOME")
    person.window.press("CONTROL", "q")
    person.want("what is folded", 1, person.window.run("return document.querySelectorAll('.CodeMirror-foldmarker').length"))
    person.window.press("CONTROL", "q")
    person.window.run("editor.select(11, 11)")
    person.window.wait("matching brackets",
        lambda: person.window.run("return document.querySelectorAll('.CodeMirror-matchingbracket').length === 2"))
    person.want("what the browser complains of", [], person.window.errors())


# Two program texts that use names of the library; the second text itself declares a function with a
# library name.
USES = "int main() {\n  print_int(sum_of(3));\n  return count_ints(NULL);\n}\n"
OWN = "int main() {\n  return count_ints(3);\n}\nint count_ints(int n) {\n  return n;\n}\n"


def completes(person):
    """Names of the library are completed, and what they are is told at the caret and at the mouse."""
    person.open()
    window = person.window
    person.write("int main() { print_in")
    window.press("CONTROL", " ")
    window.wait("the words", lambda: window.run("return document.querySelectorAll('.CodeMirror-hint').length > 1"))
    shown = window.run("return [...document.querySelectorAll('.CodeMirror-hint')].map(it => it.textContent)")
    person.want("what is offered", True, "void print_int(int n)  numbers.cyc" in shown)
    person.want("what is offered that does not fit", [], [it for it in shown if "print_in" not in it])
    window.size(*SIZES["wide"])
    for scheme in SCHEMES:
        window.scheme(scheme)
        person.want(f"what hardly stands out, {scheme}", [], window.run(FAINT, CONTRAST))
        if person.pictures:
            window.picture(os.path.join(person.pictures, f"completed-{scheme}.png"))
    window.scheme("light")
    for _ in range(next((at for at, it in enumerate(shown) if it.startswith("void print_int(")), 0)):
        window.press("ARROW_DOWN")
    window.press("ENTER")
    person.want("the text that is completed", "int main() { print_int", person.source())
    person.write(USES)
    window.run("editor.select(arguments[0], arguments[0])", USES.index("count_ints") + 3)
    window.wait_for("#name", "int count_ints(struct Int_list<`r> *`r list)")
    person.want("its words", True, "In the library's list.cyc. Returns how many ints a list has." in window.text("#name"))
    person.see("named")
    window.run("editor.select(arguments[0], arguments[0])", USES.index("sum_of") + 3)
    person.want("what is told of another name", True, window.run("return document.querySelector('#name').hidden"))
    for scheme in SCHEMES:
        window.scheme(scheme)
        points_at(person, "print_int")
        window.wait_for("#tip", "void print_int(int n)")
        person.want("whether the words at the mouse are seen", True, window.run("return document.querySelector('#tip').checkVisibility()"))
        person.want(f"what hardly stands out at the mouse, {scheme}", [], window.run(FAINT, CONTRAST))
        if person.pictures:
            # A screenshot of the whole page would move the mouse away from the name that it points
            # at.
            window.driver.save_screenshot(os.path.join(person.pictures, f"pointed-at-{scheme}.png"))
        points_at(person, "sum_of")
    window.scheme("light")
    person.want("whether they go with the mouse", True, window.run("return document.querySelector('#tip').hidden"))
    person.write(OWN)
    window.run("editor.select(arguments[0], arguments[0])", OWN.index("count_ints") + 3)
    person.want("what is told of an own name", True, window.run("return document.querySelector('#name').hidden"))
    window.run("setLanguage('c')")
    window.press("ARROW_RIGHT")
    person.want("what is told in C", True, window.run("return document.querySelector('#name').hidden"))
    person.want("what the browser complains of", [], window.errors())


def points_at(person, word):
    """Moves the mouse onto a word of the text."""
    place = person.window.run(
        "const from = editor.text().indexOf(arguments[0]);"
        "const {left, top, bottom} = editor.cm.charCoords(editor.place(from + 2), 'window'); return [left, (top + bottom) / 2]", word)
    chain = ActionChains(person.window.driver)
    chain.w3c_actions.pointer_action.move_to_location(*map(round, place))
    chain.perform()


def keeps(person):
    """Nothing that was typed is lost by an example or a reload, and the last ten texts come back."""
    person.open()
    place = "const {left, top} = document.querySelector('#run').getBoundingClientRect(); return [left, top]"
    before = person.window.run(place)
    person.write(TWO, "an input")
    person.choose("#example", "count")
    person.want("what is kept", [TWO], person.kept())
    person.want("where the buttons are", before, person.window.run(place))
    person.choose("#kept", "0")
    person.want("the text that came back", (TWO, "an input"),
        (person.source(), person.window.run("return document.querySelector('#input').value")))
    texts = [f"int main() {{ return {number}; }}\n" for number in range(KEPT + 2)]
    for text in texts:
        person.write(text)
        person.choose("#example", "hello")
    person.want("the last ten", texts[:1:-1], person.kept())
    person.write(NEAR)
    person.verdict("Refused")
    person.open(fresh=False)
    person.want("the text after a reload", NEAR, person.source())
    person.open("#example=hello", fresh=False)
    person.window.wait("the example of the address", lambda: "putchar('H')" in person.source())
    person.want("the text that was there before", NEAR, person.kept()[0])
    person.see("kept")


def marks_stale(person):
    """What was said of an earlier text is marked as that."""
    person.open()
    person.write(HELLO)
    person.run("main returned 7")
    stale = "return [...document.querySelectorAll('.old')].filter(it => !it.hidden).map(it => it.id)"
    person.want("what is stale after a run", [], person.window.run(stale))
    person.window.click("#list")
    person.window.wait_for("#listing-words", "instructions.")
    person.want("what is stale after a listing", [], person.window.run(stale))
    person.window.run("editor.focus()")
    person.window.type("#source", " ")
    person.want("what is stale after a change", ["stale-run", "stale-listing"], person.window.run(stale))
    person.want("buttons of lines that were others", True,
        person.window.run("return [...document.querySelectorAll('#instructions button')].every(it => it.disabled)"))
    person.see("stale-listing")
    person.part("running")
    person.want("whether the output is still there", "H", person.output())
    person.see("stale")
    person.window.run("editor.focus()")
    person.window.press("CONTROL", "z")
    person.want("what is stale when the change is undone", [], person.window.run(stale))
    person.window.type("#input", "x")
    person.want("what is stale with another input", ["stale-run"], person.window.run(stale))


def reads(person):
    """Documents and the index of the examples are read beside the program."""
    person.open()
    person.write(NEAR)
    person.part("reading")
    window = person.window

    def inside(script):
        frame = window.element("#document")
        window.driver.switch_to.frame(frame)
        try:
            return window.run(script)
        finally:
            window.driver.switch_to.default_content()

    window.wait("the documents", lambda: inside("return document.querySelectorAll('li a').length > 5"))
    person.see("documents")
    window.click(".links a[href='docs/LANGUAGE']")
    window.wait("the language", lambda: inside("return document.querySelectorAll('table, pre').length > 20"))
    person.want("whether it is wider than its frame", False,
        inside("return document.documentElement.scrollWidth > document.documentElement.clientWidth + 1"))
    person.see("language")
    window.click(".links a[href='docs/examples']")
    window.wait("the examples", lambda: inside("return document.querySelectorAll('th a').length > 20"))
    titled = inside("return [...document.querySelectorAll('tr')].filter(it => it.cells[1].textContent.length > 10).length")
    person.want("whether most examples have a title", True, titled > 30)
    person.see("examples")
    window.driver.switch_to.frame(window.element("#document"))
    window.click("a[href='../#example=balance']")
    window.driver.switch_to.default_content()
    window.wait("the example in the editor", lambda: "struct Account" in person.source())
    person.want("the text that was there before", [NEAR], person.kept())
    person.want("what the browser complains of", [], window.errors())


def shows_hidden(person):
    """What steers a terminal or is not seen is shown by its bytes."""
    person.open()
    person.write(ECHO, HIDDEN + "\n")
    person.run("main returned 0")
    person.want("the output", HIDDEN_SHOWN + "\n", person.output())
    text = "int main() { return lost; } // " + "".join(it for it in HIDDEN if it != "\u2028")
    person.window.run("editor.setText(arguments[0])", text)
    person.verdict("Refused")
    shown = person.window.run("return document.querySelector('.CodeMirror-code').innerText")
    person.want("characters in the editor that are not seen", [], [it for it in HIDDEN if it in shown])
    everything = person.window.run("return document.querySelector('#findings').innerText + document.querySelector('#verdict').innerText")
    person.want("characters in what is found that are not seen", [], [it for it in HIDDEN if it in everything])
    person.window.run("editor.setText(arguments[0])", "int main() { return 3; /* " + HIDDEN.replace("\u2028", "") + " */ }\n")
    person.window.click("#list")
    person.window.wait_for("#listing-words", "instructions.")
    listed = person.window.run("return document.querySelector('#instructions').innerText")
    person.want("characters in the listing that are not seen", [], [it for it in HIDDEN if it in listed])
    person.want("whether the listing shows them", True, "\\xe2\\x80\\x8b" in listed)


def falls_back(person):
    """Without CodeMirror the page has a text area, which can do all but colours."""
    person.open()
    person.want("the editor", "PlainEditor", person.window.run("return editor.constructor.name"))
    person.want("what is said of it", True, "no CodeMirror" in person.window.text("#editor-words"))
    person.window.run("document.querySelector('#source').select()")
    person.window.type("#source", NEAR)
    person.want("what was typed", NEAR, person.source())
    person.verdict("Refused: 1 refusal.")
    person.window.press("F8")
    selected = person.window.run("const it = editor.area; return it.value.slice(it.selectionStart, it.selectionEnd)")
    person.want("where F8 goes", "coun", selected)
    person.window.run("document.querySelector('#source').select()")
    person.window.type("#source", USES.partition("(sum")[0])
    person.window.wait_for("#name", "void print_int(int n)")
    person.window.run("document.querySelector('#source').select()")
    person.window.type("#source", NEAR)
    person.verdict("Refused: 1 refusal.")
    person.want("what is told of no name", True, person.window.run("return document.querySelector('#name').hidden"))
    person.window.click("#findings .edit")
    person.verdict("Accepted.")
    person.window.run("editor.focus(); document.execCommand('undo')")
    person.want("the text after it was undone", NEAR, person.source())
    person.choose("#example", "count")
    person.want("what is kept", [NEAR], person.kept())
    person.see("plain")


def prefers_plain(person):
    """Who prefers a text area has it, and keeps the text."""
    person.open()
    person.write(TWO)
    person.window.click("#plain")
    person.window.wait("the text area", lambda: person.window.run(BEGUN, "PlainEditor"))
    person.want("the text", TWO, person.source())
    person.window.click("#plain")
    person.window.wait("the editor", lambda: person.window.run(BEGUN, "RichEditor"))
    person.want("the text then", TWO, person.source())


def ends(person):
    """Each way in which a run ends, with its place where the program tells it."""
    person.open()
    person.write(ECHO, "grüße\x07\n")
    person.run("main returned 0")
    person.want("the output", "grüße\\x07\n", person.output())
    person.want("the bytes that were read", True, "Bytes read\t9" in person.window.text("#figures"))
    person.write(THROWN)
    person.run("An exception was thrown and not caught: Odd with the int 3.")
    place = person.window.text("#places")
    if "places" in person.can:
        person.want("where it was thrown", True, "Line 3" in place and "Line 7" in place)
        person.want("the mark at that place", 1, person.window.run("return document.querySelectorAll('.CodeMirror-line .here').length"))
    else:
        person.want("that no place is told", ("", True), (place, "cannot tell where" in person.window.text("#end")))
    person.see("thrown")
    person.write(DIVIDED, "x")
    person.run("An exception was thrown and not caught: Div_zero.")
    person.write(DEEP)
    person.run("More than 4096 calls would have been under way at once.")
    person.write(PRINTING)
    person.run("it printed more than 10,000 bytes")
    person.want("the bytes that are shown of it", OUTPUT, len(person.output()))
    person.window.click("#running summary")
    person.window.type("#pages", "4")
    person.write(FILLED)
    person.run("The memory for objects is full: 4 pages")
    person.window.run("document.querySelector('#pages').value = ''")
    person.window.type("#steps", "5000")
    person.write("int main() { while (1 < 2) ; return 0; }\n")
    person.run("The run was stopped after 5,000 instructions")
    person.window.run("document.querySelector('#steps').value = 0")
    person.run("It was not run: Instructions: from 1 to")
    person.window.run("document.querySelector('#steps').value = ''; document.querySelector('#peaks').checked = true")
    person.write("int f(int n) { if (n == 0) return 0; return f(n - 1); }\nint main() { return f(4); }\n")
    person.run("main returned 0")
    person.want("the most calls", True, "Most calls at once\t6" in person.window.text("#figures"))
    person.write(NEAR)
    person.run("It was not run: the program is refused.")


def is_narrow(person):
    """A narrow window shows one part at a time, and the one that was asked for."""
    window = person.window
    window.size(*SIZES["narrow"])
    try:
        person.open()
        shown = "return ['program', 'running', 'listing', 'reading'].filter(it => document.getElementById(it).checkVisibility())"
        person.want("the part that is shown first", ["program"], window.run(shown))
        person.write(HELLO)
        person.run("main returned 7")
        person.want("the part after a run", ["running"], window.run(shown))
        edges = [window.run(f"return document.querySelector('{it}').getBoundingClientRect().bottom") for it in ("#printed", "#end")]
        person.want("whether output and end are seen", True, 0 < edges[0] and edges[1] < SIZES["narrow"][1])
        person.part("program")
        window.click("#list")
        window.wait_for("#listing-words", "instructions.")
        person.want("the part with a listing", ["listing"], window.run(shown))
        cut = "const it = document.querySelector('#listing .scroll'); return it.scrollWidth > it.clientWidth + 1"
        person.want("whether the listing is cut off", False, window.run(cut))
        window.click("#instructions button")
        person.want("the part with the line", ["program"], window.run(shown))
        person.part("reading")
        person.want("the part with documents", ["reading"], window.run(shown))
    finally:
        window.size(*SIZES["wide"])
    person.want("the parts in a wide window", ["program", "reading"], window.run(shown))


def comes_as_it_goes(person):
    """The output is there before the run ends, and a run that is stopped leaves no process."""
    person.open()
    person.write(ENDLESS)
    person.verdict("Accepted")
    person.window.click("#run")
    person.window.wait("the output of a run that goes on", lambda: len(person.output()) > 1000)
    person.want("what is told of it", "It runs.", person.window.text("#end"))
    person.see("running")
    person.window.click("#stop")
    person.window.wait_for("#end", "You stopped it.")
    person.window.wait("the end of its process", lambda: not person.server.children())


def ends_at_the_clock(person):
    """A run that goes on too long is stopped, and leaves no process."""
    person.open()
    person.write(ENDLESS)
    person.window.click("#run")
    person.window.wait_for("#end", f"it took more than {SHORT} seconds")
    person.window.wait("the end of its process", lambda: not person.server.children())


def lays_out(person):
    """A text is laid out at a press of a button, soon, which can be undone; one that has no tokens is told."""
    person.open()
    if "format" not in person.can:
        return
    person.write(CROWDED)
    person.window.click("#lay")
    person.window.wait("the text that is laid out", lambda: person.source() == LAID_OUT)
    person.verdict("Accepted.")
    person.window.click("#lay")
    person.window.wait_for("#notice", "laid out already")
    person.see("formatted")
    person.window.run("editor.focus()")
    person.window.press("CONTROL", "z")
    person.want("the text after it was undone", CROWDED, person.source())
    person.write("int main() { return 0; } $")
    person.window.click("#lay")
    person.window.wait_for("#notice", "The program is not laid out: fault 1 at 1:26.")
    lines = LINES // 6
    long = "".join(f"int f{n}(int a){{int b=a+{n};\nif(b>3)b=b-1;return b;}}\n" for n in range(lines)) + HELLO
    person.write(long)
    person.verdict("Accepted.")
    person.window.click("#lay")
    person.window.wait("the long text that is laid out", lambda: person.window.run("return editor.cm.lineCount() > arguments[0]", LINES))
    laid_out = person.source()
    person.window.run("editor.focus()")
    person.window.press("CONTROL", "z")
    person.want("the long text after it was undone", long, person.source())
    person.verdict("Accepted.")
    person.window.devtools("Performance.enable", timeDomain="threadTicks")
    before = person.window.worked()
    person.window.driver.execute_async_script(
        "const [text, done] = arguments; replaceAll(text); requestAnimationFrame(() => requestAnimationFrame(() => done()))", laid_out)
    took = person.window.worked() - before
    print(f"{laid_out.count(chr(10))} lines were laid out in {took:.2f} s of the browser")
    person.want("whether that was soon", True, took <= FORMATTING)


def lists(person):
    """The listing, beside the lines that it is made from."""
    person.open()
    person.write(THROWN)
    person.verdict("Accepted")
    person.window.click("#list")
    person.window.wait_for("#listing-words", "instructions.")
    cells = person.window.run(
        "const rows = [...document.querySelectorAll('#instructions tbody tr')];"
        "return rows.map(it => [...it.cells].map(cell => cell.textContent))")
    texts = "\n".join(it[2] for it in cells)
    person.want("the first instruction", True, texts.startswith("00400000  lui $28, 4096"))
    if "places" in person.can:
        person.want("the line of a throw", True, any(it[0] == "3" and "throw new Odd" in it[1] for it in cells))
    else:
        person.want("that no lines are told", True, "cannot tell which lines" in person.window.text("#listing-words"))
    wide = person.window.run(
        "const w = it => document.querySelector(it).getBoundingClientRect().width; return w('#instructions') / w('#listing .scroll')")
    person.want("whether the listing has the width", True, wide > 0.95)
    person.see("listed")


def links(person):
    """An address holds a program and its input; one that holds none is told."""
    person.open()
    person.write(WIDE_LETTERS, "some input\n")
    person.window.click("#link")
    person.window.wait_for("#notice", "holds the program")
    part = person.window.run("return location.hash")
    person.open(part)
    person.window.wait("the text of the address", lambda: person.source() == WIDE_LETTERS)
    person.want("its input", "some input\n", person.window.run("return document.querySelector('#input').value"))
    person.verdict("Refused")
    for bad in ("#program=AAAA", "#program=" + part[9:-12]):
        person.open(bad)
        person.window.wait_for("#notice", "holds no program that can be read")


def translates(person):
    """A C program is checked at its lines, stands beside its translation, and is run, listed, linked and kept as one."""
    person.open()
    window = person.window
    person.choose("#language", "c")
    person.want("the example of the language", True, "scanf" in person.source())
    person.verdict("Accepted.")
    person.write(C_OVERRUN)
    person.verdict("Accepted.")
    person.want("the part that is shown", "translation", window.run("return document.body.dataset.part"))
    rows = window.run("return [...document.querySelectorAll('#lines tbody tr')].map(it => [...it.cells].map(one => one.textContent))")
    person.want("the translation of the loop", [True], [" a[i] = i;" in text for line, text in rows if line == "4"])
    person.want("the translation of the return", True, ["6", "  return 0;"] in rows)
    person.see("translated")
    person.run("An exception was thrown and not caught: Array_bounds.")
    person.want("where it ended", True, window.text("#places").startswith("Line 4, column 3: an access outside of its array"))
    person.want("the mark at that place", 1, window.run("return document.querySelectorAll('.CodeMirror-line .here').length"))
    person.see("ended-in-c")
    window.click("#list")
    window.wait_for("#listing-words", "instructions.")
    listed = window.run("return [...document.querySelectorAll('#instructions tbody tr')].map(it => it.cells[1].textContent)")
    person.want("whether the listing has lines of C", True, C_OVERRUN.split("\n")[3] in listed)
    person.want("whether C can be laid out", True, window.run("return document.querySelector('#lay').disabled"))
    window.click("#link")
    window.wait_for("#notice", "holds the program")
    part = window.run("return location.hash")
    person.open(part)
    window.wait("the text of the address", lambda: person.source() == C_OVERRUN)
    person.want("its language", "c", window.run("return document.querySelector('#language').value"))
    window.run("editor.focus()")
    window.press("CONTROL", "HOME")
    person.part("translation")
    window.wait("the translation", lambda: not window.run("return document.querySelector('#take').hidden"))
    window.type("#source", " ")
    person.want("whether the translation is marked as old", False, window.run("return document.querySelector('#stale-translation').hidden"))
    mends_c(person)


def mends_c(person):
    """A refusal stands at its place in C; the translation can become the program."""
    window = person.window
    person.write(C_OVERRUN.replace("int a[3]", "double x = 1.5; int a[3]"))
    person.verdict("Refused: 1 refusal.")
    person.want("what is marked", [["refusal", "1"]], [[kind, text[:1]] for kind, text in person.marked()])
    window.wait_for("#translation-words", "There is no translation")
    person.see("refused-in-c")
    person.write(C_OVERRUN)
    person.verdict("Accepted.")
    window.wait("the translation", lambda: not window.run("return document.querySelector('#take').hidden"))
    window.click("#take")
    person.want("the text that is gone on with", True, person.source().startswith("int main() {"))
    person.want("its language", "cyclone", window.run("return document.querySelector('#language').value"))
    person.verdict("Accepted.")
    person.want("the C program that is kept", C_OVERRUN, person.kept()[0])
    person.choose("#kept", "0")
    person.want("the language of a kept text", "c", window.run("return document.querySelector('#language').value"))
    person.verdict("Accepted.")
    person.open(fresh=False)
    person.want("the text after a reload", (C_OVERRUN, "c"), (person.source(), window.run("return language")))
    person.want("what the browser complains of", [], window.errors())


def shows_texts(person):
    """Texts are shown as texts, whatever stands in them."""
    person.open()
    person.write(MARKUP)
    person.verdict("Accepted")
    person.run("main returned 0")
    person.write(ECHO, MARKUP)
    person.run("main returned 0")
    person.want("the output", MARKUP, person.output())
    person.write(MARKUP.replace("return 0", "return <script>"))
    person.verdict("Refused")
    person.choose("#example", "hello")
    person.want("the title", "Cyclone: write, check and run", person.window.run("return document.title"))
    person.want("what was made of the texts", 0, person.window.run("return document.querySelectorAll('script:not([src]), img').length"))


def colours(person):
    """Each token of the examples, and of a text of odd tokens, has the colour of its kind."""
    person.open()
    texts = {"odd tokens": editors.ODD}
    folder = os.path.join(suite.ROOT, "examples")
    for name in sorted(os.listdir(folder)):
        if name.endswith(".cyc"):
            with open(os.path.join(folder, name), encoding="utf-8") as file:
                texts[name] = file.read()
    for name, text in texts.items():
        person.window.run("editor.setText(arguments[0])", text)
        kinds = [kind for length, kind in person.window.run(COLOURS) for _ in range(length)]
        wanted = editors.kinds_of(text)
        odd = [(at, text[at], one, kinds[at]) for at,
            one in enumerate(wanted) if text[at] not in " \t\r\n" and kinds[at] != (one if one != "name" else "")]
        person.want(f"the colours of {name}", [], odd[:1])


PEOPLE = (
    opens, mends, tells_all, uses_keys, indents, searches, completes, keeps, marks_stale, reads, shows_hidden, falls_back, prefers_plain, ends,
    is_narrow,
    comes_as_it_goes, ends_at_the_clock, lays_out, lists, links, translates, shows_texts, colours,
)
# The additional server options that some of the tests need.
SERVED = {comes_as_it_goes: WITHOUT_END, ends_at_the_clock: (*WITHOUT_END, "--seconds", str(SHORT)), falls_back: ("--editor", "/nowhere")}


def things_of(program, window, pictures, people):
    """What is tried, each with its name."""
    for use in people:
        def try_it(use=use):
            start = time.monotonic()
            with Server(program, *SERVED.get(use, ())) as server:
                person = Person(window, server, pictures)
                try:
                    use(person)
                except (NotThere, WebDriverException) as error:
                    if pictures:
                        window.picture(os.path.join(pictures, f"failed-{use.__name__}.png"))
                    person.faults.append(str(error))
                print(f"{use.__name__}: {time.monotonic() - start:.1f} s", flush=True)
                return person.faults
        yield use.__doc__.split("\n")[0], try_it


def main():
    parser = suite.command_line(__doc__)
    parser.add_argument("--pictures", metavar="FOLDER")
    parser.add_argument("--only", default="", metavar="WORDS", help="the tests in whose names one of these words stands")
    options = parser.parse_args()
    people = [it for it in PEOPLE if not options.only or any(word in it.__name__ for word in options.only.split())]
    suite.need(TOOLS, len(people))
    program = suite.program_of(options, len(people))
    if options.pictures:
        os.makedirs(options.pictures, exist_ok=True)
    with Window() as window:
        window.size(*SIZES["wide"])
        suite.try_each(list(things_of(program, window, options.pictures, people)), lambda thing: thing[0], lambda thing: thing[1]())


if __name__ == "__main__":
    main()
