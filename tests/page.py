#!/usr/bin/env python3
"""Tests demo/watch.html, the page at the operators' port: python3 tests/page.py [--squeezed] [--pictures FOLDER]. Uses
only the standard library.

A mock of that port serves the page with 1, 150 and 2,048 LRAs; some are nested, some have failed, and for some calls
fail. What needs no browser is tested first. If Chromium is installed, it is then driven over its pipe as an operator
would use it: a participant whose calls fail must be found and ended with two clicks, nothing may lag, and the page may
not request more of the node than it promises. FOLDER gets a picture of each size in light, dark and narrow. Without
Chromium that part is skipped, and the test says so. Exits with 1 if a check fails.

python3 tests/page.py --serve COUNT [--port PORT] only serves the mock, so that it can be looked at by hand."""
import argparse
import contextlib
import json
import os
import re
import sys
import threading
import time
import typing

sys.path.insert(0, os.path.dirname(os.path.dirname(os.path.abspath(__file__))))
from tools import checks, repo, shapes
from tools.browser import Browser, installed
from tools.mock import ENDED, Port, World, id_of, serves
from tools.node import exchange, home_of
from tools.page import PAGE, squeeze

MOST_BYTES = 30_720
# Expressions of the page's script: the first row with failing calls, the number of rows, the confirmation dialog, and
# its button.
FIRST = "document.querySelector('#list > .stuck')"
SHOWN = "document.querySelectorAll('#list .name').length"
DIALOG, YES = "document.querySelector('dialog')", "document.getElementById('yes')"


def button(text: str) -> str:
    """Returns an expression for a button of the open row or dialog, by its text."""
    return ("[...document.querySelectorAll('#list .open button, dialog[open] button')]"
            f".find(it => it.textContent === '{text}' && !it.hidden)")


def content_of(name: str) -> str:
    """Returns an expression for the text of an element, by its id."""
    return f"document.getElementById('{name}').textContent"


def among(name: str, test: str) -> str:
    """Returns an expression for the button below an element, by a test of its text."""
    return f"[...document.querySelectorAll('#{name} button')].find(it => it.textContent.{test})"


def ids_of(status: str, home: int, world: World) -> list[str]:
    """Returns the roots of a home that show a status."""
    return [lra for lra, one in world.lras.items()
            if one["status"] == status and home_of(lra) == home and not one["parent"]]


def row_of(lra: str) -> str:
    """Returns an expression for an LRA's row."""
    return f"rows.get('{lra}')"


# Returns the texts that have too little contrast (below 4.5), and the buttons that are too low, each once.
FAINT = r"""(() => {
    const numbers = text => text.match(/[\d.]+/g).map(Number), found = new Set();
    const grey = c => { const y = .2126 * c[0] + .7152 * c[1] + .0722 * c[2]; return [y, y, y]; };
    const part = v => (v /= 255) <= .04045 ? v / 12.92 : ((v + .055) / 1.055) ** 2.4;
    const light = c => .2126 * part(c[0]) + .7152 * part(c[1]) + .0722 * part(c[2]);
    const above = it => it ? [it, ...above(it.parentElement)] : [];
    const look = (it, color) => {
        const all = above(it).map(one => getComputedStyle(one)), isGrey = all.some(one => one.filter !== "none");
        const behind = all.map(one => numbers(one.backgroundColor)).find(c => c.length === 3 || c[3]);
        const [a, b] = [numbers(color), behind].map(c => light(isGrey ? grey(c) : c)).sort((x, y) => y - x);
        const ratio = (a + .05) / (b + .05), isClear = all.every(one => one.opacity === "1");
        if (ratio < 4.5 || !isClear) found.add(it.tagName + "." + it.className + " " + ratio.toFixed(1));
    };
    for (const it of document.querySelectorAll("body *")) {
        const isText = [...it.childNodes].some(node => node.nodeType === 3 && node.data.trim());
        if (!it.checkVisibility() || it.closest("script")) continue;
        if (isText) look(it, getComputedStyle(it).color);
        if (it.placeholder) look(it, getComputedStyle(it, "::placeholder").color);
        const height = it.getBoundingClientRect().height;
        if (it.tagName === "BUTTON" && height < 24) found.add(it.textContent + " is " + height + " high");
    }
    return [...found];
})()"""
# Returns how many milliseconds the page takes to draw everything.
DRAWING = """(() => {
    const t = performance.now();
    for (let i = 0; i < 5; i++) draw();
    return (performance.now() - t) / 5;
})()"""
# Returns how many rows change within four seconds.
CHANGING = """new Promise(done => {
    const seen = new Set();
    const look = new MutationObserver(list => list.forEach(it => {
        const at = it.target.nodeType === 1 ? it.target : it.target.parentElement;
        seen.add(at.closest('#list > li')?.id || it.target);
    }));
    look.observe(document.getElementById('list'), {childList: true, subtree: true});
    setTimeout(() => done(seen.size), 4000);
})"""


class Picture(typing.NamedTuple):
    """How the page is shown for a picture."""

    name: str
    width: int
    height: int
    is_dark: bool


CLOSED_PICTURES = [Picture("light", 1280, 900, False), Picture("dark", 1280, 900, True),
                   Picture("narrow", 390, 844, False)]
# README's picture, demo/watch.png, is the third one for 150 LRAs.
OPEN_PICTURES = [Picture("narrow-open", 390, 844, True), Picture("open", 1280, 900, False),
                 Picture("readme", 1120, 860, False)]


def take_pictures(browser: Browser, folder: str) -> None:
    """Takes a picture of each size, in light, dark and narrow."""
    os.makedirs(folder, exist_ok=True)

    def take(count: int, pictures: list[Picture]) -> None:
        for picture in pictures:
            browser.looks(picture.width, picture.height, picture.is_dark)
            time.sleep(0.5)
            browser.picture(f"{folder}/{count}-{picture.name}.png")

    for count in (1, 150, 2048):
        with serves(count) as (_, url):
            browser.opens(url)
            browser.waits(f"{SHOWN} === {count}", 60)
            time.sleep(5)
            take(count, CLOSED_PICTURES)
            browser.get(f"{FIRST}.querySelector('.name').click()")
            browser.waits(button("Report failed"), 5)
            take(count, OPEN_PICTURES)
            browser.get(f"{button('Report failed')}.click()")
            time.sleep(0.5)
            browser.picture(f"{folder}/{count}-ask.png")
            browser.ends()
    print(f"pictures are in {folder}")


class TestPage(checks.Checked):
    def test_text(self) -> None:
        page = Port.page
        self.check("the page is printable ASCII in lines, without a backslash",
                   set(page) <= {10, *range(32, 127)} - {92}, set(page))
        self.check(f"it has at most {MOST_BYTES:,} bytes", len(page) <= MOST_BYTES, len(page))
        text = page.decode()
        self.check("it refers to no other origin", not re.findall(r"(?:https?:)?//[\w.]", text),
                   re.findall(r".{20}//[\w.].{9}", text))
        self.check("it makes no HTML from texts",
                   not re.search(r"innerHTML|outerHTML|insertAdjacentHTML|document\.write|eval\(", text))
        self.check("each id that the script looks up exists",
                   set(re.findall(r'\$\("(\w+)"\)', text)) <= set(re.findall(r' id="(\w+)"', text)))

    def test_mock(self) -> None:
        """The mock answers like the port."""
        with serves(150) as (world, url):
            host, port = url.split("/")[2].split(":")
            asked = f"GET /lras?after={id_of(1, 2)}&status=Closed HTTP/1.1\r\nHost: localhost\r\n\r\n"
            head, _, body = exchange((host, int(port)), asked.encode()).partition(b"\r\n\r\n")
            are_closed = all(row["status"] == "Closed" for row in json.loads(body)["lras"])
            self.check("the mock answers as the port does", b"Connection: close" in head and are_closed)
            wrong = shapes.compare(url.rstrip("/"))
            self.check("its answers match docs/operate.json", not wrong, wrong[:5])
            is_so = len(world.vain) > 3 and {one["status"] for one in world.lras.values()} >= ENDED
            self.check("it has nested, failed and ended LRAs, and failing calls", is_so)


class Opened(checks.Checked):
    """A test that opens the page."""

    @contextlib.contextmanager
    def opened(self, count: int) -> typing.Iterator[tuple[World, Browser]]:
        """Serves this many LRAs, and opens a browser that shows them all. Afterwards checks that the browser reported
        no error."""
        program = installed()
        if not program:
            self.skipTest("Chromium isn't installed, so the page wasn't tested in a browser")
        browser = Browser(program)
        try:
            with serves(count) as (world, url):
                browser.opens(url)
                self.check(f"{count}: all LRAs are shown", browser.waits(f"{SHOWN} === {count}", 60),
                           browser.get(SHOWN))
                yield world, browser
                browser.ends()
                what = "the page throws no exception, and the browser refuses it nothing"
                self.check(what, not browser.strange, browser.strange)
        finally:
            browser.close()


class TestBrowser(Opened):
    def test_operator(self) -> None:
        """It takes two clicks to find a participant whose calls fail, and a third to end it. A refusal is shown."""
        for count in (1, 150, 2048):
            with self.opened(count) as (world, browser):
                self.try_operator(browser, world, count)

    def try_operator(self, browser: Browser, world: World, count: int) -> None:
        first = world.calls()[0]
        host = first["link"].split("/")[2]
        shown = browser.get(f"{FIRST}.querySelector('.what').textContent").count(host) == 1
        is_so = shown and first["came"] in browser.get(f"{FIRST}.textContent")
        self.check(f"{count}: the first row is the one whose calls have failed longest, with its host and last answer",
                   is_so)
        is_open = browser.click(f"{FIRST}.querySelector('.name')") and browser.waits(button("Report failed"), 5)
        self.check(f"{count}: one click opens it", is_open)
        is_asked = browser.click(button("Report failed")) and browser.waits(f"{DIALOG}.open", 2)
        is_asked = is_asked and host in browser.get(f"{DIALOG}.textContent")
        self.check(f"{count}: the second click is for its outcome, which the page asks to confirm", is_asked)
        before = len(world.asked)
        world.refuses = "E7 NotDue Closed"
        browser.click(YES)
        is_shown = browser.waits(f"{content_of('came')}.includes('E7 NotDue Closed')", 5)
        self.check(f"{count}: a refusal is shown", is_shown)
        browser.key("Escape")
        self.check(f"{count}: Esc closes the dialog", browser.waits(f"!{DIALOG}.open", 2))
        world.refuses = None
        browser.click(button("Report failed"))
        browser.click(YES)
        is_entered = browser.waits(f"{content_of('note')}.startsWith('Done')", 5)
        self.check(f"{count}: a report is entered", is_entered)
        commands = [(method, path, body) for _, method, path, body in world.asked[before:] if method != "GET"]
        body = json.dumps({"act": first["kind"], "outcome": "failed"}, separators=(",", ":")).encode()
        wanted = "PUT", f"/lra/{first['lra']}/member/{first['member']}/report", body
        self.check(f"{count}: the same command was sent twice, and nothing else", commands == [wanted, wanted],
                   commands)
        is_gone = browser.waits(f"!{FIRST}?.id && !calls.get('{first['lra']}')", 10)
        self.check(f"{count}: its row isn't among the failing ones any more", is_gone)

    def test_keys(self) -> None:
        """Keys and filters work."""
        with self.opened(150) as (world, browser):
            self.try_keys(browser)
            self.try_filters(browser, world)

    def try_keys(self, browser: Browser) -> None:
        for key in ("j", "j", "j", "k"):
            browser.key(key)
        focus = "document.activeElement.textContent"
        second = browser.get("document.querySelectorAll('#list .name')[1].textContent")
        self.check("j and k move the focus", browser.get(focus) == second, browser.get(focus))
        time.sleep(2.5)
        self.check("the focus stays while the page refreshes", browser.get(focus) == second)
        browser.key("Enter")
        self.check("Enter opens a row", browser.waits("opened !== null && document.querySelector('.open table')", 5))
        browser.key("Escape")
        self.check("Esc closes it", browser.waits("opened === null", 2))
        browser.key("/")
        for key in "mail:80":
            browser.key(key)
        self.check("/ filters by host", browser.waits(f"{SHOWN} < 10 && {SHOWN} > 0", 3), browser.get(SHOWN))
        browser.key("Escape")

    def try_filters(self, browser: Browser, world: World) -> None:
        browser.click(among("hosts", "includes('payment:9000')"))
        wanted = len({call["lra"] for call in world.vain if "payment:9000" in call["link"]})
        are_shown = browser.waits(f"document.querySelectorAll('#list > .stuck:not(.dim)').length === {wanted}", 3)
        self.check("a click on a host shows the LRAs whose calls fail there", are_shown, wanted)
        browser.get("document.getElementById('chip').click(), document.getElementById('text').focus()")
        browser.key("Escape")
        self.check("Esc ends the filter", browser.waits(f"{SHOWN} === 150", 3))
        of_failed, of_all = among("chips", "startsWith('FailedToClose')"), among("chips", "startsWith('All')")
        browser.get(f"{of_failed}.click()")
        badges = "[...document.querySelectorAll('#list > li:not(.head):not(.dim) .badge:first-of-type')]"
        self.check("a status filters", browser.waits(f"{badges}.length > 0 && {SHOWN} < 10", 3))
        browser.get(f"{of_all}.click()")

    def test_listener(self) -> None:
        """The page handles a listener that isn't notified, a node that isn't ready or is stopped, and texts that look
        like HTML."""
        with self.opened(150) as (world, browser):
            lra = next(call for call in world.vain if call["kind"] == "after")["lra"]
            browser.get(f"toggle('{lra}', true)")
            self.check("a listener that isn't notified has its button", browser.waits(button("It was notified"), 5))
            browser.get(f"{button('It was notified')}.scrollIntoView()")
            browser.click(button("It was notified"))
            browser.click(YES)
            is_entered = browser.waits(f"{content_of('note')}.endsWith('/told')", 5)
            self.check("the report that it was notified is accepted", is_entered)
            is_due = f"({button('Purge')} || {{}}).textContent === 'Purge' || !!lras.get('{lra}').parent"
            self.check("its LRA can be purged then", browser.waits(is_due, 8))
            self.try_trouble(browser, world)
            link = "http://x\"><img src=x onerror=alert(1)>:80/<b>"
            world.vain.insert(0, dict(world.vain[0], link=link, came="<script>alert(1)</script>", since=99999))
            is_text = browser.waits("document.body.textContent.includes('<script>alert')", 8)
            made = browser.get("document.querySelectorAll('main img, main script, b b, #hosts img').length")
            self.check("texts aren't taken for HTML", is_text and made == 0, made)

    def try_trouble(self, browser: Browser, world: World) -> None:
        trouble = content_of("trouble")
        world.ready = {"ready": False, "cause": "journal"}
        self.check("the page says why the node isn't ready", browser.waits(f"{trouble}.includes('journal')", 8))
        world.is_stopped = True
        is_told = browser.waits(f"{trouble}.includes('E19 Stopped')", 8)
        is_told = is_told and browser.get(trouble).count("This page shows what it answered at") == 1
        self.check("the page says that what it shows is old", is_told and browser.get(SHOWN) == 150)
        world.is_stopped = False
        self.check("it goes on by itself", browser.waits(f"!{trouble}.includes('E19')", 15))

    def test_changes(self) -> None:
        """LRAs come, end and go while the page is shown. While it is held or hidden it requests nothing."""
        with self.opened(150) as (world, browser):
            self.try_ends(browser, world)
            self.try_purges(browser, world)
            self.try_pauses(browser, world)

    def try_ends(self, browser: Browser, world: World) -> None:
        ends = next(one for one in world.lras.values() if one["status"] == "Active" and not one["parent"])
        ends["status"] = "Closed"
        element = f"document.getElementById('{ends['lra']}')"
        browser.get("for (const [id, it] of rows) it.id = id")  # the page needs no such ids
        is_told = browser.waits(f"/ended [0-9]+ s ago/.test({element}.textContent)", 8)
        self.check("the page says how long ago an LRA ended", is_told)
        badge = browser.get(f"{element}.querySelector('.badge').textContent")
        self.check("its badge changes", badge.endswith("Closed"), badge)

    def try_purges(self, browser: Browser, world: World) -> None:
        plain = [one for one in world.lras.values() if all(member["kind"] != "lra" for member in one["members"])]
        homes = {home_of(one["lra"]): one["lra"] for one in reversed(plain)
                 if world.purge(one) == "due" or home_of(one["lra"]) == 2}
        browser.get(f"toggle('{homes[2]}', true)")
        is_told = browser.waits("document.querySelector('.open p')?.textContent.includes('at node 2')", 5)
        self.check("an LRA of another home is purged there", is_told and not browser.get(f"!!{button('Purge')}"))
        browser.get(f"toggle('{homes[1]}', true)")
        browser.waits(button("Purge"), 5)
        browser.click(button("Purge"))
        browser.click(YES)
        is_gone = browser.waits(f"{SHOWN} === 149 && !rows.has('{homes[1]}')", 8)
        self.check("an LRA of this home is purged here, and goes", is_gone)

    def try_pauses(self, browser: Browser, world: World) -> None:
        hold = "document.getElementById('hold')"
        browser.get("scrollTo(0, 0)")
        self.check("the page can be held still", browser.click(hold))
        time.sleep(1)
        before = len(world.asked)
        time.sleep(3)
        self.check("while held still it requests nothing", len(world.asked) == before, world.asked[before:])
        browser.click(hold)
        time.sleep(0.5)
        self.check("then it goes on at once", len(world.asked) > before)
        browser.get("Object.defineProperty(document, 'hidden', {get: () => true}), null")
        time.sleep(2)
        before = len(world.asked)
        time.sleep(5)
        self.check("while hidden it requests nothing", len(world.asked) == before, world.asked[before:])

    def test_load(self) -> None:
        """With 2,048 LRAs the page draws fast enough, changes little when nothing changed, and doesn't request too
        often."""
        with self.opened(2048) as (world, browser):
            took = browser.get(DRAWING)
            self.check(f"drawing 2,048 LRAs takes {took:.0f} ms of at most 150", took <= 150)
            changed = browser.get(CHANGING)
            self.check(f"in four seconds the texts of {changed} rows of 2,048 change", changed <= 400)
            start = len(world.asked)
            time.sleep(8)
            self.try_questions(world, start)

    def try_questions(self, world: World, start: int) -> None:
        asked = world.asked[start:]
        rounds = [at for at, _, path, _ in asked if path == "/lras"]
        are_apart = all(later - sooner > 0.95 for sooner, later in zip(rounds, rounds[1:]))
        self.check("rounds begin at least a second apart", are_apart, rounds)
        ones = [at for at, _, path, _ in asked if path.startswith("/lra/")]
        are_few = all(sum(sooner <= later < sooner + 1 for later in ones) <= 4 for sooner in ones)
        self.check("it requests at most four LRAs a second", are_few, ones)
        details = {path[5:] for _, _, path, _ in world.asked if path.startswith("/lra/")}
        statuses = {world.lras[lra]["status"] for lra in details}
        wanted = {"Closing", "Cancelling", "FailedToClose", "FailedToCancel"}
        self.check("it requests only LRAs that are ending or failed", statuses <= wanted, statuses)
        others = {path.split("?")[0] for _, _, path, _ in asked if not path.startswith("/lra/")}
        self.check("it requests nothing else", others <= {"/lras", "/calls", "/ready", "/metrics"}, others)


class TestShown(Opened):
    """What an operator is shown, and how."""

    def test_alarms(self) -> None:
        """Nodes that haven't been heard from and homes that are full are shown."""
        with self.opened(150) as (world, browser):
            self.try_silence(browser, world)
            self.try_homes(browser, world)

    def try_silence(self, browser: Browser, world: World) -> None:
        away, title = content_of("away"), "document.title"
        self.check("while all nodes are heard from nothing is shown", browser.get(away) == "")
        world.pulled.update({2: 60, 3: 130})
        wanted = "Node 3 has been silent for 2 min: calls for its LRAs wait there."
        is_told = browser.waits(f"{away}.startsWith({wanted!r})", 10)
        self.check("a node not heard from for two minutes is shown, one of a minute isn't", is_told, browser.get(away))
        color = browser.get("getComputedStyle(document.getElementById('away')).backgroundColor")
        self.check("the message is red", color == "rgb(153, 27, 27)", color)
        self.check("the title has a sign", browser.get(title).startswith("! "), browser.get(title))
        world.pulled.update({2: 61, 3: 7300})
        is_told = browser.waits(f"{away}.includes('for 1 min, node 3 for 2 h: calls for their')", 10)
        self.check("two nodes are shown together", is_told, browser.get(away))
        world.pulled.update({2: 0, 3: 1})
        self.check("once they are heard from again the message goes", browser.waits(f"{away} === ''", 10))

    def try_homes(self, browser: Browser, world: World) -> None:
        homes = [home_of(lra) for lra in world.lras]
        taken, places = {home: homes.count(home) for home in (1, 2, 3)}, content_of("places")
        self.check("while homes have room nothing is shown", browser.get(places) == "")
        world.most = max(taken.values())
        full = [str(home) for home, count in taken.items() if count == world.most]
        near = [f"{home} ({count} of {world.most})" for home, count in taken.items()
                if world.most > count > 0.9 * world.most]
        is_told = browser.waits(f"{places}.startsWith('Full: home')", 10)
        text = browser.get(places)
        is_told = is_told and f"{', '.join(full)}. No LRA can" in text
        self.check("a full home is shown, whichever node it is", is_told, text)
        self.check("a nearly full home is shown too", not near or f"Nearly full: home {near[0]}" in text, (near, text))
        self.check("the message says what to do", "Purge ended LRAs there, or start the node with keep=MS." in text,
                   text)
        world.most = int(taken[1] / 0.91)
        wanted = f"1 ({taken[1]} of {world.most})"
        self.check("above nine tenths it is shown", browser.waits(f"{places}.includes('{wanted}')", 10), wanted)
        world.most = -(-taken[1] * 10 // 9)
        self.check("at nine tenths it isn't", browser.waits(f"!{places}.includes('1 ({taken[1]}')", 10))

    def test_red(self) -> None:
        """Failed LRAs are as red as those with failing calls, unless only calls to a listener fail."""
        with self.opened(150) as (world, browser):
            edge = "getComputedStyle({}).borderLeftColor"
            failed = next(lra for lra, one in world.lras.items() if one["status"] == "FailedToClose")
            red, seen = (browser.get(edge.format(it)) for it in (FIRST, row_of(failed)))
            self.check("the row of a failed LRA has the same edge as one with failing calls", seen == red, (seen, red))
            look = "getComputedStyle({}).backgroundColor"
            chips = [browser.get(look.format(among("chips", f"startsWith('{text}')")))
                     for text in ("Calls fail", "FailedToClose", "FailedToCancel", "Closed")]
            self.check("its chip has the same colour", chips[0] == chips[1] == chips[2] != chips[3], chips)
            self.try_mild(browser, world, red)

    def try_mild(self, browser: Browser, world: World, red: str) -> None:
        call = next(call for call in world.vain if call["kind"] == "after")
        first = world.calls()[0]
        call["since"] = 99_999
        listener = dict(first, member=2, kind="after", link="http://news:8025/ended", since=50_000)
        world.vain.append(listener)
        self.check("a listener is shown in the row", browser.waits(f"{FIRST}.textContent.includes('news:80')", 8))
        text = browser.get(f"{FIRST}.querySelector('.what').innerText").split("\n")
        listener = "Member 2 at news:8025, to be notified"
        is_below = first["link"].split("/")[2] in text[0] and text[2].startswith(listener)
        self.check("it stands below the participant that hangs, although its calls have failed for longer", is_below,
                   text)
        ids = browser.get("[...rows].filter(row => row[1].key).map(row => row[0])")
        last = max(ids.index(other["lra"]) for other in world.vain if other["kind"] != "after")
        self.check("an LRA that only a listener holds up stands below all that hang", ids.index(call["lra"]) > last)
        edge = browser.get(f"getComputedStyle({row_of(call['lra'])}).borderLeftColor")
        self.check("it has another colour", edge not in (red, "rgba(0, 0, 0, 0)"), edge)

    def test_active(self) -> None:
        """The age of an Active LRA is shown, and it can be cancelled."""
        with self.opened(150) as (world, browser):
            lra, other = ids_of("Active", 1, world)[0], ids_of("Active", 2, world)[0]
            self.check("the age of a new LRA isn't shown", "seen here" not in browser.get(f"{row_of(lra)}.textContent"))
            browser.get(f"seen.set('{lra}', Date.now() - 725000), 0")
            is_told = browser.waits(f"{row_of(lra)}.textContent.includes('seen here for 12 min')", 8)
            self.check("the age of an older LRA is shown", is_told)
            browser.get(f"toggle('{other}', true)")
            is_told = browser.waits("document.querySelector('.open p')?.textContent.includes('page of node 2')", 5)
            self.check("an LRA of another home is cancelled there",
                       is_told and not browser.get(f"!!{button('Cancel')}"))
            browser.get(f"toggle('{lra}', true)")
            browser.waits(button("Cancel"), 5)
            before = len(world.asked)
            browser.click(button("Cancel"))
            asks = browser.get(f"{DIALOG}.open && {DIALOG}.textContent")
            self.check("the page asks for confirmation",
                       asks and "can't be undone" in asks and f"/lra/{lra}/cancel" in asks, asks)
            self.check("it does nothing yet", all(method == "GET" for _, method, _, _ in world.asked[before:]))
            browser.click(YES)
            is_entered = browser.waits(f"{content_of('note')}.endsWith('/lra/{lra}/cancel')", 5)
            asked = [(method, path) for _, method, path, _ in world.asked[before:] if method != "GET"]
            self.check("then it is cancelled", is_entered and asked == [("PUT", f"/lra/{lra}/cancel")], asked)
            is_gone = browser.waits(f"{row_of(lra)}.badge.textContent.endsWith('Cancelling')", 8)
            self.check("it shows Cancelling, without the button", is_gone and not browser.get(f"!!{button('Cancel')}"))

    def test_filter(self) -> None:
        """The filter finds each participant's host."""
        with self.opened(150) as (world, browser):
            lra = ids_of("Active", 2, world)[0]
            member = next(one for one in world.lras[lra]["members"] if one["kind"] == "participant")
            member["links"]["compensate"] = "http://quiet:7000/cancel"
            box = "document.getElementById('text')"
            self.check("the filter says what it searches",
                       browser.get(f"{box}.placeholder") == "Id, or host of a participant")
            start = len(world.asked)
            browser.get(f"({box}.value = 'quiet', {box}.oninput())")
            is_told = "aren't known yet" in browser.get(content_of("none"))
            self.check("it says that not all hosts are known yet", is_told, browser.get(content_of("none")))
            is_found = browser.waits(f"{row_of(lra)} && {SHOWN} === 1", 60)
            self.check("it finds the host of an Active LRA", is_found, browser.get(SHOWN))
            self.check("later all hosts are known", browser.waits(f"{content_of('none')} === ''", 60))
            ones = [at for at, _, path, _ in world.asked[start:] if path.startswith("/lra/")]
            most = max(sum(sooner <= later < sooner + 1 for later in ones) for sooner in ones)
            self.check("it requests at most 21 LRAs a second", most <= 21, most)

    def test_hosts(self) -> None:
        """Hosts for which there is no room are counted."""
        with self.opened(150) as (world, browser):
            for number in range(20):
                world.vain.append(dict(world.vain[0], link=f"http://away{number}:80/x", since=3))
            count = len({call["link"].split("/")[2] for call in world.vain})
            last = "document.querySelector('#hosts > li:last-child').textContent"
            for width, room in ((1280, 8), (390, 3)):
                browser.looks(width, 900, False)
                is_so = browser.waits(f"{last} === 'and {count - room} more'", 8)
                self.check(f"{width} wide: hosts beyond {room} are counted", is_so, browser.get(last))
            browser.click(among("hosts", "startsWith('and ')"))
            shown = browser.get("document.querySelectorAll('#hosts > li').length")
            self.check("a click shows all", shown == count, (shown, count))

    def test_names(self) -> None:
        """A screen reader gets descriptions, and answers that don't count differ from no answer."""
        with self.opened(150) as (world, browser):
            call = world.calls()[0]
            words = browser.get(f"{FIRST}.querySelector('.name').getAttribute('aria-describedby')"
                                ".split(' ').map(id => document.getElementById(id).textContent).join(' ')")
            is_so = "Cancelling" in words and call["link"].split("/")[2] in words
            self.check("a row's button is described by its status and its words", is_so, words)
            browser.click(f"{FIRST}.querySelector('.name')")
            browser.waits(button("Report failed"), 5)
            labels = browser.get("[...document.querySelectorAll('#list .open td button')].map(it => it.ariaLabel)")
            wanted = f"Report done: member {call['member']} at {call['link'].split('/')[2]} of 1.1"
            self.check("a button names the LRA and the participant", wanted in labels and None not in labels, labels)
            heads = browser.get("['caption', 'th[scope=col]', 'th[scope=row]'].map(it =>"
                                " document.querySelectorAll(`.open ${it}`).length)")
            is_so = heads[:2] == [1, 5] and heads[2] == len(world.lras[call["lra"]]["members"])
            self.check("the table has a caption, and headers for columns and rows", is_so, heads)
            cells = browser.get("[...document.querySelectorAll('.open tbody tr')].map(it => it.cells[2]?.innerText)")
            is_so = cells[0].startswith("none that counts\n") and cells[1] == "no answer yet"
            self.check("answers that don't count are shown differently from no answer", is_so, cells)

    def test_looks(self) -> None:
        """Texts have enough contrast, and buttons are high enough, in light and dark, wide and narrow."""
        with self.opened(150) as (world, browser):
            world.pulled[3], world.most, world.ready = 130, 60, {"ready": False, "cause": "journal"}
            lra = ids_of("Active", 1, world)[0]
            nested = next(one["parent"] for one in world.lras.values() if one["parent"])
            browser.waits(f"{content_of('away')} && {content_of('trouble')} && {content_of('places')}", 10)
            for opens in (f"toggle('{lra}', true)", f"toggle('{nested}', true)", f"{FIRST}.key.click()"):
                browser.get(opens)
                browser.waits("document.querySelector('.open table')", 5)
                self.try_looks(browser, opens.split("(")[0])
            browser.get("(status = 'vain', draw(), 0)")
            self.try_looks(browser, "filtered")
            browser.get(f"{button('Report failed')}.click()")
            self.try_looks(browser, "asked")

    def try_looks(self, browser: Browser, what: str) -> None:
        for width, is_dark in ((1280, False), (1280, True), (390, False), (390, True)):
            browser.looks(width, 900, is_dark)
            faint = browser.get(FAINT)
            self.check(f"{what}, {width} wide, {'dark' if is_dark else 'light'}: everything is readable", not faint,
                       faint)
            wide = browser.get("document.documentElement.scrollWidth")
            self.check("nothing sticks out of the page", wide <= width, wide)


def main() -> int:
    parser = argparse.ArgumentParser(description="Tests the page at the operators' port.")
    parser.add_argument("--pictures", metavar="FOLDER", help="the folder for pictures")
    parser.add_argument("--serve", metavar="COUNT", type=int, help="serve this many LRAs, and test nothing")
    parser.add_argument("--port", type=int, default=8170, help="the port for --serve (8170)")
    parser.add_argument("--squeezed", action="store_true", help="test the page as demo/embed.py minifies it")
    asked = parser.parse_args()
    if asked.squeezed:
        Port.page = squeeze(repo.read(PAGE)).encode()
    if asked.serve:
        with serves(asked.serve, asked.port) as (_, url), contextlib.suppress(KeyboardInterrupt):
            print(f"{url} shows {asked.serve} LRAs. Ctrl-C ends it.", flush=True)
            threading.Event().wait()
        return 0
    program = installed()
    if asked.pictures and program:
        with contextlib.closing(Browser(program)) as browser:
            take_pictures(browser, asked.pictures)
    return checks.run(TestPage, TestBrowser, TestShown)


if __name__ == "__main__":
    sys.exit(main())
