"""Drive real browsers in the tests of the page: drag and type in them, and read what they draw and say."""
from __future__ import annotations

import json
import os
import shutil
import time
from pathlib import Path
from typing import Any, Callable

from running import Server, Watched, free_port, new_folder, slowness
from selenium import webdriver
from selenium.webdriver.chrome.service import Service
from selenium.webdriver.common.action_chains import ActionChains
from selenium.webdriver.common.by import By
from selenium.webdriver.common.keys import Keys

LIVE = Path(__file__).resolve().parent.parent
TOP = LIVE.parent
SCREENSHOTS = os.environ.get("SCREENSHOTS")
PATIENCE = 90.0  # seconds

# The road of examples/closed_cell: cars accelerate to 3, and none is slowed.
FREE_ROAD = {"detectors": [28], "exit": 1, "inlets": [[0, 65536]], "length": 40, "words": "steady", "zone": 40,
             "zones": [[3, 0]], "replicas": ["A"]}
# 6 km in zones of 375 m, p = 0.1; an on-ramp at 1.5 km.
FREEWAY = json.loads((LIVE / "plan.json").read_text(encoding="utf-8"))
# The colours of characters: Viridis from dark to light for speeds 0 to 5, and those of a closed and an empty cell.
COLOURS = {"0": (0x44, 0x01, 0x54), "1": (0x41, 0x44, 0x87), "2": (0x2a, 0x78, 0x8e), "3": (0x21, 0x91, 0x8c),
           "#": (0xe6, 0x61, 0x00), ".": (0xff, 0xff, 0xff)}


# The page's modules. Scripts of tests may use what they export.
MODULES = ["/viewer/drawing.mjs", *(f"/page/{path.name}" for path in sorted((LIVE / "page").glob("*.mjs")) if path.stem != "main")]
MODULES_KNOWN = """
    return Promise.all(arguments[0].map((name) => import(name))).then((modules) => {
      for (const {begin, ...names} of modules) Object.assign(window, names);
      window.hasModules = true;
    });"""

IF_KNOWN = "if (!window.hasModules && document.getElementById('diagram')) return null;"

# Finds the button whose name begins so, in a part or the part itself, if it can be pressed and nothing lies over it.
FOUND = """
    const [name, within] = arguments;
    const one = [...document.querySelectorAll(`:is(${within}):is(button, summary), :is(${within}) button`)]
      .find((one) => one.checkVisibility() && !one.disabled
        && (one.ariaLabel || one.textContent.trim()).startsWith(name));
    if (!one) return false;
    one.scrollIntoView({block: "center"});
    const {left, top, width, height} = one.getBoundingClientRect();
    const over = document.elementFromPoint(left + width / 2, top + height / 2);
    window.over = one.contains(over) ? "" : `over ${name} lies ${over?.outerHTML.slice(0, 80)}`;
    if (window.over) return false;
    one.focus();"""
FOCUS = FOUND + "return true;"
PRESS = FOUND + "one.click(); return true;"

# Waits until the page has been quiet for a tenth of a second. Gives false after a second.
SETTLED = """
    const [done] = arguments;
    import("/page/store.mjs").then(({store}) => {
      const isQuiet = () => store.pending.size === 0 && store.openRowQuestions === 0 && !store.connection.countWaiting()
        && [...store.connection.questions.values()].every(({command}) => command.figures ?? command.days)
        && !store.isDrawing && !store.idleTimer && !store.figures.asking;
      const end = performance.now() + 1000;
      let since = null;
      const look = () => {
        const now = performance.now();
        since = isQuiet() ? since ?? now : null;
        if (since !== null && now > since + 100) requestAnimationFrame(() => done(true));
        else if (now > end) done(false);
        else setTimeout(look, 10);
      };
      look();
    });"""

# Records what happens to a page: where pointer and keys go, what moves under them, what it saves.
RECORDER = """{
    window.happened = [];
    const shortly = (one) => one.getAttribute("aria-label")
      || one.textContent.trim().replace(/\\s+/g, " ").slice(0, 40);
    const named = (one) => (one?.tagName
      ? `<${one.tagName.toLowerCase()}${one.id && " #" + one.id}> ${shortly(one)}` : String(one));
    const record = (what) => {
      if (happened.push(`${(performance.now() / 1000).toFixed(2)} s: ${what}`) > 40) happened.shift();
    };
    for (const kind of ["pointerdown", "pointerup", "click", "submit", "change", "keydown"]) {
      addEventListener(kind, ({clientX: x, clientY: y, isTrusted, key = "", target}) => {
        if (kind === "keydown" && key.length === 1 && target.matches("input")) return;
        const by = isTrusted ? "" : " by a script";
        record(`${kind}${by} at ${x === undefined ? key : [x, y]} on ${named(target)}`);
      }, true);
    }
    addEventListener("error", ({message}) => record(`error ${message}`));
    addEventListener("unhandledrejection", ({reason}) => record(`unhandled ${reason}`));
    new PerformanceObserver((list) => {
      const moves = list.getEntries().flatMap(({sources}) => sources).map(({node, previousRect, currentRect}) =>
        `${named(node)} from ${Math.round(previousRect.y)} to ${Math.round(currentRect.y)}`);
      record(`moved: ${moves.join("; ")}`);
    }).observe({type: "layout-shift", buffered: true});
    const {click} = HTMLElement.prototype;
    HTMLElement.prototype.click = function () {
      if (this.download) record(`saves ${this.download}`);
      return click.call(this);
    };
}"""
# Gives what a page shows and knows, and what happened to it.
TRUTH = """
    const {store} = window;
    const shown = (id) => {
      const one = document.getElementById(id);
      return `${id}${one?.checkVisibility() ? "" : " (hidden)"}: ${one?.textContent.trim().replace(/\\s+/g, " ")}`;
    };
    const {connection, pending, openRowQuestions, isDrawing, idleTimer, figures} = store ?? {};
    return [document.title, ...["said", "line", "clock", "news", "own", "held", "preview"].map(shown),
            `save is open: ${document.getElementById("save")?.open}`,
            `is hidden: ${document.hidden}, has the focus: ${document.hasFocus()}`,
            JSON.stringify({open: connection && [...connection.questions.values()].map(({command}) => command), waits: connection?.countWaiting(),
                            pending: pending?.size, openRowQuestions, isDrawing, idleTimer, figures: figures?.asking}),
            window.over ?? "", "what happened:", ...(window.happened ?? [])];"""


def example_rows(which: int) -> list[str]:
    """Return the rows of a diagram of the example: 0 closed from step 12 on, 1 from 12 to 24; both begin at step 12, or 24."""
    with open(TOP / "examples" / "closed_cell.out", encoding="utf-8") as replies:
        rows: list[list[str]] = [reply["rows"] for reply in map(json.loads, replies) if "rows" in reply]
    return rows[which]


def free_server(plan: dict[str, Any], *more: str, **environment: str) -> Server:
    """Start a server whose port stays the same when it is restarted."""
    return Server(None, plan, "--port", str(free_port()), *more, **environment)


def operations_of(server: Server) -> list[dict[str, Any]]:
    """Return the operations in its journal, in their order."""
    return [entry["made"]["operation"] for entry in server.journal() if "made" in entry]


def shapes_of(operation: dict[str, Any]) -> list[list[Any]]:
    """Return the shape that an operation sets; none if it sets none."""
    return [operation["shape"]] if "shape" in operation else []


class Tab:
    """A browser with one tab."""

    def __init__(self, downloads: Path) -> None:
        options = webdriver.ChromeOptions()
        options.binary_location = shutil.which("chromium")
        for word in ("--headless=new", "--no-sandbox", "--disable-gpu", "--disable-dev-shm-usage",
                     "--window-size=1500,950", "--force-device-scale-factor=1"):
            options.add_argument(word)
        options.add_experimental_option("prefs", {"download.default_directory": str(downloads),
                                                  "profile.default_content_setting_values.automatic_downloads": 1})
        options.set_capability("goog:loggingPrefs", {"browser": "ALL"})
        self.driver = webdriver.Chrome(options=options, service=Service(shutil.which("chromedriver"), free_port()))
        self.driver.set_script_timeout(10 * PATIENCE)
        self.driver.execute_cdp_cmd("Page.addScriptToEvaluateOnNewDocument", {"source": RECORDER})
        self.downloads = downloads

    def join(self, server: Server, name: str) -> Tab:
        self.driver.get("about:blank")
        self.driver.get(server.address)
        self.until(lambda: self.part("hello").get_attribute("open") is not None, "asks for a name")
        self.part("name").send_keys(name, Keys.ENTER)
        self.until(lambda: self.text("line").startswith("connected"), "connected")
        return self

    # What it shows

    def script(self, text: str, *words: Any) -> Any:
        """Run a script that may use the names of the page's modules. Return its value."""
        text = f"{IF_KNOWN} return [(function () {{{text}\n}}).apply(null, arguments)];"
        said = self.driver.execute_script(text, *words)
        if said is None:
            self.driver.execute_script(MODULES_KNOWN, MODULES)
            said = self.driver.execute_script(text, *words)
        return said[0]

    def part(self, ident: str) -> Any:
        return self.driver.find_element(By.ID, ident)

    def text(self, ident: str) -> str:
        return " ".join(str(self.script("return document.getElementById(arguments[0]).textContent", ident)).split())

    def until(self, condition: Callable[[], Any], what: str) -> None:
        """Wait until a condition holds: for PATIENCE seconds, or longer on a busy machine."""
        begin = time.monotonic()
        while time.monotonic() < begin + PATIENCE * slowness():
            if condition():
                return
            time.sleep(0.03)
        raise AssertionError(f"waited in vain: {what}\n{self.truth()}")

    def truth(self) -> str:
        """Return what the page shows and knows, and what happened to it, for the report of a failed test."""
        seen = self.driver.execute_script(TRUTH)
        console = [entry["message"] for entry in self.driver.get_log("browser")]
        saved = sorted(path.name for path in self.downloads.iterdir())
        return "\n".join([*map(str, seen), f"console: {console}", f"saved: {saved}"])

    def settled(self) -> None:
        """Wait until everything is confirmed, loaded and drawn, in the figures too, and stays so for a moment."""
        self.until(lambda: self.driver.execute_async_script(SETTLED), "quiet")

    def lines(self, ident: str) -> list[str]:
        """Return the lines of a list: what was done, and its state."""
        found = self.script("return [...document.querySelectorAll(`#${arguments[0]} > li > .note`)]"
                            ".map((one) => one.textContent)", ident)
        return [" ".join(one.split()) for one in found]

    def covers(self, ident: str) -> list[str]:
        """Return what the lines of a list say about what covers them."""
        found = self.script("return [...document.querySelectorAll(`#${arguments[0]} > li > .loss`)].map((one) => "
                            "one.textContent)", ident)
        return list(map(str, found))

    def value_at(self, kind: str, index: int, *steps: int) -> list[int]:
        """Return what is in force on the own road, as the page shows it."""
        found: list[int] = self.script(
            "const [kind, index, steps] = arguments;"
            "return steps.map((step) => store.layers.mine.valueAt(kind, index, step))", kind, index, steps)
        return found

    def faults(self) -> list[str]:
        return [entry["message"] for entry in self.driver.get_log("browser")
                if entry["level"] == "SEVERE" and "WebSocket" not in entry["message"]]

    # What a user does

    def press(self, name: str, within: str = "body") -> None:
        """Press the button whose name begins so, once it is there and nothing lies over it. A script in the page does both at
        once, since buttons may move between a look and a click from outside."""
        self.until(lambda: self.script(PRESS, name, within), f"a button {name} in {within}")

    def press_in(self, ident: str) -> None:
        """Press the first button of a part, or the part itself if it is a button."""
        self.until(lambda: self.script(PRESS, "", ident), f"the button of {ident}")

    def open_part(self, ident: str) -> None:
        """Open a folded part."""
        self.until(lambda: self.script(PRESS, "", f"#{ident} > summary"), f"to open {ident}")

    def save(self, name: str, file: str) -> Path:
        """Save from the menu. Return the new file whose name begins and ends as this one's. It is done by a key, since a browser
        lets a page save once for each press of a key or button."""
        before = set(self.saved(file))
        if self.part("save").get_attribute("open") is None:
            self.open_part("save")
        self.until(lambda: self.script(FOCUS, name, "#save"), f"a button {name}")
        ActionChains(self.driver, duration=0).send_keys(Keys.ENTER).perform()
        self.until(lambda: set(self.saved(file)) - before, file)
        path, = set(self.saved(file)) - before
        return path

    def save_several(self, name: str, file: str, count: int) -> list[Path]:
        """Save several files by one press, and return them."""
        self.open_part("save")
        self.press(name, "#save")
        self.until(lambda: len(self.saved(file)) == count, f"{count} of {file}")
        return self.saved(file)

    def save_both(self, name: str, file: str) -> list[Path]:
        """Save two files by one press: those of the own road and of the shared one, in this order."""
        return sorted(self.save_several(name, file, 2), key=lambda path: "-shared-" in path.name)

    def saved(self, file: str) -> list[Path]:
        """Return the saved files whose names begin and end as this one's. (Chromium first makes an empty file of the name, and then
        puts the complete file in its place.)"""
        stem, _, ending = file.rpartition(".")
        return [path for path in self.downloads.glob(f"{stem}-*.{ending}") if path.stat().st_size]

    def tool(self, kind: str) -> None:
        self.script("document.querySelector(`input[name=tool][value=${arguments[0]}]`).click()", kind)

    def choose(self, ident: str, value: str) -> None:
        """Choose from a list."""
        self.fill(**{ident: value})

    def fill(self, **fields: str) -> None:
        """Type into fields, and choose from lists."""
        self.script("""
            for (const [ident, value] of Object.entries(arguments[0])) {
              $(ident).value = value;
              if ($(ident).value !== value) throw new Error(`${ident} takes no ${value}`);
              for (const kind of ["input", "change"]) $(ident).dispatchEvent(new Event(kind, {bubbles: true}));
            }""", fields)

    def show(self, seconds: int) -> None:
        """Show this many seconds, from the first row on."""
        self.choose("span", str(seconds))
        self.keys(Keys.HOME)
        self.settled()

    def run_an_hour(self) -> None:
        self.press("Run an hour")
        self.until(lambda: self.text("clock") == "1:00:00", "the clock")
        self.settled()

    def keys(self, *keys: str) -> None:
        self.script("$('diagram').focus()")
        for key in keys:
            ActionChains(self.driver, duration=0).send_keys(key).perform()

    def place(self, cell: float, step: float) -> tuple[int, int]:
        """Return where a place of the road is on the canvas, in pixels from its middle."""
        x, y, wide, high = self.script(
            "const c = $('diagram'); return [leftOf(viewNow(), arguments[0]), topOf(viewNow(), arguments[1]),"
            " c.clientWidth, c.clientHeight]", cell, step)
        return round(x - wide / 2), round(y - high / 2)

    def begin_drag(self, one: tuple[float, float], other: tuple[float, float]) -> None:
        """Press the mouse at a place (cell, step), and move it to another one."""
        self.script("$('diagram').scrollIntoView({block: 'center'})")
        (x, y), (to_x, to_y) = self.place(*one), self.place(*other)
        chain = ActionChains(self.driver, duration=20).move_to_element_with_offset(self.part("diagram"), x, y)
        chain.click_and_hold().move_by_offset((to_x - x) // 2, (to_y - y) // 2)
        chain.move_by_offset(to_x - x - (to_x - x) // 2, to_y - y - (to_y - y) // 2).perform()

    def drop(self) -> None:
        ActionChains(self.driver, duration=0).release().perform()
        self.settled()

    def drag(self, one: tuple[float, float], other: tuple[float, float]) -> None:
        self.begin_drag(one, other)
        self.drop()

    def type_and_apply(self, **fields: str) -> None:
        """Fill the form, and apply it."""
        self.fill(**fields)
        self.press_in("#apply")
        self.settled()

    def limit(self, limit: str, begin: str, end: str) -> None:
        """Put a limit on all of a short road."""
        self.tool("limit")
        self.choose("limit", limit)
        self.type_and_apply(kmFrom="0", kmTo="0.3", timeFrom=begin, timeTo=end)

    def share_all(self) -> None:
        self.press("Share all")
        self.press("Share now")
        self.settled()

    def take(self) -> None:
        self.until(lambda: self.part("news").is_displayed(), "news")
        self.press("Take", "#news")
        self.until(lambda: self.text("said").startswith("Took"), "taken")
        self.settled()

    # What is drawn

    def characters(self, first: int, count: int, length: int) -> list[str]:
        """Return the rows of characters that the diagram shows, from a pixel in each cell, left of its middle."""
        found = self.script("""
            const [first, count, length] = arguments, view = viewNow();
            const context = $("diagram").getContext("2d");
            const pixel = (cell, step) => [...context.getImageData(Math.round(leftOf(view, cell + 0.2)),
              Math.round(topOf(view, step + 0.5)), 1, 1).data].slice(0, 3);
            return Array.from({length: count}, (_, step) =>
              Array.from({length}, (_, cell) => pixel(cell, first + step)));""", first, count, length)
        by_colour: dict[tuple[int, ...], str] = {colour: sign for sign, colour in COLOURS.items()}
        return ["".join(by_colour.get(tuple(pixel), "?") for pixel in row) for row in found]

    def pixel(self, cell: float, step: float) -> tuple[int, int, int]:
        red, green, blue = self.script("""
            const [cell, step] = arguments, view = viewNow();
            return [...$("diagram").getContext("2d").getImageData(Math.round(leftOf(view, cell)),
              Math.round(topOf(view, step)), 1, 1).data].slice(0, 3);""", cell, step)
        return red, green, blue

    def point(self, cell: float, step: float) -> str:
        """Move the pointer to a place. Return what the page says about it."""
        self.script("$('diagram').scrollIntoView({block: 'center'})")
        ActionChains(self.driver, duration=0).move_to_element_with_offset(
            self.part("diagram"), *self.place(cell, step)).perform()
        return self.text("readout")


def preview_rows(tab: Tab) -> dict[str, tuple[float, ...]]:
    """Return the table of a preview, by the names of its rows: before, after, change."""
    tab.until(lambda: tab.script("return document.querySelector('#preview table') !== null"), "the figures")
    rows = tab.script("return [...document.querySelectorAll('#preview tbody tr')].map((line) => "
                      "[...line.children].map((one) => one.firstChild?.data ?? ''))")
    number = lambda text: float(text.replace(",", "").replace("−", "-").replace("+", "") or "nan")
    return {name: tuple(map(number, values)) for name, *values in rows}


class BrowserCase(Watched):
    """Each test has a server of its own; the browsers stay open."""

    names: tuple[str, ...] = ("Ada", "Ben")
    tabs: list[Tab]
    downloads: Path
    server: Server

    @classmethod
    def setUpClass(cls) -> None:
        cls.downloads = new_folder()
        cls.tabs = []
        for _ in cls.names:
            cls.tabs.append(Tab(cls.downloads))
            cls.addClassCleanup(cls.tabs[-1].driver.quit)

    def open(self, plan: dict[str, Any], names: tuple[str, ...] | None = None, *more: str,
             **environment: str) -> list[Tab]:
        """Start a server with this plan and these additional arguments. Return a tab for each name."""
        self.server = free_server(plan, *more, **environment)
        self.addCleanup(self.server.kill)
        return [tab.join(self.server, name) for tab, name in zip(self.tabs, names or self.names)]

    def tearDown(self) -> None:
        for path in self.downloads.iterdir():
            path.unlink(missing_ok=True)
        for name, tab in zip(self.names, self.tabs):
            if SCREENSHOTS:
                tab.driver.save_screenshot(os.path.join(SCREENSHOTS, f"{self._testMethodName}_{name}.png"))
            self.assertEqual(tab.faults(), [])
