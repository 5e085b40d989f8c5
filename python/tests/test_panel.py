"""The panel in a real browser, driven as a person would, and its server by hand."""

import http.client
import json
import os
import resource
import signal
import subprocess
import sys
import threading
import time
from collections.abc import Callable, Iterator
from dataclasses import dataclass
from pathlib import Path
from statistics import median
from typing import Any

import pytest
import tsb
from tsb import programs
from tsb.panel.server import BENCHES_MOST, BODY_MOST

# (not all of its types are known)
webdriver = pytest.importorskip("selenium.webdriver")
Service = pytest.importorskip("selenium.webdriver.chrome.service").Service
By = pytest.importorskip("selenium.webdriver.common.by").By
Keys = pytest.importorskip("selenium.webdriver.common.keys").Keys
Select = pytest.importorskip("selenium.webdriver.support.select").Select

Browser = Any
PATIENCE = 20  # seconds
DAY = 864_000


@dataclass
class Server:
    """A panel that runs, and its address."""

    process: "subprocess.Popen[str]"
    port: int
    token: str
    runs: Path

    @property
    def address(self) -> str:
        return f"http://127.0.0.1:{self.port}/{self.token}/"

    def post(
        self,
        path: str,
        told: Any,
        *,
        token: str | None = None,
        text: bytes | None = None,
        **headers: str,
    ) -> tuple[int, Any]:
        """The status and the answer to a request that is sent by hand."""
        link = http.client.HTTPConnection("127.0.0.1", self.port, timeout=PATIENCE)
        sent = {
            "Host": f"127.0.0.1:{self.port}",
            "Origin": f"http://127.0.0.1:{self.port}",
            "Content-Type": "application/json",
            **{name.replace("_", "-"): value for name, value in headers.items()},
        }
        where = f"/{self.token if token is None else token}/{path}"
        body = json.dumps(told).encode() if text is None else text
        link.request("POST", where, body, {k: v for k, v in sent.items() if v})
        answer = link.getresponse()
        found = answer.read()
        link.close()
        is_json = answer.headers.get_content_type() == "application/json"
        return answer.status, json.loads(found) if is_json else found

    def opened(self) -> "Asker":
        """A page of one's own, without a browser."""
        before = self.benches()
        status, found = self.post("open", {"session": None})
        assert status == 200
        new = self.benches() - before
        return Asker(self, found["page"], found["session"], new.pop())

    def benches(self) -> set[int]:
        """The processes of the benches."""
        words = ["ps", "-o", "pid=,comm=", "--ppid", str(self.process.pid)]
        told = subprocess.run(words, capture_output=True, text=True, check=False)
        rows = [it.split() for it in told.stdout.splitlines()]
        return {int(pid) for pid, name in rows if name == "tsb_live"}


@dataclass
class Asker:
    """A page that is no browser."""

    server: Server
    page: str
    session: str
    bench: int

    def ask(self, do: str, **more: Any) -> tuple[int, Any]:
        """The status and the answer to a request of this page."""
        return self.server.post("ask", {"do": do, "page": self.page, **more})

    def go(self, tick: int) -> Any:
        """Goes to a tick, in as many requests as it takes."""
        while True:
            status, found = self.ask("go", tick=tick)
            assert status == 200 and not found["fault"], found
            if found["state"]["now"] == tick:
                return found["state"]


def started(folder: Path, *words: str | Path) -> Iterator[Server]:
    """A panel on a plan, until the test is over."""
    command = [sys.executable, "-m", "tsb", "panel", *words, "--runs", folder]
    with subprocess.Popen(command, stdout=subprocess.PIPE, text=True) as process:
        assert process.stdout is not None
        try:
            line = process.stdout.readline()
            assert line, "no panel was served"
            address = line.split()[-1]
            _, _, host, token, _ = address.split("/")
            yield Server(process, int(host.partition(":")[2]), token, folder)
            process.send_signal(signal.SIGINT)
            assert process.wait(PATIENCE) == 0
        finally:
            process.kill()


@pytest.fixture(scope="module")
def server(tmp_path_factory: pytest.TempPathFactory) -> Iterator[Server]:
    """A panel on the plan of eight phases."""
    top = Path(__file__).resolve().parents[2]
    folder = tmp_path_factory.mktemp("panel") / "runs"
    yield from started(folder, top / "examples/quad.json")


@pytest.fixture(scope="module")
def browser() -> Iterator[Browser]:
    """A headless Chromium."""
    options = webdriver.ChromeOptions()
    for word in [
        "--headless=new",
        "--no-sandbox",
        "--disable-dev-shm-usage",
        "--disable-gpu",
    ]:
        options.add_argument(word)
    options.add_argument("--window-size=1500,1250")
    found = webdriver.Chrome(service=Service("/usr/bin/chromedriver"), options=options)
    yield found
    found.quit()


class Page:
    """A page of the panel in a tab of its own."""

    def __init__(self, browser: Browser, address: str) -> None:
        self.browser = browser
        browser.switch_to.new_window("tab")
        self.tab = browser.current_window_handle
        browser.get(address)
        self.settle()

    def wait(
        self, holds: Callable[[], Any], what: str = "", seconds: float = PATIENCE
    ) -> None:
        """Waits until something holds."""
        end = time.monotonic() + seconds
        while not holds():
            assert time.monotonic() < end, f"{what}: {self.text('message')}"
            time.sleep(0.02)

    def settle(self) -> None:
        """Waits until nothing is asked any more."""
        idle = "return document.querySelector('main:not([aria-busy])') !== null"
        self.wait(lambda: self.text("source") or self.shows("message"), "it opens")
        self.wait(lambda: self.browser.execute_script(idle), "it is idle")

    def find(self, name: str) -> Any:
        return self.browser.find_element(By.ID, name)

    def text(self, name: str) -> str:
        return str(self.find(name).text)

    def shows(self, name: str) -> bool:
        return bool(self.find(name).is_displayed())

    def click(self, name: str) -> None:
        self.find(name).click()
        self.settle()

    def says(self, text: str) -> None:
        """Waits until the page says something."""
        self.wait(lambda: self.text("said") == text, text)

    def fill(self, name: str, value: object) -> None:
        self.find(name).send_keys(Keys.CONTROL, "a", Keys.NULL, str(value))

    def choose(self, name: str, value: str) -> None:
        Select(self.find(name)).select_by_value(value)

    def choose_mode(self, mode: str) -> None:
        """How a click on an input acts."""
        self.browser.find_element(By.CSS_SELECTOR, f"input[value={mode}]").click()

    def keys(self, *keys: str) -> None:
        webdriver.ActionChains(self.browser).send_keys(*keys).perform()
        self.settle()

    def go(self, tick: int) -> None:
        self.go_by(tick, tick)

    def go_by(self, typed: object, tick: int) -> None:
        """Goes by what is typed, which leads to this tick."""
        self.fill("go", typed)
        self.click("go-there")
        self.wait(lambda: self.tick == tick, f"tick {tick}")
        self.settle()

    @property
    def tick(self) -> int:
        return int(self.text("tick"))

    def lit(self, head: str) -> str:
        """The lenses of a head that are lit."""
        lenses = self.find(f"head-{head}").find_elements(By.CSS_SELECTOR, ".lens.lit")
        return "".join(str(it.text) for it in lenses)

    def is_on(self, name: str) -> bool:
        return str(self.find(name).get_attribute("aria-pressed")) == "true"

    def has(self, name: str, word: str) -> bool:
        return word in (self.find(name).get_attribute("class") or "").split()

    def set(self, name: str, index: int, value: int) -> None:
        """Sets a value at the desk."""
        self.choose("object", name)
        self.fill("index", index)
        self.fill("value", value)
        self.click("set")


@pytest.fixture
def page(browser: Browser, server: Server) -> Iterator[Page]:
    """A page with a bench of its own."""
    found = Page(browser, server.address)
    yield found
    for tab in browser.window_handles[1:]:
        browser.switch_to.window(tab)
        browser.close()
    browser.switch_to.window(browser.window_handles[0])


# As a person would


def test_a_call_is_clicked_and_green_comes(page: Page) -> None:
    """Phase 2 keeps its 5 s, is yellow for 3 s and clears for 1 s: green at 91."""
    assert page.tick == 0 and page.lit("P4") == "R"
    page.click("vehicle-4")
    page.go(40)
    assert "V" in page.text("phase-4") and page.has("phase-2", "on")
    assert page.text("wait-4") == "Phase 4 waits for the barrier, which phase 2 keeps"
    assert page.text("ring-1-1") == "1.1 s"
    page.go(91)
    assert page.lit("P4") == "G" and page.has("phase-4", "G")
    assert page.text("clock") == "0:00:09.0"  # (that of its event)
    page.click("tick-back")
    assert page.tick == 90 and page.lit("P4") == "R"
    assert "it starts in the next tick" in page.text("wait-4")
    page.click("tick-on")
    assert page.tick == 91 and page.lit("P4") == "G" and page.lit("P2") == "R"


def test_the_scrubber_goes_all_over_the_run(page: Page) -> None:
    """By the keyboard: to the start, and to the end again."""
    page.click("vehicle-4")
    page.go(95)
    line = page.text("line")
    page.find("scrubber").send_keys(Keys.HOME)
    page.settle()
    page.wait(lambda: page.tick == 0, "tick 0")
    assert "95 ticks lie ahead" in page.text("ahead")
    page.find("scrubber").send_keys(Keys.END)
    page.wait(lambda: page.tick == 95, "tick 95")
    assert page.text("line") == line and page.text("ahead") == ""
    page.find("scrubber").send_keys(Keys.ARROW_LEFT)
    page.wait(lambda: page.tick == 94, "tick 94")


def test_a_clock_is_set_and_gone_by(page: Page) -> None:
    """Times are then those of the clock at which ticks begin, and can be gone to."""
    assert page.text("clock") == "0:00:00.0"
    page.fill("go", "7:00:09")
    page.click("go-there")
    assert "no clock is set" in page.text("time-said") and page.tick == 0
    page.fill("clock-to", "7:00")
    page.click("set-clock")
    assert "7:00 is no day and time" in page.text("time-said")
    page.fill("clock-to", "2026-11-22 7:00")
    page.click("set-clock")
    assert page.text("time-said") == "clock 2026-11-22 07:00:00: ok"
    assert page.text("clock") == "2026-11-22 7:00:00.0"
    assert page.find("begin-time").get_attribute("value") == "2026-11-22 07:00:00.0"
    for typed, tick in [("7:00:09", 91), ("2026-11-22 7:00:04.5", 46), ("7:01", 601)]:
        page.go_by(typed, tick)
    assert page.text("clock") == "2026-11-22 7:01:00.0"
    assert page.find("scrubber").get_attribute("aria-valuetext") == "tick 601, 7:01:00.0"
    page.fill("go", "7:61")
    page.click("go-there")
    assert page.shows("message") and page.tick == 601
    page.go(0)
    page.click("undo")
    assert page.text("said") == "undone clock" and page.text("clock") == "0:00:00.0"


def test_a_change_at_an_earlier_tick(page: Page) -> None:
    """What lay ahead is dropped, and another run goes on from there."""
    page.click("vehicle-4")
    page.go(120)
    page.go(40)
    page.click("begin")
    assert page.text("ahead") == "" and page.text("given").startswith("tick 40 begin 1")
    page.set("phaseMinimumGreen", 2, 8)
    page.set("phaseYellowChange", 2, 40)
    assert "phaseMinimumGreen" in page.text("edits")
    page.click("verify")
    assert "can be committed" in page.text("desk-state")
    page.click("commit")
    assert "nobody's" in page.text("desk-state") and page.text("edits") == ""
    page.go(80)
    assert page.lit("P2") == "G"
    page.click("tick-on")
    assert page.lit("P2") == "Y"
    page.go(130)
    assert page.lit("P4") == "R"
    page.click("tick-on")
    assert page.lit("P4") == "G"


def test_refusals_in_words_with_their_cures(page: Page) -> None:
    """A commit before its time, an edit out of range, and one of a broken rule."""
    page.go(10)
    page.click("commit")
    assert page.text("message-title") == "commit 1: refused E6 NotOpen"
    assert page.text("message-cure") == "Cure: begin first."
    page.click("begin")
    assert not page.shows("message")
    page.set("phaseYellowChange", 2, 20)
    page.click("commit")
    assert "refused E7 NotVerified" in page.text("message-title")
    page.click("verify")
    assert "rule K8 would be broken" in page.text("said")
    assert "at least 30, that is 3.0 s" in page.text("rule")
    page.set("phaseYellowChange", 2, 300)
    assert "refused E3 OutOfRange" in page.text("message-title")
    page.set("phaseYellowChange", 2, 30)
    page.set("phaseConcurrency", 1, 0)
    page.set("phaseConcurrency", 5, 2)
    page.set("phaseConcurrency", 6, 2)
    page.click("verify")
    page.click("commit")
    assert "refused E12 InService" in page.text("message-title")
    assert "it would change what is in service now" in page.text("message-text")
    page.click("abort")
    assert not page.shows("message") and page.text("edits") == ""


def test_what_is_typed_and_is_no_number(page: Page) -> None:
    """Nothing is asked of the bench, and the field is named beside its button too."""
    page.click("begin")
    assert page.text("desk-said") == "begin 1: ok"
    page.set("phaseWalk", 2, 7)
    assert page.text("desk-said") == "set 1 phaseWalk 2 7: ok"
    edits = page.text("edits")
    for value, said in (("", "a value is empty"), ("7.5", "7.5 is no whole number")):
        page.find("value").send_keys(Keys.CONTROL, "a", Keys.NULL, Keys.DELETE, value)
        page.click("set")
        assert page.text("message-text") == said and said in page.text("desk-said")
        assert "enter a value from 0 to " in page.text("message-cure")
    assert page.text("edits") == edits
    for tick in ("", "-5", "7000000"):
        page.find("go").send_keys(Keys.CONTROL, "a", Keys.NULL, Keys.DELETE, tick)
        page.click("go-there")
        assert page.text("message-cure") == "Cure: enter a tick from 0 to 6,000,000."
    assert page.tick == 0


def test_lists_take_phases(page: Page) -> None:
    """As 2,6, and the number after a sign; what is in effect is shown so too."""
    page.click("begin")
    page.choose("object", "overlapIncludedPhases")
    for typed, number in (("2,6", 34), ("4 8", 136), ("=34", 34), ("0", 0)):
        page.fill("index", 1)
        page.fill("value", typed)
        page.click("set")
        assert page.text("desk-said") == f"set 1 overlapIncludedPhases 1 {number}: ok"
    page.fill("value", "26")
    page.click("set")
    assert page.text("message-text") == "26 is no phase"
    page.choose("object", "phaseConcurrency")
    page.fill("index", 1)
    page.find("station").click()
    assert page.find("value").get_attribute("value") == "5,6"


def test_the_plan_with_what_was_committed(server: Server) -> None:
    """It is the plan in effect, and not the one that the run began with."""
    page = server.opened()
    asked: list[dict[str, Any]] = [
        {"do": "begin", "station": 1},
        {"do": "set", "station": 1, "name": "phaseWalk", "index": 2, "value": 9},
        {"do": "verify", "station": 1},
        {"do": "commit", "station": 1},
        {"do": "advance", "ticks": 1},
    ]
    for it in asked:
        status, found = page.ask(**it)
        assert status == 200 and not found["fault"], found
    status, told = server.post("plan.json", {"page": page.page})
    assert status == 200 and told["phaseWalk"]["2"] == 9
    status, told = page.ask("go", tick=7_000_000)
    assert told["fault"]["text"] == (
        "7,000,000 is too much or too little: enter a tick from 0 to 6,000,000"
    )


def test_a_preempt(page: Page) -> None:
    """Its switch brings phases 3 and 8 at tick 71, as the README has it; until they are
    green it is entering."""
    page.go(30)
    page.click("switch-1")
    assert page.find("switch-1").get_attribute("aria-checked") == "true"
    page.go(70)
    assert page.lit("P3") == "R" and "1: entering" in page.text("preempts")
    page.click("tick-on")
    assert page.lit("P3") == page.lit("P8") == "G"
    assert "1: dwell stage" in page.text("preempts")
    page.go(30)
    page.click("undo")
    assert page.text("said") == "undone switch"
    assert page.find("switch-1").get_attribute("aria-checked") == "false"


def test_a_trip_and_a_reset(page: Page) -> None:
    """A green lamp that conflicts trips the monitor."""
    page.go(60)
    page.choose("head", "P4")
    page.choose("lamp-letter", "G")
    page.click("light")
    assert page.shows("trip") and page.lit("P2") == "F"
    assert "P4 G is lit" in page.text("lamp")
    page.click("reset")
    assert not page.shows("trip") and page.text("lamp") == "none is lit"
    assert page.lit("P2") == "R"


def test_an_alarm(page: Page) -> None:
    """A detector that stays on for more than its minute."""
    page.click("begin")
    page.set("vehicleDetectorMaxPresence", 3, 1)
    page.click("verify")
    page.click("commit")
    page.choose_mode("latch")
    page.click("vehicle-3")
    page.go(590)
    assert page.text("alarms") == "none" and not page.has("vehicle-3", "alarm")
    page.go(620)
    assert page.text("alarms") == "detectors 3" and page.has("vehicle-3", "alarm")


def test_a_pattern_is_selected(page: Page) -> None:
    """It runs from the next tick on, with its counter."""
    page.choose("patterns", "1")
    page.click("select-pattern")
    page.go(5)
    assert page.text("pattern").startswith("pattern 1, local counter 0.5 s")


def test_hands_by_keyboard(page: Page) -> None:
    """Latch, pulse, and give back; and time by its keys."""
    page.browser.execute_script("document.getElementById('vehicle-4').focus()")
    page.keys("l")
    assert page.is_on("vehicle-4") and page.has("vehicle-4", "held")
    page.keys(".")
    assert page.tick == 1 and page.has("vehicle-4", "active")
    page.keys("l")
    assert not page.is_on("vehicle-4") and page.has("vehicle-4", "held")
    page.keys("g")
    assert not page.has("vehicle-4", "held")
    page.keys("p")
    assert page.is_on("vehicle-4")
    page.keys(*"......")
    assert page.tick == 7 and not page.is_on("vehicle-4")
    page.keys(",")
    assert page.tick == 6


def test_hands_by_mouse(page: Page) -> None:
    """A press that is held, a latch, a pulse, and all let go."""
    detector = page.find("vehicle-4")
    page.find("play10").click()
    webdriver.ActionChains(page.browser).click_and_hold(detector).perform()
    page.wait(lambda: page.is_on("vehicle-4"), "it is on")
    was = page.tick
    page.wait(lambda: page.tick > was + 10, "it plays on")
    assert page.is_on("vehicle-4") and page.has("vehicle-4", "active")
    webdriver.ActionChains(page.browser).release(detector).perform()
    page.wait(lambda: not page.is_on("vehicle-4"), "it is off")
    page.click("pause")
    page.choose_mode("latch")
    page.click("pedestrian-2")
    page.click("tick-on")
    page.click("tick-on")
    assert page.is_on("pedestrian-2") and "P" in page.text("phase-2")
    page.click("pedestrian-2")
    assert not page.is_on("pedestrian-2")
    page.choose_mode("pulse")
    page.fill("pulse", "0.2")
    page.click("preempt-1")
    for is_on in [True, True, False]:
        assert page.is_on("preempt-1") == is_on
        page.click("tick-on")
    page.click("free-all")
    names = ["vehicle-4", "pedestrian-2", "preempt-1"]
    assert not any(page.has(it, "held") for it in names)


def test_play_and_pause(page: Page) -> None:
    """At ten times the pace of the street, then as fast as it goes."""
    page.find("play10").click()
    page.wait(lambda: page.tick >= 20, "it plays")
    page.click("pause")
    was = page.tick
    assert was < 600
    page.find("playfast").click()
    page.wait(lambda: page.tick > was + 20_000, "it is fast")
    page.click("pause")
    was = page.tick
    time.sleep(0.2)
    assert page.tick == was


def test_fast_stops_where_the_log_ends(
    browser: Browser, examples: Path, tmp_path: Path
) -> None:
    """Its last row begins at tick 2000. Behind it fast goes to the end of what lies
    ahead, and with nothing ahead on and on."""
    log = tmp_path / "short.log"
    log.write_text(f"{9:07} {tsb.rows.row({4})}\n{2000:07} {tsb.rows.row()}\n")
    for server in started(tmp_path / "runs", examples / "quad.json", log):
        page = Page(browser, server.address)
        page.click("playfast")
        page.wait(lambda: "stopped" in page.text("time-said"), "it stops")
        assert page.tick == 2000
        told = "stopped at tick 2000, where the log ends"
        assert page.text("time-said") == page.text("said") == told
        page.go(2500)
        page.go(2100)
        page.click("playfast")
        page.wait(lambda: "stopped" in page.text("time-said"), "it stops")
        assert page.text("said") == "stopped at tick 2500, the end of what lay ahead"
        page.find("playfast").click()
        page.wait(lambda: page.tick > 20_000, "it goes on")
        page.click("pause")
        # (all ticks that there are take some seconds, and long on a busy machine)
        page.fill("go", 5_999_900)
        page.find("go-there").click()
        page.wait(lambda: page.tick == 5_999_900, "it is there", 180)
        page.settle()
        page.find("playfast").click()
        page.wait(lambda: "stopped" in page.text("time-said"), "it stops")
        assert page.text("said").endswith("tick 6000000, the last one that there is")
        assert not page.shows("message")
        # (a page whose panel has ended would say so in the browser's log)
        browser.close()
        browser.switch_to.window(browser.window_handles[0])


def test_what_lies_ahead_is_dropped(page: Page) -> None:
    """By a button, that is there while something lies ahead."""
    assert not page.shows("drop")
    page.go(95)
    page.go(40)
    assert page.shows("drop") and "55 ticks lie ahead" in page.text("ahead")
    page.click("drop")
    assert page.text("time-said") == "55 ticks ahead of tick 40 are dropped"
    assert page.text("ahead") == "" and not page.shows("drop") and page.tick == 40
    assert page.find("scrubber").get_attribute("max") == "40"


def test_a_pulse_that_is_none(page: Page) -> None:
    """Nothing is asked of the bench, and what to enter is shown beside it."""
    page.choose_mode("pulse")
    for typed, said in (
        ("", "a pulse is empty"), ("0", "0 s is no such time"),
        ("-1", "-1 s is no such time"), ("0.55", "0.55 s is no such time"),
        ("3600.1", "3600.1 s is no such time"),
    ):  # fmt: skip
        page.find("pulse").send_keys(Keys.CONTROL, "a", Keys.NULL, Keys.DELETE, typed)
        page.click("vehicle-4")
        assert page.text("message-text") == said and said in page.text("pulse-said")
        assert "enter a pulse from 0.1 to 3,600 s" in page.text("message-cure")
        assert not page.has("vehicle-4", "held")
    page.fill("pulse", "1.0")
    page.click("vehicle-4")
    assert page.is_on("vehicle-4") and page.text("pulse-said") == ""
    page.go(9)
    assert page.is_on("vehicle-4")
    page.click("tick-on")
    assert not page.is_on("vehicle-4")


def test_a_verify_names_the_phases(page: Page) -> None:
    """Each place at which the rule is broken, until it is mended."""
    page.click("begin")
    for phase in (2, 4, 6):
        page.set("phaseYellowChange", phase, 20)
    page.click("verify")
    assert page.text("rule").startswith(
        "Rule K8: phase 2: its yellow is 2 s, under 3 s. phase 4: its yellow is 2 s,"
        " under 3 s. phase 6: its yellow is 2 s, under 3 s. The yellow of a phase"
    )
    page.set("phaseYellowChange", 2, 30)
    page.click("verify")
    assert "phase 2" not in page.text("rule") and "phase 4: its" in page.text("rule")
    for phase in (4, 6):
        page.set("phaseYellowChange", phase, 30)
    page.set("overlapAcrossRings", 1, 1)  # (which texts of version 2 have not)
    page.click("verify")
    assert "can be committed" in page.text("desk-state") and page.text("rule") == ""


def test_an_index_names_its_table_and_phase(page: Page) -> None:
    """For a split, and for a place in a sequence; other objects have none."""
    page.click("begin")
    page.choose("object", "splitTime")
    page.fill("index", 18)
    assert "Index 18 is table 2, phase 2. Index 1 to 128" in page.text("object-says")
    page.set("splitTime", 18, 25)
    assert "18 (table 2, phase 2)" in page.text("edits")
    page.choose("object", "sequenceData")
    page.fill("index", 17)
    assert "Index 17 is sequence 1, ring 2, place 1. " in page.text("object-says")
    page.fill("index", 0)
    assert "Index 0 is" not in page.text("object-says")
    page.set("phaseWalk", 2, 8)
    assert "phaseWalk 2 8 (seconds)" in page.text("edits")


@pytest.mark.parametrize("size", [(1280, 720), (1920, 950)])
def test_the_diagram_is_in_sight_of_the_detectors(
    page: Page, size: tuple[int, int]
) -> None:
    """And so are the buttons of time and the scrubber, without a scroll."""
    width, height = size
    metrics = {"width": width, "height": height, "deviceScaleFactor": 1, "mobile": False}
    page.browser.execute_cdp_cmd("Emulation.setDeviceMetricsOverride", metrics)
    try:
        page.go(300)
        names = ("playfast", "undo", "scrubber", "overview", "detail")
        inputs = page.browser.find_elements(By.CSS_SELECTOR, "#map .input")
        assert len(inputs) > 8
        for it in [*map(page.find, names), *inputs]:
            of, name = it.rect, it.get_attribute("id")
            assert of["height"] > 0 and of["y"] >= 0 and of["x"] >= 0, name
            assert of["y"] + of["height"] <= height, name
            assert of["x"] + of["width"] <= width, name
    finally:
        page.browser.execute_cdp_cmd("Emulation.clearDeviceMetricsOverride", {})


def test_a_run_that_is_not_saved_is_not_left_at_once(page: Page, server: Server) -> None:
    """The browser asks; once the run is saved it does not."""
    leaves = """const leaves = new Event("beforeunload", { cancelable: true });
        return window.dispatchEvent(leaves);"""
    assert page.browser.execute_script(leaves)
    page.click("tick-on")
    assert page.shows("unsaved") and not page.browser.execute_script(leaves)
    page.fill("name", "left")
    page.click("save")
    assert not page.shows("unsaved") and page.browser.execute_script(leaves)
    assert (server.runs / "left").is_dir()


def test_the_plan_is_saved_by_its_button(page: Page, tmp_path: Path) -> None:
    """What was committed is in it, and a plan that `tsb check` takes."""
    params = {"behavior": "allow", "downloadPath": str(tmp_path)}
    page.browser.execute_cdp_cmd("Page.setDownloadBehavior", params)
    page.click("begin")
    page.set("phaseMaximum1", 4, 44)
    page.click("verify")
    page.click("commit")
    page.click("plan")
    path = tmp_path / "plan.json"
    page.wait(path.is_file, "it is there")
    page.wait(lambda: path.stat().st_size, "it is whole")
    found = tsb.Plan.read(path)
    found.check()
    assert found["phaseMaximum1"][4] == 44
    assert page.text("keep-said") == "plan.json: made up to tick 0"


def test_what_was_committed_beside_the_plan_of_the_file(page: Page) -> None:
    """A row for each value that differs, until the commit is undone."""
    same = "The plan in effect is that of the file."
    assert page.text("committed-says") == same and not page.shows("committed")
    page.click("begin")
    page.set("phaseMaximum1", 4, 44)
    page.set("splitTime", 18, 25)
    assert page.text("committed-says") == same
    page.click("verify")
    page.click("commit")
    rows = page.find("committed").text.splitlines()[1:]
    assert rows == [
        "phaseMaximum1 4 20 (seconds) 44 (seconds)",
        "splitTime 18 (table 2, phase 2) 0 (seconds) 25 (seconds)",
    ]
    assert page.text("committed-says") == ""
    page.click("undo")
    assert page.text("committed-says") == same and not page.shows("committed")


def test_marks_at_each_change(page: Page) -> None:
    """For a value that is watched."""
    page.click("vehicle-4")
    page.go(95)
    page.choose("watch", "interval")
    page.fill("watch-number", 2)
    page.click("mark")
    # (green at 1, yellow at 51, red clearance at 81, red at 91)
    assert "1: interval 2, 4 changes" in page.text("marks")
    page.go(60)
    page.go(95)
    assert "1: interval 2, 4 changes" in page.text("marks")
    page.go(60)
    page.click("vehicle-3")
    assert "1: interval 2, 2 changes" in page.text("marks")


def test_a_run_is_saved_and_tsb_run_replays_it(page: Page, server: Server) -> None:
    """The same lines at all ticks that are looked at, and the same run when loaded."""
    page.click("vehicle-4")
    page.go(70)
    page.click("switch-2")
    page.go(200)
    lines = {200: page.text("line")}
    page.fill("name", "a-day")
    page.click("save")
    folder = server.runs / "a-day"
    assert page.text("said") == f"saved up to tick 200: {folder}"
    words: list[str | Path] = ["run", folder / "plan.json", folder / "run.log"]
    commands = (folder / "run.commands").read_bytes()
    told = programs.run("tsb", words, commands).stdout.decode().splitlines()
    shown = [it for it in told if it[:7].isdigit()]
    assert len(shown) == 200
    for tick in [150, 71, 91, 1]:
        page.go(tick)
        lines[tick] = page.text("line")
    assert all(shown[tick - 1] == line for tick, line in lines.items())
    page.click("save")
    assert "there is a run a-day already" in page.text("message-text")
    for name, file in [("events", "events.csv"), ("diagram", "diagram.svg")]:
        page.click(name)
        page.says(f"{file}: made up to tick 1")
    page.click("tick-on")
    page.choose("runs", "a-day")
    page.click("load")
    if page.tick != 200:
        page.browser.switch_to.alert.accept()
        page.settle()
    assert page.tick == 200 and page.text("line") == lines[200]
    page.go(91)
    assert page.text("line") == lines[91]


def test_two_pages_have_two_benches(page: Page, server: Server) -> None:
    """What one does the other does not see."""
    page.go(50)
    other = Page(page.browser, server.address)
    assert other.tick == 0
    other.click("vehicle-4")
    other.go(91)
    assert other.lit("P4") == "G"
    page.browser.switch_to.window(page.tab)
    assert page.tick == 50
    page.go(91)
    assert page.lit("P4") == "R"


def test_a_page_is_reloaded(page: Page) -> None:
    """The bench goes on where it was."""
    page.click("vehicle-4")
    page.go(91)
    page.browser.refresh()
    page.settle()
    assert page.text("said") == "reloaded: the bench goes on at tick 91"
    assert page.tick == 91 and page.lit("P4") == "G"


def test_a_killed_bench(browser: Browser, server: Server) -> None:
    """The message says so, and the run is taken again."""
    others = server.benches()
    page = Page(browser, server.address)
    page.click("vehicle-4")
    page.go(91)
    line = page.text("line")
    os.kill((server.benches() - others).pop(), signal.SIGKILL)
    page.click("tick-on")
    assert page.text("message-title") == "the bench has ended"
    assert "tsb_live ended by signal 9" in page.text("message-text")
    page.click("tick-on")
    assert page.text("message-title") == "the bench has ended" and page.tick == 91
    page.click("again")
    assert "took the run up to tick 91" in page.text("said")
    assert not page.shows("message") and page.text("line") == line
    page.click("tick-back")
    assert page.tick == 90 and page.lit("P4") == "R"


def test_a_full_disk(page: Page, server: Server) -> None:
    """A run that cannot be written is reported, and what was saved stays."""
    page.go(20)
    page.fill("name", "before")
    page.click("save")
    was = {it: it.read_bytes() for it in (server.runs / "before").iterdir()}
    limits = resource.prlimit(server.process.pid, resource.RLIMIT_FSIZE)
    none = (0, limits[1])
    resource.prlimit(server.process.pid, resource.RLIMIT_FSIZE, none)
    try:
        page.fill("name", "after")
        page.click("save")
        assert "File too large" in page.text("message-text")
        assert "what was saved before is as it was" in page.text("message-cure")
    finally:
        resource.prlimit(server.process.pid, resource.RLIMIT_FSIZE, limits)
    assert {it: it.read_bytes() for it in was} == was
    assert not [it for it in server.runs.iterdir() if it.name.startswith(".")]
    page.click("save")
    assert (server.runs / "after/plan.json").is_file() and not page.shows("message")


def test_nothing_is_fetched_from_elsewhere(page: Page) -> None:
    """Nor is anything of the page refused by its own policy."""
    names = "return performance.getEntriesByType('resource').map(it => it.name)"
    fetched = page.browser.execute_script(names)
    assert fetched and all("://127.0.0.1:" in it for it in fetched)
    severe = [it for it in page.browser.get_log("browser") if it["level"] == "SEVERE"]
    assert severe == []


# By hand


@pytest.mark.parametrize(
    ("status", "how"),
    [
        (404, {"token": "guess"}),
        (404, {"token": ""}),
        (403, {"Host": "panel.example"}),
        (403, {"Host": "127.0.0.1"}),
        (403, {"Origin": "http://panel.example"}),
        (403, {"Origin": "null"}),
        (403, {"Origin": ""}),
        (403, {"Sec_Fetch_Site": "cross-site"}),
        (415, {"Content_Type": "text/plain"}),
        (400, {"text": b"{"}),
        (400, {"text": b"[]"}),
        (413, {"text": b"x" * (BODY_MOST + 1)}),
    ],
)
def test_who_is_not_answered(server: Server, status: int, how: Any) -> None:
    """A wrong address, another page, and what is no request of a page."""
    count = len(server.benches())
    found, told = server.post("open", {"session": None}, **how)
    assert found == status and told["fault"]["title"]
    assert len(server.benches()) == count


def test_the_page_says_what_it_may_load(server: Server) -> None:
    """Its own parts alone; and no other page may show it or read it."""
    link = http.client.HTTPConnection("127.0.0.1", server.port, timeout=PATIENCE)
    link.request("GET", f"/{server.token}/")
    answer = link.getresponse()
    text = answer.read().decode()
    assert answer.status == 200 and "<title>tsb panel</title>" in text
    assert "://" not in text
    policy = answer.headers["Content-Security-Policy"]
    assert "default-src 'none'" in policy and "frame-ancestors 'none'" in policy
    for name, status in [("panel.js", 200), ("secret.js", 404), ("../server.py", 404)]:
        link.request("GET", f"/{server.token}/{name}")
        answer = link.getresponse()
        answer.read()
        assert answer.status == status, name
    link.request("GET", "/guess/")
    assert link.getresponse().status == 404


def test_requests_that_are_none_reach_no_bench(server: Server) -> None:
    """Each is refused, and the bench is as it was."""
    asker = server.opened()
    before = asker.ask("look")[1]["state"]
    for wrong in [
        {"do": "fly"},
        {"do": "advance", "ticks": 1_000_000},
        {"do": "pattern", "number": "1\nundo"},
        {"do": "look", "view": {"first": 0, "last": 9, "columns": 5000}},
        {"do": "save", "name": "../../etc"},
    ]:
        status, told = asker.ask(**wrong)  # type: ignore[arg-type]
        assert status == 400 and told["fault"]["title"], wrong
    assert asker.ask("look")[1]["state"] == before
    status, told = server.post("ask", {"do": "look", "page": "another"})
    assert status == 410 and told["fault"]["cure"] == "reload the page"


def test_a_page_that_is_open_twice(server: Server) -> None:
    """The later one has the bench, and the earlier one gets a fault."""
    asker = server.opened()
    asker.go(7)
    status, found = server.post("open", {"session": asker.session})
    assert status == 200 and found["state"]["now"] == 7
    assert asker.ask("look")[0] == 410


def test_a_second_request_while_one_runs(server: Server) -> None:
    """It is refused, and the first is carried out."""
    asker = server.opened()
    os.kill(asker.bench, signal.SIGSTOP)
    found: list[Any] = []
    first = threading.Thread(target=lambda: found.append(asker.ask("go", tick=5)))
    first.start()
    try:
        status = 200
        told: Any = None
        end = time.monotonic() + PATIENCE
        while status == 200 and time.monotonic() < end:
            time.sleep(0.05)
            status, told = asker.ask("go", tick=9)
        text = "the bench is busy with an earlier request: go"
        assert (status, told["fault"]["text"]) == (409, text)
    finally:
        os.kill(asker.bench, signal.SIGCONT)
    first.join(PATIENCE)
    assert found[0][0] == 200 and found[0][1]["state"]["now"] == 5
    assert asker.ask("look")[1]["state"]["now"] == 5


def test_exports_are_those_of_the_programs(server: Server, tmp_path: Path) -> None:
    """Events as `tsb_field record` writes them, the diagram as it draws it."""
    asker = server.opened()
    asker.ask("hold", kind="vehicle", number=4, on=True)
    asker.go(400)
    asker.ask("save", name="exported")
    folder = server.runs / "exported"
    files = [folder / "plan.json", folder / "run.log"]
    commands = (folder / "run.commands").read_bytes()
    begin = "2026-11-22 07:00:00"
    more: dict[str, Any] = {"page": asker.page, "begin": begin, "device": "7"}
    status, events = server.post("events.csv", more)
    words: list[str | Path] = ["record", f"--from={begin}", "--device=7", *files]
    assert status == 200
    assert events == programs.run("tsb_field", words, commands).stdout
    status, drawn = server.post("diagram.svg", {"page": asker.page, "seconds": 60})
    lines = programs.run("tsb", ["run", *files], commands).stdout
    words = ["diagram", f"--log={files[1]}", "--title=Phase diagram"]
    wanted = programs.run("tsb_field", [*words, "--seconds-per-line=60"], lines)
    assert status == 200 and drawn == wanted.stdout
    wrongs: list[dict[str, Any]] = [{"begin": "now"}, {"device": "a b"}, {"device": 7}]
    for wrong in wrongs:
        assert server.post("events.csv", {**more, **wrong})[0] == 400
    assert server.post("diagram.svg", {"page": asker.page, "seconds": 0})[0] == 400


def test_a_log_acts_until_a_hand_takes_over(examples: Path, tmp_path: Path) -> None:
    """An input of the log, taken over and given back; and a layout with streets."""
    layout = tmp_path / "layout.json"
    layout.write_text('{"streets": {"west": "Main Street"}}')
    log = tmp_path / "log"
    log.write_text("0000010 0001000000000000 00000000 0000\n")
    words: list[str | Path] = [examples / "quad.json", log, "--layout", layout]
    for server in started(tmp_path / "runs", *words):
        asker = server.opened()
        found = server.post("open", {"session": asker.session})[1]
        asker.page = found["page"]
        assert found["plan"]["layout"]["streets"] == {"west": "Main Street"}
        assert asker.go(9)["row"][3] == "1"
        asker.ask("hold", kind="vehicle", number=4, on=False)
        state = asker.go(20)
        assert state["active"] == [] and state["hands"] == {"3": False}
        asker.ask("free", kind="vehicle", number=4)
        assert asker.go(21)["active"] == [4]


def test_arrows_flash(browser: Browser, examples: Path, tmp_path: Path) -> None:
    """Phase 2 is green from tick 1, so the arrow of phase 1, overlap 1, flashes from tick 21
    on: in the lane of phase 1, in place of that phase's own head. Phase 7 has no arrow, and
    overlap 4 is none. With `omit` it has the 4.0 s of yellow of phase 2, then red."""
    for server in started(
        tmp_path / "runs", examples / "arrows.json", examples / "arrows.log"
    ):
        page = Page(browser, server.address)
        page.go(20)
        assert page.lit("O1") == "R" and page.text("flashing") == "none flashes"
        page.go(21)
        assert page.lit("O1") == page.lit("O2") == "P" and page.lit("O3") == "R"
        assert page.text("flashing") == "overlaps 1, 2 flash"
        for head, count in (("O1", 4), ("O4", 3), ("P7", 3)):
            lenses = page.find(f"head-{head}").find_elements(By.CSS_SELECTOR, ".lens")
            assert len(lenses) == count
        assert not browser.find_elements(By.ID, "head-P1")
        lit = browser.find_element(By.CSS_SELECTOR, "#head-O1 .lens.lit.P path")
        assert lit.value_of_css_property("animation-name") == "flash"
        page.fill("omitted", "1")
        page.click("omit")
        assert page.text("given").endswith("tick 21 omit 1")
        page.go(61)
        assert page.lit("O1") == "Y" and page.lit("O2") == "P"
        page.click("tick-on")
        assert page.lit("O1") == "R"
        page.fill("omitted", "17")
        page.click("omit")
        assert page.text("message-text") == "17 is no overlap"
        page.choose("head", "O1")
        page.choose("lamp-letter", "P")
        page.click("light")
        assert "O1 P is lit" in page.text("lamp") and not page.shows("trip")
        page.choose("lamp-letter", "G")
        page.click("light")
        assert page.shows("trip") and page.lit("O1") == "F"
        browser.close()
        browser.switch_to.window(browser.window_handles[0])


def test_a_plan_without_arrows_has_no_row_of_them(page: Page) -> None:
    assert not page.shows("arrows") and page.lit("P1") == "R"


def test_a_panel_is_ended_while_a_bench_is_busy(examples: Path, tmp_path: Path) -> None:
    """The answer says that the bench has ended, and the program ends well."""
    found: list[Any] = []
    for server in started(tmp_path / "runs", examples / "quad.json"):
        asker = server.opened()
        os.kill(asker.bench, signal.SIGSTOP)
        asking = threading.Thread(target=lambda: found.append(asker.ask("go", tick=9)))
        asking.start()
        time.sleep(0.3)
    asking.join(PATIENCE)
    assert found[0][1]["fault"]["title"] == "the bench has ended"


def test_too_many_pages(examples: Path, tmp_path: Path) -> None:
    """The last one is refused, and the others go on."""
    for server in started(tmp_path / "runs", examples / "two.json"):
        askers = [server.opened() for _ in range(BENCHES_MOST)]
        status, told = server.post("open", {"session": None})
        assert status == 503 and "pages have benches" in told["fault"]["text"]
        assert askers[0].go(3)["now"] == 3


@pytest.mark.parametrize(
    ("words", "said"),
    [
        (["two_short_yellow.json"], "plan: rule K8: .*cure: give tenths: 40 for 4.0 s"),
        (["blank.json"], "blank.json: plan: not JSON"),
        (["none.json"], "none.json: No such file"),
        (["quad.json", "tick_zero.log"], "tick_zero.log: log line 1: malformed"),
        (["quad.json", "--layout", "quad.json"], "quad.json: the layout: version"),
    ],
)
def test_what_no_panel_begins_with(
    examples: Path, tmp_path: Path, words: list[str], said: str
) -> None:
    """A plan, a log or a layout that is refused is reported, and nothing is served."""
    files = [it if it.startswith("--") else str(examples / it) for it in words]
    command = [sys.executable, "-m", "tsb", "panel", *files]
    done = subprocess.run(
        command, capture_output=True, text=True, check=False, cwd=tmp_path
    )
    assert done.returncode == 1 and done.stdout == ""
    with pytest.raises(tsb.Error, match=said):
        raise tsb.Error(done.stderr)


def test_a_day_is_scrubbed_at_once(server: Server, examples: Path) -> None:
    """A seek in a day's run takes less than 0.1 s beside the bench's own time."""
    log = tsb.Log()
    with tsb.Bench(examples / "quad.json", log, events=False) as bench:
        bench.changes(DAY)
        begun = time.monotonic()
        bench.seek(1000)
        own = time.monotonic() - begun
    asker = server.opened()
    asker.go(DAY)
    more: dict[str, Any] = {"view": {"first": 0, "last": 1200, "columns": 1200}}
    more["overview"] = 1200
    times = []
    for tick in range(800_000, 0, -40_000):
        begun = time.monotonic()
        status, found = asker.ask("go", tick=tick, **more)
        times.append(time.monotonic() - begun)
        assert status == 200 and found["state"]["now"] == tick
        assert found["state"]["end"] == DAY
    assert median(times) < own + 0.1
