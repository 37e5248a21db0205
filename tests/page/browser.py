#!/usr/bin/env python3
"""The page in a real browser, by clicks and keys, beside the command; and its pictures.

    browser.py PAGE.html TOOL QUESTIONS.json [FOLDER]     the pictures go to the folder, if one is given

Headless Chromium by Debian's chromium, chromium-driver and python3-selenium (/usr/bin/python3). The last line counts.
"""
import json
import pathlib
import random
import subprocess
import sys
import tempfile
import time

from selenium import webdriver
from selenium.webdriver.chrome.service import Service
from selenium.webdriver.common.by import By
from selenium.webdriver.common.keys import Keys
from selenium.webdriver.support.ui import Select, WebDriverWait

BASE = 1782864000  # 2026-07-01
JOURNAL = pathlib.Path(__file__).resolve().parent / "../../examples/tool/weston.journal"
counts = {"passed": 0, "failed": 0}


def check(well, what):
    counts["passed" if well else "failed"] += 1
    if not well:
        print("FAILED", what)


class Page:
    def __init__(self, path, down, size="1440,900", dark=False):
        options = webdriver.ChromeOptions()
        words = [
            "--headless=new",
            "--no-sandbox",
            "--disable-gpu",
            f"--window-size={size}",
            "--force-device-scale-factor=1",
            "--disable-dev-shm-usage",
        ]
        for word in words + (["--blink-settings=preferredColorScheme=0"] if dark else []):
            options.add_argument(word)
        options.add_experimental_option("prefs", {"download.default_directory": str(down)})
        options.set_capability("goog:loggingPrefs", {"browser": "ALL"})
        self.driver = webdriver.Chrome(service=Service("/usr/bin/chromedriver"), options=options)
        self.driver.set_script_timeout(120)
        self.down = down
        self.open(path)

    def open(self, path):
        self.driver.get(path.as_uri())
        WebDriverWait(self.driver, 60).until(
            lambda driver: driver.execute_script("return document.documentElement.dataset.ready") == "yes"
        )

    def script(self, text, *words):
        return self.driver.execute_script(text, *words)

    def one(self, css):
        return self.driver.find_element(By.CSS_SELECTOR, css)

    def all(self, css):
        return self.driver.find_elements(By.CSS_SELECTOR, css)

    def click(self, css):
        self.one(css).click()

    def press(self, css):
        """A click on what the top of the page may cover."""
        self.script(
            "const one = document.querySelector(arguments[0]); one.scrollIntoView({ block: 'center' }); one.click()",
            css,
        )

    def until(self, what, test):
        for _ in range(300):
            if test():
                return True
            time.sleep(0.03)
        check(False, "no end of waiting: " + what)
        return False

    def load(self, path):
        self.one("#file").send_keys(str(path))
        self.until(path.name, lambda: self.script("return page.name") == path.name)

    def clock(self, second):
        text = time.strftime("%Y-%m-%dT%H:%M:%S", time.gmtime(second))
        self.script(
            "const t = document.getElementById('time'); t.value = arguments[0]; t.dispatchEvent(new Event('change'));",
            text,
        )
        words = text.replace("T", " ")
        self.until(
            "the clock",
            lambda: words in (self.one("#slider").get_attribute("aria-valuetext") or "")
            and self.script("return page.clock") == second,
        )

    def saved(self, button, pattern):
        for old in self.down.glob("*"):
            old.unlink()
        self.click(button)
        self.until(pattern, lambda: list(self.down.glob(pattern)) and not list(self.down.glob("*.crdownload")))
        return next(iter(self.down.glob(pattern)), None)


def letters(permission):
    return permission["letters"].replace("-", "")


class Test:
    def __init__(self, page, tool, questions, work):
        self.page, self.tool, self.work, self.chance = page, tool, work, random.Random(7)
        files = [bytes.fromhex(text) for text in questions["files"]]
        self.files, self.tables = files, [data for data in files if len(data) in (8676, 8688)]
        self.questions = questions["questions"]
        self.resources = page.script("return page.names.resources.map((one) => one.name)")
        self.verbs = page.script("return page.names.verbs")

    def native(self, *words):
        done = subprocess.run([self.tool, "--json", *map(str, words)], capture_output=True, text=True, cwd=self.work)
        return json.loads(done.stdout)

    def sound(self):
        paths = []
        for place, data in enumerate(self.tables[:12]):
            path = self.work / f"yard{place}.tables"
            path.write_bytes(data)
            if self.native("show", path.name)["sound"]:
                paths.append(path)
        return paths

    def expected_cells(self, said):
        for line in said["senders"]:
            for name in self.resources:
                cell = line["resources"][name]
                text = (letters(cell["now"]) or "nothing") if cell["served"] else "not served"
                for key, word in (("over", "over"), ("to_come", "to come")):
                    text += f", {letters(cell[key])} {word}" if letters(cell[key]) else ""
                yield text

    def rights(self):
        """Each cell of the table, and each verb of some cells, beside the command."""
        for path in self.chance.sample(self.sound(), 3):
            self.page.load(path)
            for second in (
                BASE + self.chance.randrange(-99, 99) * 86400,
                BASE + self.chance.randrange(-99, 99) * 86400 - 1,
            ):
                self.page.clock(second)
                said = self.native("rights", path.name, "--clock", second)
                shown = self.page.script(
                    "return [...document.querySelectorAll('[role=gridcell]')].map((one) => one.getAttribute('aria-label').split(': ').pop())"
                )
                check(shown == list(self.expected_cells(said)), f"rights of {path.name} at {second}")
                lines = [line for line in said["senders"] if line["sender"]["kind"] != "asserting"]
                for _ in range(3):
                    self.cell(path, second, lines)

    def cell(self, path, second, lines):
        row, column = self.chance.randrange(len(lines)), self.chance.randrange(len(self.resources))
        self.page.click(f'[data-keep="cell-{row}-{column}"]')
        shown = self.page.script(
            "return [...document.querySelectorAll('.verbs button')].map((one) => [one.textContent, Number(one.dataset.answer)])"
        )
        number, resource = lines[row]["sender"].get("number"), self.resources[column]
        for verb in self.verbs:
            rows = verb == "DELETE" and resource in ("/oic/sec/cred", "/oic/sec/acl2")
            words = f"{verb} {resource}" + (f" as {number}" if number else "") + (" all" if rows else "")
            answer = self.native("why", path.name, "--clock", second, words)["answer"]["number"]
            check([verb, answer] in shown, f"{words} at {second}: {shown}, {answer}")

    def judged(self):
        """Judged by clicks, saved, undone."""
        for entry in [one for one in self.questions if one["question"]["ask"] == "judge" and one["code"] < 2][:4]:
            path = self.work / "copy.tables"
            path.write_bytes(self.files[entry["file"]])
            self.page.load(path)
            self.page.clock(entry["question"]["clock"])
            self.page.click("#tab-ask")
            for line in entry["question"]["lines"].split("\n"):
                self.page.script("judge(arguments[0])", line)
            changed = self.page.script("return page.past.length")
            saved = self.page.saved("#save", "copy*.tables")
            check(saved and saved.read_bytes().hex() == entry["after"], "saved after " + entry["question"]["lines"])
            check(
                not changed or self.page.script("return page.past.length") == 0, "saved, and still said to be changed"
            )
        line = "RETRIEVE /weight"
        self.page.script("page.past = []; judge('hand-in ' + arguments[0])", line)
        if self.page.script("return page.past.length"):
            before = self.page.script("return toHex(page.past[0].file)")
            self.page.click("#undo")
            check(self.page.script("return toHex(page.file)") == before, "undone")

    def office(self, path):
        self.page.script("page.past = []")
        self.page.load(path)
        office = self.page.saved("#office", "*.json")
        check(
            office and json.loads(office.read_text()) == self.native("list", "text", path.name)["list"],
            "the office's JSON",
        )
        sheet = self.page.saved("#sheet", "*.html")
        check(sheet and "<h1>Access rights of" in sheet.read_text(), "the sheet")

    def keys(self):
        page = self.page
        page.click("#tab-rights")
        page.one("#tab-rights").send_keys(Keys.ARROW_RIGHT)
        check(
            page.script("return page.tab + document.activeElement.id") == "tablestab-tables", "arrow keys of the tabs"
        )
        page.driver.switch_to.active_element.send_keys(Keys.HOME)
        check(page.script("return page.tab") == "rights", "Home of the tabs")
        page.script("page.chosen = null; draw()")
        page.one("#tab-rights").send_keys(Keys.TAB)
        check(page.script("return document.activeElement.dataset.keep") == "cell-0-0", "Tab comes to the table")
        for key in (Keys.ARROW_DOWN, Keys.ARROW_RIGHT, Keys.ARROW_RIGHT, Keys.ENTER):
            page.driver.switch_to.active_element.send_keys(key)
        check(page.script("return page.chosen?.resource") == self.resources[2], "arrow keys and Enter in the table")
        page.until("the focus stays", lambda: page.script("return document.activeElement.dataset.keep") == "cell-1-2")

    def dropped(self):
        self.page.script(
            """const t = new DataTransfer(), bytes = Uint8Array.from(arguments[0].match(/../g), (pair) => parseInt(pair, 16));
            t.items.add(new File([bytes], "dropped.tables"));
            window.dispatchEvent(new DragEvent("drop", { dataTransfer: t, bubbles: true, cancelable: true }));""",
            self.tables[1].hex(),
        )
        self.page.until("dropped", lambda: self.page.one(".what .name").text == "dropped.tables")

    def journal(self):
        """A journal that is whole, and one of which a line was changed: each line and why, beside the command."""
        text = JOURNAL.read_text()
        for name, changed in (("whole.journal", text), ("changed.journal", text.replace(" 8 0 ", " 0 6 ", 1))):
            path = self.work / name
            path.write_text(changed)
            self.page.one("#file").send_keys(str(path))
            self.page.until(name, lambda: self.page.script("return page.journal?.name") == name)
            count = self.native("journal", "check", name)["count"]
            check(
                self.page.one("[data-differences]").get_attribute("data-differences") == str(count), f"{name}: {count}"
            )
            shown = self.page.script(
                "return [...document.querySelectorAll('[data-line]')].map((one) => one.dataset.line)"
            )
            lines = [line for line in self.entries(name) if line["record"]]
            check(shown == [str(line["line"]) for line in lines], f"the lines of {name}: {shown}")
            for line in self.chance.sample(lines, 5):
                self.page.press(f'[data-line="{line["line"]}"]')
                why = self.native("journal", "why", name, line["line"])
                said = f"line {why['journal']['line']}, {why['journal']['local']}"
                check(self.page.one("#j-why").text == said, f"{name} line {line['line']}: {said}")
                if why["why"]:
                    found = self.page.one(".side .verdict").get_attribute("data-answer")
                    check(found == str(why["why"]["answer"]["number"]), f"{name} line {line['line']}: {found}")
        self.page.press("#j-changes")
        shown = self.page.script("return [...document.querySelectorAll('[data-line]')].map((one) => one.dataset.line)")
        check(
            shown == [str(line["line"]) for line in self.entries("changed.journal", "--changes")], f"changes: {shown}"
        )
        self.page.press(f'[data-line="{shown[-1]}"]')
        self.page.press("#j-open")
        check("before line " + shown[-1] in self.page.one(".what .name").text, "the tables of a moment")

    def entries(self, name, *words):
        done = subprocess.run(
            [self.tool, "--json", "journal", "show", name, *words], capture_output=True, text=True, cwd=self.work
        )
        return [json.loads(line) for line in done.stdout.splitlines()]

    def closed(self):
        """Nothing goes out, and nothing but the page's own script runs."""
        check(self.page.script("return performance.getEntriesByType('resource').length") == 0, "something was loaded")
        said = self.page.driver.execute_async_script(
            """const done = arguments[0], said = [];
            document.addEventListener("securitypolicyviolation", (event) => said.push(event.effectiveDirective));
            fetch("http://127.0.0.1:8/").catch(() => {}); const image = new Image(); image.src = "http://127.0.0.1:8/x.png";
            document.body.append(Object.assign(document.createElement("script"), { textContent: "window.bad = 1" }));
            setTimeout(() => done([said.sort(), window.bad ?? 0]), 1000);"""
        )
        check(said == [["connect-src", "img-src", "script-src-elem"], 0], f"the policy: {said}")

    def browser(self):
        self.page.click("#test")
        self.page.until("the digest", lambda: "at the release" in self.page.one("#tested").text)
        check("the same" in self.page.one("#tested").text, "the digest: " + self.page.one("#tested").text)

    def bad(self, path):
        spoilt = self.work / "spoilt.tables"
        data = bytearray(self.tables[0])
        data[-1] ^= 1
        spoilt.write_bytes(data)
        self.page.load(spoilt)
        check(any(word in self.page.one("#view").text for word in ("damaged", "not sound")), "a damaged file")
        self.page.open(path)
        cut = self.work / "cut.tables"
        cut.write_bytes(self.tables[0][:100])
        self.page.one("#file").send_keys(str(cut))
        self.page.until("a cut file", lambda: "ends at byte 100" in self.page.one("#error").text)


def pictures(page, folder):
    """Each view, as docs/PAGE.md shows it."""

    def shot(name):
        page.driver.save_screenshot(str(folder / f"page-{name}.png"))

    def settled():
        time.sleep(1.4)

    shot("start")
    page.click("#example")
    page.click('[data-keep="cell-2-6"]')
    settled()
    shot("rights")
    page.click("#tab-tables")
    shot("tables")
    page.click("#tab-ask")
    for key, value in (("verb", "UPDATE"), ("resource", "/tare"), ("sender", "7")):
        Select(page.one("#f-" + key)).select_by_value(value)
    page.click("#judge")
    page.click("#why")
    shot("ask")
    page.click("#tab-yards")
    for number, name in (("7", "north"), ("8", "south"), ("9", "south")):
        Select(page.one(f'[data-keep="y-{number}"]')).select_by_value(name)
    shot("yards")
    page.click("#tab-lists")
    page.one("#written").send_keys(
        "number=1 subject=22222222-2222-2222-2222-222222222222 permission=RU resources=/tare,/zero first=2027-07-01 last=2027-09-30\n"
        "number=5 subject=role:7@2 permission=U resources=/oic/sec/cred\n"
    )
    page.click("#try")
    shot("lists")
    page.one("#file").send_keys(str(JOURNAL.with_suffix(".names").resolve()) + "\n" + str(JOURNAL.resolve()))
    page.until("the journal", lambda: page.script("return page.tab") == "journal")
    page.press('[data-line="12"]')
    settled()
    shot("journal")
    page.click("#theme")
    page.click("#tab-rights")
    settled()
    shot("dark")


def narrow(path, folder, down):
    page = Page(path, down, size="430,900")
    page.click("#example")
    page.click('[data-keep="cell-2-6"]')
    page.script("document.querySelector('.side').scrollIntoView()")
    time.sleep(1.4)
    wide = page.script("return document.documentElement.scrollWidth - document.documentElement.clientWidth")
    check(wide <= 0, f"a phone shows {wide} pixels less than the page needs")
    if folder:
        page.driver.save_screenshot(str(folder / "page-phone.png"))
    page.driver.quit()


def main():
    path, tool, questions = (
        pathlib.Path(sys.argv[1]).resolve(),
        str(pathlib.Path(sys.argv[2]).resolve()),
        json.loads(pathlib.Path(sys.argv[3]).read_text()),
    )
    folder = pathlib.Path(sys.argv[4]).resolve() if len(sys.argv) > 4 else None
    with tempfile.TemporaryDirectory() as name:
        work = pathlib.Path(name)
        down = work / "down"
        down.mkdir()
        page = Page(path, down)
        test = Test(page, tool, questions, work)
        test.rights()
        test.judged()
        test.office(work / "yard0.tables" if test.native("show", "yard0.tables")["sound"] else test.sound()[0])
        test.keys()
        test.dropped()
        test.journal()
        test.closed()
        test.browser()
        test.bad(path)
        severe = [
            entry
            for entry in page.driver.get_log("browser")
            if entry["level"] == "SEVERE"
            and "127.0.0.1" not in entry["message"]
            and "Content Security" not in entry["message"]
        ]
        check(not severe, f"the browser's log: {severe[:2]}")
        page.open(path)
        if folder:
            pictures(page, folder)
        page.driver.quit()
        narrow(path, folder, down)
    print(f"browser: {counts['passed']} passed, {counts['failed']} failed")
    return counts["failed"] > 0


if __name__ == "__main__":
    sys.exit(main())
