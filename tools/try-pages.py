#!/usr/bin/python3
"""Opens pages that `bench page` makes in headless Chromium, walks them, and compares each step with what `bench replay` prints.

    try-pages.py [--shots FOLDER] [--random N] [--long] [SCRIPT ..]

Without a script it takes those of examples/ whose images are there, and one whose names and outputs look like HTML. It has no model of its own: what it expects
of a step is what `replay` prints of the script up to there, with questions and crashes after it, and for the cone what
`picture --cone` draws. With --random there are N random scripts too, made of the programs of examples/. With --long a run of 2,000 events
is walked, and the time of a step is printed. With --shots pictures of the pages are put into a folder, to be looked at.

It needs Debian's packages chromium, chromium-driver and python3-selenium. BENCH names the program; else it is the proved one."""
import base64
import glob
import os
import random
import re
import subprocess
import sys
import tempfile

from selenium import webdriver
from selenium.webdriver.common.by import By
from selenium.webdriver.common.keys import Keys

TOP = os.path.realpath(f"{os.path.dirname(os.path.realpath(__file__))}/..")
BENCH = os.environ.get("BENCH", f"{TOP}/crates/bench/out/bench")
FILLS = ("00", "01", "7fff", "-")
SETUP = ("program", "image", "tape")
WIDTHS = (1280, 400)

# A program whose file's name and whose outputs would be HTML, if they were not escaped.
NASTY = r'''_start:
    la   a0,name
    li   a1,20
    li   a2,2
    li   a7,4
    ecall
    la   a1,text
    li   a2,44
    li   a7,2
    ecall
    li   a0,1
    li   a7,2
    ecall
    la   a1,control
    li   a2,9
    li   a0,1
    ecall
    li   a7,1
    ecall
    .data
name: .ascii "<b>&amp;\"'`<!--]]>\\u"
text: .ascii "<!script><script>alert(1)<!script><!--<scrip"
control: .byte 27,91,51,49,109,0,0xe2,0x80,0xa8
'''
NASTY_LINES = """turn 1 100
enter 1
turn 1 100
enter 1
turn 1 100
enter 1
turn 1 100
enter 1
cut
turn 1 100
enter 1
drain
cut
"""

# What stands on the page, as the tool reads it.
READ = r"""
const all = (query, node = document) => [...node.querySelectorAll(query)];
const text = node => { const copy = node.cloneNode(true); all('.sr', copy).forEach(hidden => hidden.remove()); return copy.textContent; };
const files = k => all('.card.files tbody tr').map(row => [row.querySelector('th').textContent, row.children[k].textContent]);
return {
  line: document.querySelector('.now .line code').textContent, answer: (document.querySelector('.now .answer') || { textContent: '' }).textContent,
  number: document.querySelector('.now .n').textContent, says: document.querySelector('.says').textContent,
  shown: all('.terminal').map(node => [node.querySelector('h4').textContent.slice(9), all('.out.safe', node).map(text).join('').replace(/\n/g, '')]),
  memory: files(1), disk: files(2),
  crash: all('.card.crash details').map(node => all('tbody tr', node).map(row => [row.querySelector('th').textContent, row.querySelector('b').textContent])),
  within: all('.event.within .n').map(node => Number(node.textContent)), current: all('[aria-current]').length,
  wide: document.documentElement.scrollWidth - innerWidth, boot: (/boot (\d+)/.exec(document.querySelector('.where').textContent) || [0, '1'])[1],
  scripts: document.scripts.length,
};"""


class Room:
    """A folder for scripts and pages, removed at the end."""

    def __init__(self):
        self.folder = tempfile.TemporaryDirectory(prefix="try-pages-")

    def keep(self, name, text):
        path = f"{self.folder.name}/{name}"
        with open(path, "w", encoding="utf-8") as file:
            file.write(text)
        return path


ROOM = Room()


def bench(words, lines):
    """What the program prints of a script of these lines."""
    path = ROOM.keep("probe.script", "\n".join(lines) + "\n")
    return subprocess.run([BENCH, *words, path], capture_output=True, text=True, check=False, cwd=TOP).stdout


def script_lines(path):
    with open(path, encoding="utf-8") as file:
        return [line for line in file.read().split("\n") if line and line[0] != "#"]


def has_images(path):
    """Whether the images that a script names are there."""
    named = [line.split(" ")[2] for line in script_lines(path) if line.startswith("image ")]
    return all(os.path.exists(os.path.join(TOP, it)) for it in named)


def examples():
    """The scripts of examples/ whose images are there."""
    return [*filter(has_images, sorted(glob.glob(f"{TOP}/examples/*.script")))]


def is_setup(line):
    return line.split(" ")[0] in SETUP


def drawn(svg):
    """The rows of a picture: the line with its number, the answer, and whether the row is pale."""
    rows = re.findall(r'<text x="10" y="(\d+)"( class="dim")?>([^<]*)</text>\n<text x="24" y="\d+" class="g(?: dim)?">([^<]*)</text>', svg)
    return [(label, answer, bool(dim)) for _, dim, label, answer in sorted(rows, key=lambda row: int(row[0]))]


def files_in(printed):
    """The files that the last `files` line printed, each as its name and its length."""
    lines = printed.splitlines()
    last = max(i for i, line in enumerate(lines) if re.fullmatch(r"files \d+", line))
    return lines[last + 1:]


def shown_text(digits):
    special = {9: "\\t", 10: "\\n"}
    return "".join(chr(byte) if 32 <= byte < 127 else special.get(byte, f"\\x{byte:02x}") for byte in bytes.fromhex(digits))


def expected_step(done, boot, number, line, answer, terminals):
    shown = bench(["replay"], done + [f"shown {t}" for t in terminals]).splitlines()[-len(terminals):]
    files = lambda *more: files_in(bench(["replay"], [*done, *more, "files"]))
    return {
        "boot": boot, "n": number, "line": line, "answer": answer,
        "shown": {t: shown_text(text.split(" ")[2].replace("-", "")) for t, text in zip(terminals, shown)},
        "disk": files("crash -"), "memory": files("drain", "crash -"), "crash": {tuple(files(f"crash {fill}")) for fill in FILLS},
    }


def last_boot(lines):
    """The rows of a run since its last crash, with each call that waits: a picture with a cone has just these, and folds none. Where
    event 1 has no cone, it is not one of a process, a plain picture has them."""
    rows = drawn(bench(["picture", "--cone", "1"], lines))
    if rows:
        return rows
    rows = drawn(bench(["picture"], lines))
    crashes = [i for i, (label, _, _) in enumerate(rows) if label.startswith("crash ")]
    return rows[crashes[-1] + 1 :] if crashes else rows


def events(lines):
    """The rows of a run: those of each boot, and a row for each crash between two."""
    rows = []
    for i, line in enumerate([*lines, "crash"]):
        if line.startswith("crash"):
            rows += [*last_boot(lines[:i]), (line, "", False)]
    return rows[:-1]


def expected(lines):
    """What each step of the page has to show: the boot, and then each event and each crash."""
    setup = [line for line in lines if is_setup(line)]
    terminals = sorted({int(line.split(" ")[1]) for line in setup if not line.startswith("tape")})
    steps, done, boot = [], list(setup), 1
    for label, answer, _ in [("0  boot", "", False)] + events(lines):
        is_crash = label.startswith("crash ")
        number, line = ("0", label) if is_crash else label.split("  ", 1)
        boot += is_crash
        if line != "boot":
            done.append(line)
        step = expected_step(done, boot, int(number), line, "" if is_crash else answer, terminals)
        if line.split(" ")[0] in ("turn", "enter"):
            rows = drawn(bench(["picture", "--cone", number], done))
            step["cone"] = [int(label.split("  ")[0]) for label, _, dim in rows if not dim and not label.startswith("crash")]
        steps.append(step)
    return steps


def listing(pairs):
    """Names and lengths, as `files` prints them."""
    return [f"{name} {'0' if text.startswith('no ') else text.split(' ')[0]}" for name, text in pairs]


def on_disk(got):
    """The files on the disk, of which the page has `the same` where they are as in memory."""
    memory, disk = dict(got["memory"]), []
    for name, text in got["disk"]:
        text = memory[name] if text == "the same" else re.sub(r"^(other|not there) ?", "", text)
        if text:
            disk.append((name, text))
    return disk


def differences(got, want, has_failed):
    """What a step of the page shows otherwise than the program prints."""
    memory = [pair for pair in got["memory"] if pair[1] != "no such file"]
    pairs = [
        ("line", got["line"], want["line"]), ("answer", got["answer"], want["answer"]), ("boot", got["boot"], str(want["boot"])),
        ("number", got["number"], str(want["n"]) if want["n"] else ""), ("current rows", got["current"], 1),
        ("shown", {int(t): text for t, text in got["shown"]}, want["shown"]),
        ("disk", sorted(listing(on_disk(got))), sorted(want["disk"])),
        ("outcomes", {tuple(listing(outcome)) for outcome in got["crash"]}, want["crash"]),
    ]
    # After a failed write no drain says what programs see.
    if not has_failed:
        pairs.append(("memory", listing(memory), want["memory"]))
    found = [f"{want['boot']}/{want['n']} {what}: page {page!r}, bench {printed!r}" for what, page, printed in pairs if page != printed]
    if got["wide"] > 0:
        found.append(f"{want['n']}: the page is {got['wide']} pixels too wide")
    return found


class Page:
    """A page in the browser."""

    def __init__(self, driver, path):
        self.driver, self.url = driver, f"file://{path}"

    def open(self, address=""):
        self.driver.get("about:blank")
        self.driver.get(self.url + address)

    def read(self):
        return self.driver.execute_script(READ)

    def press(self, *keys):
        self.driver.find_element(By.TAG_NAME, "body").send_keys(*keys)

    def run(self, code):
        return self.driver.execute_script(code)

    def look(self, width, dark=False, height=900):
        metrics = {"width": width, "height": height, "deviceScaleFactor": 1, "mobile": width < 600}
        self.driver.execute_cdp_cmd("Emulation.setDeviceMetricsOverride", metrics)
        scheme = {"name": "prefers-color-scheme", "value": "dark" if dark else "light"}
        self.driver.execute_cdp_cmd("Emulation.setEmulatedMedia", {"features": [scheme]})

    def shot(self, path, full=False):
        self.run("return new Promise(done => setTimeout(done, 200))")
        data = self.driver.execute_cdp_cmd("Page.captureScreenshot", {"captureBeyondViewport": full, "format": "png"})["data"]
        with open(path, "wb") as file:
            file.write(base64.b64decode(data))


def walk_by_keys(page, steps, has_failed):
    found = []
    for width in WIDTHS:
        page.look(width)
        page.open()
        for i, want in enumerate(steps):
            if i:
                page.press(Keys.ARROW_RIGHT)
            found += differences(page.read(), want, has_failed)
    if page.read()["scripts"] != 2:
        found.append("a script came in")
    return found


def cone_faults(page, want):
    found = []
    page.press("c")
    if page.read()["within"] != want["cone"]:
        found.append(f"{want['n']} cone: page {page.read()['within']}, bench {want['cone']}")
    page.press(Keys.ESCAPE)
    if page.read()["within"]:
        found.append(f"{want['n']}: Escape leaves the cone")
    page.driver.find_element(By.CSS_SELECTOR, ".event[aria-current]").click()
    if page.read()["within"] != want["cone"]:
        found.append(f"{want['n']}: a click shows no cone")
    return found


def walk_by_address(page, steps, has_failed):
    found, many = [], steps[-1]["boot"] > 1
    page.look(1280)
    for want in steps:
        page.open(f"#b{want['boot']}e{want['n']}" if many else f"#e{want['n']}")
        found += differences(page.read(), want, has_failed)
        if "cone" in want:
            found += cone_faults(page, want)
    return found


def walk_by_slider(page, steps, has_failed):
    page.open()
    page.press(Keys.END)
    found = differences(page.read(), steps[-1], has_failed)
    page.press(Keys.HOME)
    moves = min(2, len(steps) - 1)
    page.driver.find_element(By.TAG_NAME, "input").send_keys(*[Keys.ARROW_RIGHT] * moves)
    found += differences(page.read(), steps[moves], has_failed)
    page.run("return new Promise(done => setTimeout(done, 300))")
    if steps[-1]["boot"] == 1 and page.run("return location.hash") != f"#e{moves}":
        found.append("the address does not name the event")
    return found


def access_faults(page):
    found = []
    tree = page.driver.execute_cdp_cmd("Accessibility.getFullAXTree", {})["nodes"]
    roles = [(node.get("role", {}).get("value"), node.get("name", {}).get("value")) for node in tree]
    for role, name in roles:
        if role in ("button", "slider", "region", "navigation", "link", "DisclosureTriangle") and not name:
            found.append(f"a {role} without a name")
    if not any(role == "status" for role, _ in roles):
        found.append("no live region")
    return found + [f"console: {line['message']}" for line in page.driver.get_log("browser")]


def page_of(path):
    """Makes the page of a script, and gives the page's file."""
    made = subprocess.run([BENCH, "page", path], capture_output=True, text=True, check=False, cwd=TOP)
    if made.returncode:
        sys.exit(f"{path}: {made.stderr}")
    return ROOM.keep(os.path.basename(path) + ".html", made.stdout)


def walk(driver, path):
    """Walks the page of a script, and gives what is wrong with it."""
    steps = expected(script_lines(path))
    has_failed = any(step["line"].startswith("fail ") for step in steps)
    page = Page(driver, page_of(path))
    found = walk_by_keys(page, steps, has_failed) + walk_by_address(page, steps, has_failed)
    found += walk_by_slider(page, steps, has_failed) + access_faults(page)
    print(f"{os.path.basename(path)}: {len(steps)} steps, {len(found)} faults", flush=True)
    for fault in found[:12]:
        print("  ", fault)
    return len(found)


def nasty_script():
    source = ROOM.keep("nasty.s", NASTY.replace("<!script>", "</script>"))
    image = f"{ROOM.folder.name}/nasty.image"
    subprocess.run([BENCH, "asm", source, image], check=True)
    return ROOM.keep("nasty.script", f"image 0 {image}\n{NASTY_LINES}")


def in_flight(lines):
    """The places of writes in flight after a script, by what `complete` is not refused."""
    data = subprocess.run([BENCH, "page", ROOM.keep("probe.script", "\n".join(lines) + "\n")], capture_output=True, text=True, check=True, cwd=TOP).stdout
    last = data.rsplit('"writes":[', 1)[1].split("]", 1)[0]
    return re.findall(r'"at":(\d+),[^}]*"to":0,', last)


def random_line(source, lines, processes):
    kind = source.random()
    if kind < 0.72:
        p = source.randint(1, processes)
        return source.choice((f"turn {p} {source.choice((1, 7, 1000))}", f"enter {p}", f"turn {p} 1000"))
    if kind < 0.80:
        return "cut"
    if kind < 0.96:
        places = in_flight(lines)
        return f"complete {source.choice(places)}" if places else "cut"
    if kind < 0.98:
        return "drain"
    return f"crash {source.choice(FILLS)}"


def random_script(number):
    """A script of 30 random lines over the programs of one of examples/."""
    source = random.Random(number)
    lines = [line for line in script_lines(source.choice(examples())) if is_setup(line)]
    processes = sum(not line.startswith("tape") for line in lines) + 1
    for _ in range(30):
        lines.append(random_line(source, lines, processes))
    return ROOM.keep(f"random-{number}.script", "\n".join(lines) + "\n")


def long_run(driver):
    """A run of 2,000 events, to see that the page is smooth."""
    lines = [line for line in script_lines(f"{TOP}/examples/first-run.script") if is_setup(line)]
    lines += ["turn 1 100", "enter 1"] * 3 + ["turn 2 1", "turn 1 1", "turn 2 1", "turn 1 0"] * 498 + ["cut", "drain"]
    page = Page(driver, page_of(ROOM.keep("long.script", "\n".join(lines) + "\n")))
    page.look(1280)
    page.open()
    ready = page.run("const t = performance.timing; return t.loadEventEnd - t.responseEnd")
    count = page.run("return steps.length")
    each = page.run("const t = performance.now(); for (let i = 0; i < steps.length; i += 5) { go(i); document.body.offsetHeight; } return 5 * (performance.now() - t) / steps.length")
    cone = page.run("setCone(true); const t = performance.now(); for (let i = 1000; i < 1100; i++) { go(i); document.body.offsetHeight; } return (performance.now() - t) / 100")
    print(f"{count} steps: ready in {ready} ms, {each:.1f} ms a step, {cone:.1f} ms with the cone", flush=True)


VIEWS = {"first-run": ("e6", "e10", "e11"), "pipe": ("e12",), "crash": ("b1e8", "b2e0"), "deadlock": ("e17",)}


def take_shots(driver, path, folder):
    name = os.path.basename(path).removesuffix(".script")
    page = Page(driver, page_of(path))
    for width in WIDTHS:
        for dark in (False, True):
            for view in VIEWS.get(name, ("e8",)):
                page.look(width, dark)
                page.open("#" + view)
                if view == "e12":
                    page.press("c")
                if view in ("e10", "b1e8"):
                    page.run("document.querySelectorAll('details').forEach(node => { node.open = true; })")
                if width < 600:
                    page.look(width, dark, page.run("return document.documentElement.scrollHeight"))
                page.shot(f"{folder}/{name}-{view}-{width}-{'dark' if dark else 'light'}.png")


def new_driver():
    options = webdriver.ChromeOptions()
    for word in ("--headless=new", "--no-sandbox", "--disable-gpu", "--hide-scrollbars", "--force-device-scale-factor=1"):
        options.add_argument(word)
    options.set_capability("goog:loggingPrefs", {"browser": "ALL"})
    return webdriver.Chrome(options=options)


def value_of(words, option):
    """Takes an option with its value out of the words."""
    if option not in words:
        return None
    at = words.index(option)
    value = words[at + 1]
    del words[at:at + 2]
    return value


def main(words):
    folder, count = value_of(words, "--shots"), int(value_of(words, "--random") or 0)
    is_long = "--long" in words
    scripts = [os.path.abspath(word) for word in words if word != "--long"] or [*examples(), nasty_script()]
    scripts += [random_script(number) for number in range(count)]
    driver, faults = new_driver(), 0
    try:
        for path in scripts:
            faults += walk(driver, path)
            if folder:
                take_shots(driver, path, folder)
        if is_long:
            long_run(driver)
    finally:
        driver.quit()
    print(f"{len(scripts)} pages, {faults} faults")
    return faults > 0


if __name__ == "__main__":
    sys.exit(main(sys.argv[1:]))
