"""Looks at the page that examples/status.py makes. status.sh says what for.

A head office and three offices run for some days by a clock of their own: `date` is a file of this folder. The north is well; of the south nothing comes for
days, and it confirms nothing; a file of the east is lost, and it clashes once.
"""

import html
import html.parser
import os
import re
import shutil
import subprocess
import sys
import tempfile
import time

TOP = os.path.dirname(os.path.dirname(os.path.abspath(__file__)))
BEGIN = 1_750_000_000
HOUR = 3600
FORGED = "<img src=x onerror=alert(1)>"
TABLES = "CREATE TABLE item (id INTEGER PRIMARY KEY, name VARCHAR(20)); CREATE TABLE beat (office VARCHAR(8) PRIMARY KEY, up INTEGER, down INTEGER);"
OFFICES = ("north", "south", "east")
# tags that the page may have, and those that need no end
TAGS = "html head meta title style body main div h1 h2 h3 span section ul li a p b i details summary code".split()
ALONE = ("meta",)
WIDTHS = (360, 768, 1280)


class World:
    """The folder of the databases, and the time there."""

    def __init__(self, program, folder):
        self.folder = folder
        self.now = BEGIN
        words = os.path.join(folder, "words")
        os.mkdir(words)
        with open(os.path.join(words, "date"), "w", encoding="utf-8") as file:
            file.write("#!/bin/sh\ncat now\n")
        os.chmod(os.path.join(words, "date"), 0o755)
        self.environment = {**os.environ, "DBREMOTE": program, "PATH": words + os.pathsep + os.environ["PATH"]}

    def run(self, words, script=""):
        """What a command prints."""
        with open(os.path.join(self.folder, "now"), "w", encoding="utf-8") as file:
            file.write(time.strftime("%Y-%m-%dT%H:%M:%SZ\n", time.gmtime(self.now)))
        environment = {**self.environment, "NOW": str(self.now)}
        return subprocess.run(words, cwd=self.folder, env=environment, input=script, capture_output=True, text=True, check=False).stdout

    def program(self, words, script=""):
        """What a run of the program prints."""
        return self.run([self.environment["DBREMOTE"], *words], script)

    def loop(self, *names):
        """One run of each by the timer's script."""
        for name in names:
            self.run([os.path.join(TOP, "examples", "loop.sh"), name, "box"])

    def office(self, name, database):
        """Opens an office."""
        script = TABLES + "GRANT CONSOLIDATE TO hq; CREATE PUBLICATION p (TABLE item, TABLE beat); CREATE SUBSCRIPTION TO p FOR hq; START SUBSCRIPTION TO p FOR hq;"
        self.program(["init", database, name])
        self.program(["sql", database], script)
        grants = f"GRANT REMOTE TO {name}; CREATE SUBSCRIPTION TO p ('{name}') FOR {name}; START SUBSCRIPTION TO p ('{name}') FOR {name};"
        self.program(["sql", "hq"], f"{grants} INSERT INTO beat VALUES ('{name}', 0, 0); COMMIT;")

    def lose(self, address):
        """Loses the files of a folder."""
        shutil.rmtree(os.path.join(self.folder, "box", address))

    def live(self):
        """Some days."""
        self.program(["init", "hq", "hq"])
        self.program(["sql", "hq"], TABLES + "CREATE PUBLICATION p (TABLE item, TABLE beat SUBSCRIBE BY office);")
        for name in OFFICES:
            self.office(name, name)
            self.beat(name, "up")
        self.beat("hq", "down")
        for _ in range(4):
            self.loop("hq", *OFFICES)
            self.now += 12 * HOUR
        self.program(["sql", "hq"], "INSERT INTO item VALUES (1, 'lamp'), (2, 'chair'); COMMIT;")
        self.program(["sql", "east"], "INSERT INTO item VALUES (2, 'desk'); COMMIT;")
        for _ in range(3):
            self.loop("hq", "north", "east")
            self.now += 12 * HOUR
            for name in ("hq", "north"):
                self.program(["sql", name], f"UPDATE item SET name = '{name} lamp' WHERE id = 1; COMMIT;")
        self.loop("hq", "north", "east", "hq")
        self.program(["sql", "east"], "INSERT INTO item VALUES (9, 'shelf'); COMMIT;")
        self.loop("east")
        self.lose("hq")
        self.loop("east", "hq")
        self.now += HOUR

    def beat(self, name, column):
        """The heartbeat of a database."""
        with open(os.path.join(self.folder, f"{name}.before.sql"), "w", encoding="utf-8") as file:
            file.write(f"UPDATE beat SET {column} = {column} + 1; COMMIT;\n")

    def page(self, *names):
        """The page of these databases, in a file there; answers its path."""
        self.run([sys.executable, "-B", os.path.join(TOP, "examples", "status.py"), "-o", "page.html", *names])
        return os.path.join(self.folder, "page.html")


class Reader(html.parser.HTMLParser):
    """The tags and the text of a page."""

    def __init__(self):
        super().__init__()
        self.open = []
        self.text = []
        self.faults = []

    def handle_starttag(self, tag, attrs):
        if tag not in TAGS:
            self.faults.append(f"a tag {tag}")
        if any(name.startswith("on") or name in ("src", "srcset") or name == "href" and not value.startswith("#d") for name, value in attrs):
            self.faults.append(f"attributes {attrs}")
        if tag not in ALONE:
            self.open.append(tag)

    def handle_endtag(self, tag):
        if not self.open or self.open.pop() != tag:
            self.faults.append(f"an end of {tag}")

    def handle_data(self, data):
        self.text.append(data)


def read(path):
    """The text of a file."""
    with open(path, encoding="utf-8") as file:
        return file.read()


def faults_of(made, wanted, unwanted=()):
    """What of a page is not as it is to be: its tags, and the texts that are to stand in it and not to."""
    reader = Reader()
    reader.feed(made)
    text = re.sub(r"\s+", " ", " ".join(reader.text))
    yield from reader.faults
    if reader.open:
        yield f"open at its end: {reader.open}"
    for words in wanted:
        if words not in text:
            yield f"it lacks: {words}"
    for words in unwanted:
        if words in text:
            yield f"it has: {words}"


def headless(browser):
    """The words by which a browser runs without a screen."""
    return [browser, "--headless", "--no-sandbox", "--disable-gpu", "--hide-scrollbars", "--no-first-run", "--disable-background-networking", "--disable-extensions"]


def faults_in_browser(browser, path):
    """What is not as it is to be in a browser, on a phone, on a tablet and on a desk: each shows the page in a frame of its width."""
    frames = "".join(f'<iframe style="width:{width}px;height:900px" srcdoc="{html.escape(read(path))}"></iframe>' for width in WIDTHS)
    look = """<script>onload = () => { document.title = [...document.querySelectorAll('iframe')].map(frame => { const seen = frame.contentDocument;
const bars = [...seen.querySelectorAll('.bar i')].filter(bar => bar.getBoundingClientRect().width > 0 && bar.getBoundingClientRect().height > 5);
const alien = seen.querySelectorAll('script, img, iframe, object, link, [onerror]').length;
return [frame.clientWidth, seen.documentElement.scrollWidth, alien, bars.length].join(' '); }).join(';'); };</script>"""
    copy = path.replace(".html", ".frames.html")
    with open(copy, "w", encoding="utf-8") as file:
        file.write(f"<!doctype html><meta charset=utf-8><title></title>{frames}{look}")
    done = subprocess.run([*headless(browser), "--dump-dom", "file://" + copy], capture_output=True, text=True, timeout=240, check=False)
    found = re.search(r"<title>([^<]*)</title>", done.stdout)
    seen = [tuple(map(int, frame.split())) for frame in found[1].split(";")] if found and found[1] else []
    if len(seen) != len(WIDTHS):
        yield f"the browser shows nothing: {done.stdout[:200]}"
    for width, wide, alien, bars in seen:
        if wide > width:
            yield f"it is {wide} wide in {width}"
        if alien:
            yield f"it has {alien} scripts, pictures or frames"
        if bars < 8:
            yield f"{bars} bars can be seen in {width}"


def picture(browser, path, to):
    """A picture of a page."""
    subprocess.run([*headless(browser), "--window-size=1240,1000", f"--screenshot={to}", "file://" + path], capture_output=True, timeout=240, check=True)


def looked_at(world, browser, to):
    """What of the pages is not as it is to be."""
    world.live()
    path = world.page("hq", "north")
    wanted = ["hq , south: has not confirmed for 37 hours", "hq , south: silent for 37 hours", "hq , east: a part of what it sent is missing, for 1 hour", "hq : 1 clash to be mended"]
    wanted += ["Clashes to be mended", "clash east ", " Duplicate", "gap east ", "conflict north ", "last run 1 hour ago, status 1", "publisher north"]
    yield from faults_of(read(path), wanted, ["hq , north", "north :"])
    if to:
        picture(browser, path, to)
    if browser:
        yield from faults_in_browser(browser, path)
    with open(os.path.join(world.folder, "box", "hq", FORGED), "w", encoding="utf-8") as file:
        file.write("no message")
    forged = "<b>west"
    world.office("west", forged)
    world.loop("hq", forged)
    path = world.page("hq", forged, "<i>nowhere")
    yield from faults_of(read(path), ["junk " + FORGED, forged, "<i>nowhere", "show says: database missing", "1 file amiss in its folder"])
    if browser:
        yield from faults_in_browser(browser, path)
    # an office that is put back from a copy, and one of which nothing was ever heard
    copies = ["root", "log0", "log1", "snap0", "snap1"]
    for end in copies:
        shutil.copy(os.path.join(world.folder, "north." + end), os.path.join(world.folder, "old." + end))
    world.loop("north", "hq")
    for end in copies:
        shutil.copy(os.path.join(world.folder, "old." + end), os.path.join(world.folder, "north." + end))
    world.now += 30 * HOUR
    path = world.page("hq", "north")
    yield from faults_of(read(path), ["hq , north: was put back from an old copy", "hq : no run for 30 hours"])


def main(arguments):
    """Looks at the page, and answers the exit status."""
    if len(arguments) not in (2, 3):
        print("usage: cases/status.sh PROGRAM [PICTURE]")
        return 2
    browser = shutil.which("chromium") or shutil.which("chromium-browser") or shutil.which("google-chrome")
    if not browser:
        print("status: it is not looked at in a browser, for there is no chromium")
    with tempfile.TemporaryDirectory() as folder:
        world = World(os.path.abspath(arguments[1]), folder)
        faults = list(looked_at(world, browser, os.path.abspath(arguments[2]) if len(arguments) == 3 else None))
    for fault in faults:
        print(f"status: {fault}")
    print(f"status: {len(faults)} faults")
    return 1 if faults else 0


sys.exit(main(sys.argv))
