#!/usr/bin/env python3
"""Makes one HTML page of how databases and their partners stand, in a file that needs no network and no script.

Usage: examples/status.py [-o FILE] NAME ..

Of each NAME it reads what `show NAME` says, and what loop.sh has kept: NAME.lines and NAME.clashes. Without -o the page goes to the standard output. In the
environment DBREMOTE is the program, by default the launcher beside this folder; HOURS is after how long a silence stands out, 24 where it is not given; NOW is the
time in seconds since 1970.
"""

import calendar
import os
import re
import subprocess
import sys
import time
from html import escape

TOP = os.path.dirname(os.path.dirname(os.path.abspath(__file__)))
PROGRAM = os.environ.get("DBREMOTE", os.path.join(TOP, "dbremote"))
NOW = int(os.environ.get("NOW", time.time()))
LONG = 3600 * int(os.environ.get("HOURS", "24"))
FULL = 1 << 30  # how long a log's file may become
NEAR = 0.8  # of that
EVENTS = 40  # how many of the last lines of a database that tell something are shown

COLUMNS = ("log_sent", "confirm_sent", "send_count", "resend_count", "log_received", "confirm_received", "receive_count", "rereceive_count")
KEPT = re.compile(r"(\d{4}-\d\d-\d\dT\d\d:\d\d:\d\dZ) (.*)")
QUIET = re.compile(r"(from|to|status) .*|\d+ rows|committed \d+|nothing to commit|rolled back")


class Partner:
    """A partner of a database: his line of `show`, and what the kept lines tell of him. Times are seconds since 1970, or None."""

    def __init__(self, words):
        self.name, self.kind, self.address = words[1], words[2], words[4]
        self.book = dict(zip(COLUMNS, map(int, words[5:])))
        self.heard = None  # when something of his was last taken
        self.waits = None  # since when something that was put for him is not confirmed
        self.gap = None  # what the last run misses of him: the time of its first line, and how far his log is known to reach
        self.log_end = None  # where his log ends, if his database is looked at too


class Database:
    """A database: what `show` says of it, and the lines that its runs have left."""

    def __init__(self, name):
        self.name = name
        self.fault = None
        self.numbers = {}
        self.publisher = None
        self.partners = []
        self.lines = []
        self.clashes = []
        self.last_run = []
        self.read_show()
        self.read_lines()

    def read_show(self):
        """What `show` says."""
        done = subprocess.run([PROGRAM, "show", self.name], capture_output=True, text=True, errors="replace", check=False)
        lines = done.stdout.splitlines()
        if done.returncode != 0:
            self.fault = lines[-1] if lines else f"status {done.returncode}"
            return
        for words in map(str.split, lines):
            if words[0] == "user":
                self.partners.append(Partner(words))
            elif words[0] == "publisher":
                self.publisher = words[1]
            else:
                self.numbers[words[0]] = int(words[1])

    def read_lines(self):
        """The kept lines, and what they tell of the partners."""
        self.lines = kept_lines(self.name + ".lines")
        self.clashes = kept_lines(self.name + ".clashes")
        ends = [place for place, (_, line) in enumerate(self.lines) if line.startswith("status ")]
        if ends:
            self.last_run = self.lines[ends[-2] + 1 if len(ends) > 1 else 0 : ends[-1] + 1]
        for partner in self.partners:
            self.read_partner(partner)

    def read_partner(self, partner):
        """What the kept lines tell of a partner."""
        name, book = re.escape(partner.name), partner.book
        for moment, line in self.lines:
            took = re.fullmatch(rf"from {name} took (\d+) up to \d+", line)
            if took and int(took[1]):
                partner.heard = moment
            put = re.fullmatch(rf"to {name} put (\d+) up to (\d+)", line)
            if put and int(put[1]) and int(put[2]) > book["confirm_sent"] and partner.waits is None:
                partner.waits = moment
        gaps = [(moment, re.fullmatch(rf"gap {name} (\d+) (\d+)", line)) for moment, line in self.lines]
        same = [moment for moment, gap in gaps if gap and int(gap[1]) == book["log_received"]]
        for _, line in self.last_run:
            gap = re.fullmatch(rf"gap {name} (\d+) (\d+)", line)
            if gap and int(gap[1]) == book["log_received"]:
                partner.gap = same[0], int(gap[2])

    def events(self):
        """The last lines that tell something, the newest first."""
        return [(moment, line) for moment, line in self.lines if not QUIET.fullmatch(line)][: -EVENTS - 1 : -1]

    def ran(self):
        """When the last run ended, and with which status; None where no run is kept."""
        return (self.last_run[-1][0], int(self.last_run[-1][1].split()[1])) if self.last_run else None

    def share(self):
        """How much of its log's file is used."""
        return (self.numbers.get("end", 0) - self.numbers.get("base", 0)) / FULL


def kept_lines(path):
    """The lines of a file that loop.sh keeps, each behind its time."""
    if not os.path.exists(path):
        return []
    with open(path, encoding="utf-8", errors="replace") as file:
        found = [KEPT.fullmatch(line.rstrip("\n")) for line in file]
    return [(calendar.timegm(time.strptime(line[1], "%Y-%m-%dT%H:%M:%SZ")), line[2]) for line in found if line]


# ---- what somebody should look at


def span(seconds):
    """A time that has passed, in words."""
    for unit, length, least in (("day", 86400, 2), ("hour", 3600, 1), ("minute", 60, 1)):
        count = seconds // length
        if count >= least:
            return f"{count} {unit}{'s' if count != 1 else ''}"
    return "less than a minute"


def notes_of_partner(database, partner):
    """What somebody should look at of a partner."""
    if partner.log_end is not None and partner.book["log_received"] > partner.log_end:
        yield "was put back from an old copy: its log ends before what was received of it"
    if partner.waits is not None and partner.book["log_sent"] > partner.book["confirm_sent"] and NOW - partner.waits >= LONG:
        yield f"has not confirmed for {span(NOW - partner.waits)}"
    if partner.gap:
        yield f"a part of what it sent is missing, for {span(NOW - partner.gap[0])}"
    if is_silent(database, partner):
        yield f"silent for {span(NOW - partner.heard)}" if partner.heard else f"nothing came of it in the {span(NOW - database.lines[0][0])} that are kept"


def is_silent(database, partner):
    """Whether nothing of a partner was taken for long."""
    return bool(database.lines) and NOW - (partner.heard or database.lines[0][0]) >= LONG


def notes_of(database):
    """What somebody should look at of a database itself."""
    if database.fault:
        yield f"show says: {database.fault}"
        return
    if database.clashes:
        yield f"{len(database.clashes)} clash{'es' if len(database.clashes) != 1 else ''} to be mended"
    if database.share() >= NEAR:
        yield f"its log is {100 * database.share():.0f} % full"
    ran = database.ran()
    if ran is None:
        yield "no run is kept"
    elif NOW - ran[0] >= LONG:
        yield f"no run for {span(NOW - ran[0])}"
    elif ran[1] > 1:
        yield f"its last run ended with status {ran[1]}"
    amiss = [line for _, line in database.last_run if re.match(r"more$|(junk|stranger|torn) ", line)]
    if amiss:
        yield f"{len(amiss)} file{'s' if len(amiss) != 1 else ''} amiss in its folder"


# ---- the page

STYLE = """
:root { color-scheme: light dark; --page: #f4f5f7; --card: #fff; --text: #1c2430; --soft: #5c6878; --line: #dde1e7; --track: #e6e9ee; --done: #1f7a5c;
  --way: #8fc7b2; --miss: #d9822b; --bad: #b3261e; --bad-back: #fdecea; }
@media (prefers-color-scheme: dark) { :root { --page: #12161c; --card: #1b212a; --text: #e6eaf0; --soft: #9aa6b5; --line: #2d3642; --track: #2a323d;
  --done: #4cc39a; --way: #2f6f5b; --miss: #e0984f; --bad: #ff8a80; --bad-back: #3a2222; } }
* { box-sizing: border-box; }
body { margin: 0; padding: 1rem; background: var(--page); color: var(--text); font: 15px/1.45 system-ui, sans-serif; }
main { max-width: 80rem; margin: 0 auto; }
h1 { font-size: 1.4rem; margin: 0; }
h2 { font-size: 1.15rem; margin: 0; overflow-wrap: anywhere; }
h3 { font-size: 1rem; margin: 0; overflow-wrap: anywhere; }
.head { display: flex; flex-wrap: wrap; justify-content: space-between; align-items: baseline; gap: .2rem 1rem; margin-bottom: 1rem; }
.soft { color: var(--soft); font-size: .87rem; }
.num { font-variant-numeric: tabular-nums; white-space: nowrap; }
.card { background: var(--card); border: 1px solid var(--line); border-radius: 10px; padding: 1rem; margin-bottom: 1rem; }
.look { border-left: 5px solid var(--bad); }
.look ul { margin: .5rem 0 0; padding-left: 1.1rem; }
.look li { margin: .15rem 0; overflow-wrap: anywhere; }
a { color: inherit; font-weight: 600; }
.partners { display: grid; grid-template-columns: repeat(auto-fill, minmax(min(100%, 22.5rem), 1fr)); gap: .8rem; margin-top: .9rem; }
.partner { border: 1px solid var(--line); border-radius: 8px; padding: .75rem; min-width: 0; }
.partner.bad { border-color: var(--bad); background: var(--bad-back); }
.tag { font-size: .75rem; color: var(--soft); border: 1px solid var(--line); border-radius: 99px; padding: 0 .5rem; white-space: nowrap; }
.note { color: var(--bad); font-weight: 600; margin: .35rem 0 0; overflow-wrap: anywhere; }
.bar { position: relative; height: .8rem; background: var(--track); border-radius: 4px; overflow: hidden; margin: .2rem 0 .15rem; }
.bar i { position: absolute; top: 0; bottom: 0; left: 0; }
.way { background: var(--way); }
.done { background: var(--done); }
.full { background: var(--soft); }
.full.near { background: var(--bad); }
.missing { background: repeating-linear-gradient(45deg, var(--miss) 0 5px, transparent 5px 9px); }
.label { display: flex; flex-wrap: wrap; justify-content: space-between; gap: 0 .6rem; margin-top: .55rem; font-size: .85rem; }
.label .soft { font-size: .82rem; }
.keys { display: flex; flex-wrap: wrap; gap: .2rem 1rem; margin: 0 0 1rem; }
.keys b { display: inline-block; width: .9rem; height: .7rem; border-radius: 2px; margin-right: .35rem; }
.events { list-style: none; margin: .6rem 0 0; padding: 0; }
.events li { display: grid; grid-template-columns: 8.6rem 1fr; gap: .6rem; padding: .2rem 0; border-top: 1px solid var(--line); }
.events code { font: 13px/1.45 ui-monospace, monospace; overflow-wrap: anywhere; }
.events .clash { color: var(--bad); font-weight: 600; }
summary { cursor: pointer; font-weight: 600; margin-top: .9rem; }
@media (max-width: 30rem) { body { padding: .6rem; } .events li { grid-template-columns: 1fr; gap: 0; } }
"""


def clock(moment):
    """A moment as it is read."""
    return time.strftime("%Y-%m-%d %H:%M", time.gmtime(moment))


def number(count):
    """A number with its thousands apart."""
    return f"{count:,}"


def bar(whole, parts):
    """A bar of a whole: parts each from and to a place of it, in order; a later one lies over those before."""
    drawn = "".join(
        f'<i class="{kind}" style="left:{100 * start / whole:.3f}%;width:{100 * max(0, end - start) / whole:.3f}%"></i>' for start, end, kind in parts
    )
    return f'<div class="bar">{drawn}</div>'


def label(what, told):
    """What stands over a bar."""
    return f'<div class="label"><span>{escape(what)}</span><span class="soft num">{escape(told)}</span></div>'


def sent_bar(database, book):
    """What was sent of this log, and confirmed, over the log."""
    base, end = database.numbers["base"], database.numbers["end"]
    whole = max(1, end - base)
    sent, confirmed = (min(max(book[column] - base, 0), whole) for column in ("log_sent", "confirm_sent"))
    told = f"confirmed {number(book['confirm_sent'])}, sent {number(book['log_sent'])} of {number(end)}"
    return label("Sent to it", told) + bar(whole, [(0, sent, "way"), (0, confirmed, "done")])


def received_bar(partner):
    """What was received of a partner's log, over as much of it as is known."""
    received = partner.book["log_received"]
    reaches = max(partner.gap[1] if partner.gap else 0, partner.log_end or 0, received)
    parts = [(0, received, "done")]
    told = f"{number(received)} of {number(reaches)}" if reaches > received else number(received)
    if partner.gap:
        parts.append((received, partner.gap[1], "missing"))
        told = f"{number(received)}, missing up to {number(partner.gap[1])}"
    return label("Received from it", told) + bar(max(1, reaches), parts)


def waiting(partner):
    """What waits for a partner's confirm, and for how long."""
    rest = partner.book["log_sent"] - partner.book["confirm_sent"]
    if rest <= 0:
        return "nothing waits for its confirm"
    since = f" for {span(NOW - partner.waits)}" if partner.waits is not None else ""
    return f"{number(rest)} bytes of the log wait for its confirm{since}"


def partner_part(database, partner):
    """The part of a partner."""
    notes = list(notes_of_partner(database, partner))
    kind = "above" if partner.kind == "consolidated" else "below"
    heard = f"last taken {span(NOW - partner.heard)} ago" if partner.heard else "nothing taken in the kept lines"
    book = partner.book
    return "".join(
        [
            f'<div class="partner{" bad" if notes else ""}"><div class="head" style="margin:0"><h3>{escape(partner.name)}</h3><span class="tag">{kind}</span></div>',
            *(f'<p class="note">&#9888; {escape(note)}</p>' for note in notes),
            sent_bar(database, book),
            received_bar(partner),
            f'<div class="soft" style="margin-top:.45rem">{escape(waiting(partner))}; {escape(heard)}. '
            f"{number(book['send_count'])} messages sent, {number(book['receive_count'])} transactions taken; "
            f"asks for a resend: {number(book['rereceive_count'])} from here, {number(book['resend_count'])} from there.</div></div>",
        ]
    )


def events_part(title, events, is_open):
    """A list of lines with their times."""
    if not events:
        return ""
    items = "".join(
        f'<li><span class="soft num">{clock(moment)}</span><code class="{"clash" if line.startswith("clash ") else ""}">{escape(line)}</code></li>'
        for moment, line in events
    )
    return f'<details{" open" if is_open else ""}><summary>{escape(title)}</summary><ul class="events">{items}</ul></details>'


def database_part(place, database):
    """The part of a database."""
    notes = list(notes_of(database))
    name = escape(database.name)
    told = "".join(f'<p class="note">&#9888; {escape(note)}</p>' for note in notes)
    if database.fault:
        return f'<section class="card" id="d{place}"><h2>{name}</h2>{told}</section>'
    ran = database.ran()
    run = f"last run {span(NOW - ran[0])} ago, status {ran[1]}" if ran else "no run kept"
    share = database.share()
    used = database.numbers["end"] - database.numbers["base"]
    full = label("Log", f"{number(used)} of {number(FULL)} bytes, {100 * share:.1f} %") + bar(1, [(0, min(share, 1), "full near" if share >= NEAR else "full")])
    return "".join(
        [
            f'<section class="card" id="d{place}"><div class="head" style="margin:0"><h2>{name}</h2>',
            f'<span class="soft">publisher {escape(database.publisher)} &middot; {number(database.numbers["rows"])} rows &middot; {escape(run)}</span></div>',
            told,
            full,
            '<div class="partners">' + "".join(partner_part(database, partner) for partner in database.partners) + "</div>",
            events_part("Clashes to be mended", database.clashes[::-1], True),
            events_part("What the last runs told", database.events(), len(database.events()) <= 12),
            "</section>",
        ]
    )


def look_part(databases):
    """What somebody should look at, of all databases."""
    items = []
    for place, database in enumerate(databases):
        link = f'<a href="#d{place}">{escape(database.name)}</a>'
        items += [f"<li>{link}: {escape(note)}</li>" for note in notes_of(database)]
        items += [f"<li>{link}, {escape(partner.name)}: {escape(note)}</li>" for partner in database.partners for note in notes_of_partner(database, partner)]
    if not items:
        return '<section class="card"><h2>Nothing to look at</h2></section>'
    return f'<section class="card look"><h2>To look at</h2><ul>{"".join(items)}</ul></section>'


KEYS = """<p class="keys soft"><span><b class="done"></b>confirmed, or received</span><span><b class="way"></b>sent, not confirmed</span>
<span><b class="missing"></b>missing</span></p>"""


def page(databases):
    """The whole page. No script, style or picture from elsewhere may run in it."""
    parts = "".join(database_part(place, database) for place, database in enumerate(databases))
    return f"""<!doctype html>
<html lang="en"><head><meta charset="utf-8"><meta name="viewport" content="width=device-width, initial-scale=1">
<meta http-equiv="Content-Security-Policy" content="default-src 'none'; style-src 'unsafe-inline'">
<title>Replication</title><style>{STYLE}</style></head>
<body><main><div class="head"><h1>Replication</h1><span class="soft num">{clock(NOW)} UTC</span></div>
{look_part(databases)}
{KEYS}
{parts}
</main></body></html>
"""


def main(arguments):
    """Makes the page; answers the exit status, 1 where there is something to look at."""
    to = None
    if len(arguments) > 1 and arguments[0] == "-o":
        to, arguments = arguments[1], arguments[2:]
    if not arguments:
        print(__doc__.split("\n\n")[1], file=sys.stderr)
        return 2
    databases = [Database(name) for name in arguments]
    # a log's end is read behind what its partners have received of it
    ends = {database.publisher: database.numbers["end"] for database in map(Database, arguments) if not database.fault}
    for database in databases:
        for partner in database.partners:
            partner.log_end = ends.get(partner.name)
    made = page(databases)
    if to:
        with open(to, "w", encoding="utf-8") as file:
            file.write(made)
    else:
        sys.stdout.write(made)
    return int(any(list(notes_of(database)) or any(list(notes_of_partner(database, partner)) for partner in database.partners) for database in databases))


if __name__ == "__main__":
    sys.exit(main(sys.argv[1:]))
