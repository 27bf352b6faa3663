"""The demonstration, by the rules alone: four databases, statements that are drawn, agents, lost messages, and what it prints of them.

A draw sets x to x * 6364136223846793005 + 1442695040888963407 modulo 2^64, from the seed on, and gives x / 2^33. For each i below the count three draws a, b
and c make a statement with its COMMIT, at the database number d = a mod 4 (0 is cons, N is rN). With k = c mod (4i + 4) and u = 1 + c mod 3 it is, by b mod 4:
0 or 1 a new row (4i + d, R, 0), where R is `ru` at cons and the database's own name below; 2 qty + 1 in the row k; 3 rep = `ru` in the row k at cons, and
DELETE of the row k below. A block has 100 statements, the last one what is left. In a block each database runs its statements as one script, and then each its
agent with messages of 10,000 bytes, cons first, which begins its log anew in each tenth block; that changes no line. For each message that a run put, a draw is
made behind it, and it is lost where that is 0 modulo 8.
At the end cons gets a row for each office, and each office one of its own, and the agents run four times more, with no loss.
"""

import logs
from agent import Agent, Options
from database import Database
from expressions import Binary, Literal, Reference
from operations import Clash, Conflict
from scripts import INTEGER
from sessions import Session
from statements import COMMIT, Article, Assign, CreatePublication, CreateTable, CreateTrigger, Delete, Grant, Insert, Subscription, Update
from values import Column, Type, number, text
from views import seen

OFFICES = ["cons", "r1", "r2", "r3"]
REMOTE = OFFICES[1:]
BLOCK = 100
# in each block with a number that this divides cons begins its log anew
RESTARTS = 10
CUST = CreateTable("cust", [Column("id", INTEGER, True), Column("rep", Type("VARCHAR", 8), False), Column("qty", INTEGER, False)], ["id"])


class Counted(Database):
    """A database with what became of all that it took, and the keys that its own transactions name."""

    def __init__(self, publisher, known):
        super().__init__(publisher, known)
        self.conflicts = self.clashes = 0
        self.named = set()

    def commit(self, entry):
        """Commits an entry, and counts it."""
        if isinstance(entry, logs.Own):
            self.named.update((before or behind)[0] for _, before, behind in entry.changes)
        if isinstance(entry, logs.Taken):
            outcomes = [outcome for _, outcome, _ in entry.judged]
            self.conflicts += sum(isinstance(outcome, Conflict) for outcome in outcomes)
            self.clashes += sum(isinstance(outcome, Clash) for outcome in outcomes)
        return super().commit(entry)


def added(place, office):
    """A new row."""
    return Insert("cust", None, [[Literal(number(place)), Literal(text(office)), Literal(number(0))]])


def on_row(place):
    """The condition of a row."""
    return Binary("=", Reference(None, "id"), Literal(number(place)))


def drawn(i, a, b, c):
    """The database of the statement with this number, and the statement."""
    office = OFFICES[a % 4]
    place, representative = c % (4 * i + 4), OFFICES[1 + c % 3]
    if b % 4 < 2:
        return office, added(4 * i + a % 4, office if a % 4 else representative)
    if b % 4 == 2:
        return office, Update("cust", [("qty", Binary("+", Reference(None, "qty"), Literal(number(1))))], on_row(place))
    if office == "cons":
        return office, Update("cust", [("rep", Literal(text(representative)))], on_row(place))
    return office, Delete("cust", on_row(place))


class Demonstration:
    """The databases, the files between them, and the counts so far."""

    def __init__(self, seed):
        self.state = seed
        self.mail = {}
        self.put = self.lost = 0
        known = {}
        self.offices = {name: Counted(name, known) for name in OFFICES}

    def draw(self):
        """The next number that is drawn."""
        self.state = (self.state * 6364136223846793005 + 1442695040888963407) % 2**64
        return self.state >> 33

    def script(self, office, statements):
        """Runs a script, of which nothing is refused."""
        lines, status = Session(self.offices[office]).run(statements)
        if status != 0:
            raise AssertionError(lines)

    def begin(self):
        """The first script of each database."""
        subscriptions = [Subscription(verb, "p", Literal(text(user)), user) for verb in ("CREATE", "START") for user in REMOTE]
        rest = Binary("-", Binary("+", Reference("o", "qty"), Reference("n", "qty")), Reference("r", "qty"))
        rows = [("OLD", "o"), ("NEW", "n"), ("REMOTE", "r")]
        published = CreatePublication("p", [Article("cust", by=Reference(None, "rep"))])
        fix = CreateTrigger("fix", ["qty"], "cust", rows, [], [Assign("n", "qty", rest)])
        self.script("cons", [CUST, published, *(Grant(False, user) for user in REMOTE), *subscriptions, fix])
        for office in REMOTE:
            above = [Subscription(verb, "p", None, "cons") for verb in ("CREATE", "START")]
            self.script(office, [CUST, Grant(True, "cons"), CreatePublication("p", [Article("cust")]), *above])

    def agents(self, loses, restarts):
        """A run of the agent of each; some of the messages that it put are lost. `restarts` says whether cons begins its log anew."""
        for office in OFFICES:
            before = {(user, name) for user, files in self.mail.items() for name in files}
            Agent(self.offices[office], self.mail, Options(length=10_000, restart=restarts and office == "cons")).run()
            for user in self.offices[office].catalog.users:
                for name in sorted(name for name in self.mail.get(user, {}) if (user, name) not in before):
                    self.put += 1
                    if loses and self.draw() % 8 == 0:
                        self.lost += 1
                        del self.mail[user][name]

    def block(self, numbers):
        """A block of statements. Blocks are counted from 1."""
        scripts = {office: [] for office in OFFICES}
        for i in numbers:
            office, statement = drawn(i, self.draw(), self.draw(), self.draw())
            scripts[office] += [statement, COMMIT]
        for office, script in scripts.items():
            self.script(office, script)
        self.agents(True, (numbers.start // BLOCK + 1) % RESTARTS == 0)

    def close(self):
        """The last rows, and four rounds without loss."""
        self.script("cons", [step for place, office in enumerate(REMOTE, 1) for step in (added(-place, office), COMMIT)])
        for place, office in enumerate(REMOTE, 1):
            self.script(office, [added(-3 - place, office), COMMIT])
        for _ in range(4):
            self.agents(False, False)

    def differing(self, office):
        """At how many keys that an office did not name itself its row is not what cons shows it."""
        above = self.offices["cons"]
        views = [seen(above.catalog, office, "cust", row) for _, row in above.rows.items("cust")]
        shown = {columns[0][1]: [value for _, value in columns] for columns in views if columns}
        held = {row[0]: list(row) for _, row in self.offices[office].rows.items("cust")}
        own = self.offices[office].named
        return sum(key not in own and shown.get(key) != held.get(key) for key in {*shown, *held})


def lines_of(seed, count):
    """The five lines."""
    demo = Demonstration(seed)
    demo.begin()
    for first in range(0, count, BLOCK):
        demo.block(range(first, min(first + BLOCK, count)))
    demo.close()
    offices = demo.offices.values()
    return [
        f"statements {count}",
        f"messages {demo.put} lost {demo.lost}",
        "rows " + " ".join(str(office.rows.count()) for office in offices),
        f"conflicts {sum(office.conflicts for office in offices)} clashes {sum(office.clashes for office in offices)}",
        f"differ {sum(map(demo.differing, REMOTE))}",
    ]
