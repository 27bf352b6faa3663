"""A head office with many partners: what is due to each is told apart, while subscriptions and catalogs change in the middle of what is not sent yet."""

import statements
import values
from expressions import Binary, Literal, Reference
from kinds import Conflicting
from messages import Message
from statements import COMMIT, Article, CreatePublication, Subscription

OFFICES = [f"office{place}" for place in range(1, 31)]
TREE = {"cons": None, **{office: "cons" for office in OFFICES}}
# Of the others nothing comes but what they confirm, and what is sent to them stays where it is.
PRESENT = ["cons", *OFFICES[3:7]]


class Serving(Conflicting):
    """A head office and thirty partners, four of which are there. Rows move between their partitions, and the head office runs its agent seldom."""

    def begin(self):
        """Makes the databases, and a second publication of the head office, to which some of its partners subscribe."""
        super().begin()
        self.world.script("cons", [CreatePublication("q", [Article("flag"), Article("hist", None, None, Reference(None, "txt"))])])
        for user in self.drawing.some(OFFICES, [12]):
            self.subscribe("cons", Subscription("CREATE", "q", Literal(self.drawing.partition()), user), self.drawing.chance(0.8))

    def article(self, publisher, name):
        """At the head office `cust` and `pair` are parted, and two articles leave out columns."""
        if publisher != "cons" or name not in ("cust", "pair", "hist"):
            return Article(name)
        by = {"cust": Reference(None, "rep"), "pair": Reference(None, "note"), "hist": None}[name]
        names = {"cust": ["id", "rep", "qty", "big"], "pair": None, "hist": ["n", "d"]}[name]
        where = Binary("<>", Reference(None, "id"), Literal(values.number(3))) if name == "cust" and self.drawing.chance(0.5) else None
        return Article(name, names, where, by)

    def round(self):
        """Something happens, mostly at the head office, or an agent runs."""
        publisher = "cons" if self.drawing.chance(0.75) else self.drawing.choice(PRESENT)
        share = self.drawing.random.random()
        if share < 0.42:
            self.commit(publisher)
        elif share < 0.52:
            self.move(publisher)
        elif share < 0.68:
            self.change_catalog(publisher)
        elif share < 0.76:
            self.pass_on("cons")
        elif share < 0.80:
            self.spoil()
            self.confirm()
        else:
            for each in [publisher] if self.drawing.chance(0.7) else self.drawing.shuffled(PRESENT):
                self.world.agent(each, self.options(each))
        if self.drawing.chance(0.03):
            self.world.show(publisher)
            self.world.select(publisher)

    def options(self, publisher):
        """The options of a run of the agent: at the head office the log is often begun anew."""
        options = super().options(publisher)
        return options._replace(restart=options.restart or publisher == "cons" and self.drawing.chance(0.3))

    def confirm(self):
        """Most of those who are not there confirm what they were sent, or some of it: so the head office's log may be begun anew behind that."""
        for office in OFFICES:
            book = self.databases["cons"].books.get(office)
            if office not in PRESENT and book and self.drawing.chance(0.9):
                confirm = book.log_sent if self.drawing.chance(0.8) else self.drawing.below(book.log_sent + 1)
                message = Message(office, "cons", 0, 0, 0, 0, 0, b"", confirm, 0, 0)
                self.world.put("cons", f"{office}.confirm", message.spelled())

    def move(self, publisher):
        """Many rows go from one partition to another, and a column changes that no article has."""
        column, other = self.drawing.choice([("rep", "note"), ("rep", "born"), ("rep", None)])
        if "cust" not in self.databases[publisher].catalog.tables:
            return
        sets = [(column, Literal(self.drawing.partition()))]
        if other:
            sets.append((other, Literal(values.text("Z") if other == "note" else self.drawing.date())))
        where = Binary("=", Reference(None, "rep"), Literal(self.drawing.partition())) if self.drawing.chance(0.7) else None
        script = [statements.Update("cust", sets, where), COMMIT]
        if other and self.drawing.chance(0.5):
            script += [statements.Update("cust", sets[1:], None), COMMIT]
        self.world.script(publisher, script)

    def change_catalog(self, publisher):
        """One to three statements on the catalog, each by a script of its own; at the head office often one on a partner's subscription."""
        for _ in range(self.drawing.choice([1, 1, 2, 3])):
            if publisher == "cons" and self.drawing.chance(0.4):
                self.subscribe("cons", Subscription("CREATE", "p", Literal(self.drawing.partition()), self.drawing.choice(OFFICES)), self.drawing.chance(0.9))
            else:
                statement = self.scripts.on_catalog(self.databases[publisher])
                self.world.script(publisher, [statement] if statement else [])

    def pass_on(self, publisher):
        """Statements are passed on."""
        script = self.scripts.passed_on(self.databases[publisher])
        if script:
            self.world.script(publisher, script)
