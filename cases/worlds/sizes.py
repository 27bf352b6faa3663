"""Fixed worlds at sizes that drawn ones never reach, each just past a round number: messages of a pass, partners with a letter each, operations of a
transaction, bytes of a text that is passed on, bytes of a value, and bytes of a snapshot."""

import values
from agent import Options
from drawing import Drawing
from expressions import Binary, Literal, Reference
from messages import Message, transaction
from operations import Insert as Inserted
from scripts import INTEGER
from statements import COMMIT, PASSTHROUGH_STOP, Add, Article, Assign, CreatePublication, CreateTable, CreateTrigger, Grant, Insert, Passthrough, Subscription, Update
from values import Column, Type
from world import Difference, World

SHORT = Options(length=10_000)
WHOLE = Options()
ANEW = Options(restart=True)
# the longest text of a VARCHAR
LONGEST = 32_767


def number(content):
    """A literal."""
    return Literal(values.number(content))


def text(content):
    """A literal."""
    return Literal(values.text(content))


def column(name):
    """A column of the row."""
    return Reference(None, name)


def plus(expression, content):
    """An expression with a number added."""
    return Binary("+", expression, number(content))


def at(name, content):
    """A condition that a column is a literal."""
    return Binary("=", column(name), content)


STOCK = CreateTable("stock", [Column("id", INTEGER, True), Column("qty", INTEGER, False), Column("price", INTEGER, False)], ["id"])
SOLD = CreateTable("sold", [Column("id", INTEGER, True), Column("qty", INTEGER, False)], ["id"])
DOC = CreateTable("doc", [Column("id", Type("VARCHAR", LONGEST), True), Column("body", Type("VARCHAR", LONGEST), False)], ["id"])


def world_of(program, folder, partners, tables):
    """A database `cons` and those below it, all with these tables, which each publishes whole to the others."""
    world = World(program, folder, Drawing(1), ["cons", *partners])
    world.begin()
    publish(world, "cons", tables, [Grant(False, user) for user in partners])
    for user in partners:
        publish(world, user, tables, [Grant(True, "cons")])
    return world


def publish(world, publisher, tables, grants):
    """The tables, the partners and a started subscription of each to all tables."""
    script = [*tables, *grants, CreatePublication("p", [Article(table.name) for table in tables])]
    for verb in ("CREATE", "START"):
        script += [Subscription(verb, "p", None, grant.name) for grant in grants]
    world.script(publisher, script)


def exchange(world, *publishers, options=WHOLE):
    """A run of the agent of each."""
    for publisher in publishers:
        world.agent(publisher, options)


def wanted(what, count, found):
    """Sees that a world came to the size that it is there for."""
    if found != count:
        raise Difference(f"{found} {what}, where the rules give {count}")


def a_pass_of_131_messages(program, folder):
    """A message for each of 131 transactions. The 101st is lost, and is asked for with those behind it."""
    world = world_of(program, folder, ["r1"], [DOC])
    script = []
    for place in range(131):
        script += [Insert("doc", None, [[text(f"{place}"), text(chr(97 + place % 26) * 9_800)]]), COMMIT]
    world.script("cons", script)
    world.agent("cons", SHORT)
    wanted("messages", 131, len(world.mail["r1"]))
    world.remove("r1", f"cons.{101:016x}")
    exchange(world, "r1", "cons", "r1", "cons", options=SHORT)
    world.select("r1")
    return world


def letters_of_137_partners(program, folder):
    """A letter of each of 137 partners, who were granted in another order than that of their names; each is sent what the others sent."""
    world = World(program, folder, Drawing(2), ["cons"])
    world.begin()
    users = world.drawing.shuffled([f"office{place}" for place in range(1, 138)])
    publish(world, "cons", [STOCK], [Grant(False, user) for user in users])
    for place, user in enumerate(users):
        row = [("id", values.number(place)), ("qty", values.number(place * place)), ("price", values.number(1))]
        upto = 1_000 + place
        body = transaction(upto, [Inserted("stock", row)])
        world.put("cons", f"{user}.0000000000000001", Message(user, "cons", 0, 0, upto, len(body), 0, body, 0, 0, 0).spelled())
    exchange(world, "cons")
    wanted("rows", 137, world.databases["cons"].rows.count())
    wanted("partners that are sent something", 137, len(world.mail) - 1)
    exchange(world, "cons")
    world.show("cons")
    world.select("cons")
    return world


def a_transaction_of_1031_operations(program, folder):
    """Rows, and then two columns of each, which have both been changed above too: so many conflicts, which a trigger adds up, and puts a row for each."""
    world = world_of(program, folder, ["r1"], [STOCK, SOLD])
    rest = Binary("-", Binary("+", Reference("o", "qty"), Reference("n", "qty")), Reference("r", "qty"))
    actions = [Assign("n", "qty", rest), Assign("n", "price", Reference("o", "price")), Add("sold", None, [Reference("n", "id"), Reference("n", "qty")])]
    rows = [("OLD", "o"), ("NEW", "n"), ("REMOTE", "r")]
    world.script("cons", [CreateTrigger("add_up", ["qty"], "stock", rows, [], actions)])
    world.script("r1", [Insert("stock", None, [[number(place), number(10), number(2 * place)] for place in range(1_031)]), COMMIT])
    exchange(world, "r1", "cons", "r1")
    for publisher, sold in (("cons", -2), ("r1", -3)):
        sets = [("qty", plus(column("qty"), sold)), ("price", plus(column("price"), sold))]
        world.script(publisher, [Update("stock", sets, None), COMMIT])
    exchange(world, "r1", "cons", "r1", "cons")
    for publisher in ("cons", "r1"):
        table = world.databases[publisher].rows
        wanted("rows that say how much both sold", 1_031, sum(row[1] == values.number(5) for _, row in table.items("stock")))
        wanted("rows that the trigger put", 1_031, sum(row[1] == values.number(5) for _, row in table.items("sold")))
        world.select(publisher)
    return world


def long_texts_are_passed_on(program, folder):
    """Statements of more than 1,000 bytes and of 32,000, to one, two and three users, for them alone or run here too, which gives the others the row."""
    users = ["r1", "r2", "r3"]
    world = world_of(program, folder, users, [DOC])
    for count in (1, 2, 3):
        for only in (False, True):
            for length in (1_009, LONGEST):
                key = text(f"{count}{only}{length}")
                world.script("cons", [Passthrough(only, users[:count]), Insert("doc", None, [[key, text("p" * length)]]), PASSTHROUGH_STOP])
    columns = [Column(f"a_column_with_a_long_name_{place:04}", INTEGER, place == 0) for place in range(37)]
    world.script("cons", [Passthrough(False, users), CreateTable("wide", columns, [columns[0].name]), PASSTHROUGH_STOP])
    exchange(world, "cons", *users, "cons")
    for user, count in zip(users, (12, 10, 8)):
        wanted("rows that were passed on", count, world.databases[user].rows.count())
        world.select(user)
    return world


def texts_of_32767_bytes(program, folder):
    """Values and keys of the greatest length are put, changed on both sides, and change their keys, over messages of 10,000 bytes."""
    world = world_of(program, folder, ["r1"], [DOC])
    world.script("cons", [Insert("doc", None, [[text(letter * LONGEST), text("x" * LONGEST)] for letter in "abc"]), COMMIT])
    exchange(world, "cons", "r1", options=SHORT)
    world.script("cons", [Update("doc", [("body", text("y" * LONGEST))], at("id", text("a" * LONGEST))), COMMIT])
    world.script("r1", [Update("doc", [("body", text("z" * LONGEST))], at("id", text("a" * LONGEST))), COMMIT])
    world.script("r1", [Update("doc", [("id", text("d" * LONGEST))], at("id", text("b" * LONGEST))), COMMIT])
    exchange(world, "r1", "cons", "r1", "cons", options=SHORT)
    world.select("cons")
    world.select("r1")
    return world


def snapshots_of_many_pieces(program, folder):
    """Logs are begun anew behind rows, texts, statements and books that take many pieces of 64 KiB, from one generation to the other and back, with entries behind them
    and without; copies of them are damaged."""
    users = [f"office{place}" for place in range(1, 38)]
    world = World(program, folder, Drawing(3), ["cons", users[0]])
    world.begin()
    columns = [Column(f"a_column_with_a_long_name_{at:04}", INTEGER, at == 0) for at in range(251)]
    wide = [CreateTable(f"wide{place}", columns, [columns[0].name]) for place in range(11)]
    publish(world, "cons", [STOCK, DOC], [Grant(False, user) for user in users])
    publish(world, users[0], [STOCK, DOC], [Grant(True, "cons")])
    world.script("cons", wide)
    for place in range(6):
        rows = [[number(500 * place + at), number(at), number(-at)] for at in range(500)]
        texts = [[text(f"{place}{letter}"), text(letter * (LONGEST - place))] for letter in "ab"]
        world.script("cons", [Insert("stock", None, rows), COMMIT, Insert("doc", None, texts), COMMIT])
    exchange(world, "cons", users[0], options=Options(length=1_048_576))
    world.show("cons")
    exchange(world, "cons", users[0], options=ANEW)
    wanted("bytes before the first entry that is not confirmed", True, len(world.databases["cons"].snapshot) > 65_536)
    for user in users[1:]:
        world.script("cons", [Subscription("STOP", "p", None, user)])
        confirm = Message(user, "cons", 0, 0, 0, 0, 0, b"", world.databases["cons"].books[user].log_sent, 0, 0)
        world.put("cons", f"{user}.0000000000000001", confirm.spelled())
    exchange(world, "cons", users[0], "cons", options=ANEW)
    exchange(world, "cons", options=ANEW)
    wanted("bytes of the snapshot, more than six pieces", True, len(world.databases["cons"].snapshot) > 6 * 65_536)
    world.show("cons")
    world.select("cons")
    for _ in range(16):
        world.damage("cons")
    world.unsettle("cons")
    world.script("cons", [Update("stock", [("qty", plus(column("qty"), 1))], at("id", number(7))), COMMIT])
    exchange(world, "cons", users[0], "cons", options=ANEW)
    world.select(users[0])
    return world


FIXED = [
    a_pass_of_131_messages,
    letters_of_137_partners,
    a_transaction_of_1031_operations,
    long_texts_are_passed_on,
    texts_of_32767_bytes,
    snapshots_of_many_pieces,
]
