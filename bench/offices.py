"""A head office with many partners, each of whom has the rows of his own value: what a run of its agent takes."""

import os
import shutil

import common
import letters
import logs
from beside import Job, milliseconds
from exchange import agent

VALUE = b"CREATE TABLE c (id INTEGER PRIMARY KEY, n INTEGER); CREATE PUBLICATION p (TABLE c SUBSCRIBE BY n);\n"
PARTNER = b"GRANT REMOTE TO u%d; CREATE SUBSCRIPTION TO p (%d) FOR u%d; START SUBSCRIPTION TO p (%d) FOR u%d;\n"
# a value that no partner has
NOBODY = -1
COLUMNS = (b"id", b"n")


def rows(first, many, partners):
    """So many transactions of one row from a key on, for one partner after the other, or for none."""
    return (logs.inserted(logs.row(key, key % partners if partners else NOBODY), b"c") for key in range(first, first + many))


def came(first, many, partners):
    """So many transactions of one row that were taken from one partner after the other, and concern nobody else."""
    for key in range(first, first + many):
        values = (key, key % partners)
        operation = logs.inserting(logs.named(COLUMNS, values), b"c")
        yield logs.taken(b"u%d" % (key % partners), 1 + key, operation, logs.row(*values), b"c")


def last(number, many, partners):
    """The offset of the last of so many transactions that came from a partner."""
    return 1 + (many - 1 - number) // partners * partners + number


def office(bench, partners):
    """The folder of a head office with so many partners and without rows."""

    def make(folder):
        setup = VALUE + b"".join(PARTNER % ((number,) * 5) for number in range(partners))
        common.make(bench.program, folder, "hq", setup, "hq")

    return bench.once(f"office-{partners}", make)


def filled(bench, word, partners, fill):
    """The folder of that head office with more in its log, and the offset of that log's end."""

    def make(folder):
        common.copied(office(bench, partners), "hq", folder)
        os.makedirs(f"{folder}/mail/hq")
        fill(folder)

    return bench.once(f"office-{partners}-{word}", make)


def unsent(bench, partners, many):
    return filled(bench, f"unsent-{many}", partners, lambda folder: logs.append(f"{folder}/hq.log0", rows(0, many, partners)))


def nobodys(bench, partners, many):
    return filled(bench, f"nobodys-{many}", partners, lambda folder: logs.append(f"{folder}/hq.log0", rows(0, many, 0)))


def taken(bench, partners, many):
    """With so many transactions in its log that were taken. Each was confirmed, and nothing was ever due to anybody."""

    def fill(folder):
        logs.append(f"{folder}/hq.log0", came(0, many, partners))
        logs.append(f"{folder}/hq.log0", (logs.sent(b"u%d" % number, 0, last(number, many, partners)) for number in range(partners)))

    return filled(bench, f"taken-{many}", partners, fill)


def written_to(bench, partners):
    """With a letter from each partner in its folder."""

    def fill(folder):
        for number in range(partners):
            inserted = logs.inserting(logs.named(COLUMNS, (number, number)), b"c")
            with open(f"{folder}/mail/hq/{letters.file_name(f'u{number}', 1)}", "wb") as file:
                file.write(letters.letter(b"u%d" % number, b"hq", 1, [inserted]))

    return filled(bench, "letters", partners, fill)


def all_sent(bench, partners, many):
    def fill(folder):
        end = logs.append(f"{folder}/hq.log0", rows(0, many, partners))
        logs.append(f"{folder}/hq.log0", (logs.sent(b"u%d" % number, end) for number in range(partners)))

    return filled(bench, f"sent-{many}", partners, fill)


def one_each(bench, partners, many):
    """The same with one new row for each partner."""

    def fill(folder):
        common.copied(all_sent(bench, partners, many), "hq", folder)
        logs.append(f"{folder}/hq.log0", rows(many, partners, partners))

    return filled(bench, f"one-{many}", partners, fill)


def anew(bench, folder):
    """A folder with a copy of a head office, and with no mail."""
    room = bench.once("anew-hq", lambda folder: None)
    shutil.rmtree(f"{room}/mail", ignore_errors=True)
    os.makedirs(f"{room}/mail/hq")
    common.copied(folder, "hq", room)
    return room


def sending(bench, name, partners, folder_of, behind):
    """A run that sends, beside a loop that puts as many files and writes as many notes."""
    return Job(
        f"offices: {partners:,}, {name}",
        lambda: milliseconds(agent(bench, anew(bench, folder_of()), "hq", "-s")),
        bench.with_floor(lambda: milliseconds(bench.floor(anew(bench, folder_of()), "send", "hq.log0", "mail", partners, behind()))),
    )


def idle(bench, name, partners, folder_of):
    """A run with nothing to do, beside reading the log."""
    return Job(
        f"offices: {partners:,}, {name}",
        lambda: milliseconds(agent(bench, folder_of(), "hq", "-s")),
        bench.with_floor(lambda: milliseconds(bench.floor(folder_of(), "keep", "hq.log0"))),
    )


def idle_beyond(bench, name, partners, folder_of):
    """What a run with nothing to do takes beside opening."""

    def ours():
        opened = common.used([bench.program, "show", "hq"], os.devnull, folder_of())
        return milliseconds(agent(bench, folder_of(), "hq", "-s")) - milliseconds(opened)

    return Job(f"offices: {partners:,}, {name}, beyond opening", ours)


def receiving(bench, partners):
    """A run that takes a letter from each partner, which stays where it is."""

    def ours():
        folder = written_to(bench, partners)
        room = anew(bench, folder)
        return milliseconds(common.used([bench.program, "agent", "hq", "--mail", f"{folder}/mail", "-r", "-p"], os.devnull, room, statuses=(0, 1)))

    def floor():
        folder = written_to(bench, partners)
        return milliseconds(bench.floor(anew(bench, folder), "take", f"{folder}/mail/hq", "hq.log0"))

    return Job(f"offices: {partners:,}, a letter from each", ours, bench.with_floor(floor))


def end_of(folder):
    return logs.end_of(f"{folder}/hq.log0") - logs.HEADER


def jobs(bench):
    many, most = bench.size(10_000, 500), bench.size(1_000_000, 5_000)
    found = []
    for partners in bench.size((10, 100, 1_000), (10, 50)):
        found += [
            sending(bench, f"first send of {many:,} rows", partners, lambda p=partners: unsent(bench, p, many), lambda: 0),
            idle(bench, "idle, all sent", partners, lambda p=partners: all_sent(bench, p, many)),
            idle(bench, f"idle, {many:,} rows that are nobody's", partners, lambda p=partners: nobodys(bench, p, many)),
            sending(
                bench, "one new row each", partners, lambda p=partners: one_each(bench, p, many), lambda p=partners: end_of(all_sent(bench, p, many))
            ),
            idle(bench, f"idle, {many:,} rows that came in", partners, lambda p=partners: taken(bench, p, many)),
            idle_beyond(bench, f"idle, {many:,} rows that came in", partners, lambda p=partners: taken(bench, p, many)),
            idle_beyond(bench, f"idle, {most:,} rows that came in", partners, lambda p=partners: taken(bench, p, most)),
            receiving(bench, partners),
        ]
    return found
