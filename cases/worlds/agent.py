"""A run of the agent ("A run of the agent" and "Messages and windows" of docs/REPLICATION.md)."""

from typing import NamedTuple

import logs
from judging import Judge
from messages import BARE, Message, fill_windows, read_body, read_message, whole_body
from operations import Clash, Conflict


class Options(NamedTuple):
    """The words of a run behind `--mail FOLDER`."""

    receive: bool = False
    send: bool = False
    keep: bool = False
    length: int = None
    restart: bool = False

    def words(self):
        """These words."""
        limit = ["-l", str(self.length)] if self.length else []
        return ["-r"] * self.receive + ["-s"] * self.send + ["-p"] * self.keep + ["-x"] * self.restart + limit


class Agent:
    """A run for one database. The mail has the files of each folder, by their names. `asks` are the partners of whom something is missing."""

    def __init__(self, database, mail, options):
        self.database = database
        self.mail = mail
        self.options = options
        self.room = options.length or 50_000
        self.lines = []
        self.asks = set()
        self.has_report = False

    def run(self):
        """Begins the log anew, receives and sends as the options say; answers the lines and the status."""
        if self.options.restart:
            self.lines.append(f"restarted {self.database.restart()}")
        if self.options.receive or not self.options.send:
            self.receive()
        if self.options.send or not self.options.receive:
            for user in self.database.catalog.users:
                self.send(user)
        return self.lines, int(self.has_report)

    def report(self, line):
        """A line that somebody has to look at."""
        self.lines.append(line)
        self.has_report = True

    # ---- receiving

    def receive(self):
        """Reads the folder, and gives each partner his turn."""
        letters = self.letters()
        for user in list(self.database.catalog.users):
            self.turn(user, letters[user])

    def letters(self):
        """The messages of each partner with their files, in order of the files' names; others are reported."""
        letters = {user: {} for user in self.database.catalog.users}
        for name, data in sorted(self.mail.get(self.database.publisher, {}).items()):
            message = read_message(data)
            end = self.database.log.end
            if message is None:
                self.report(f"junk {name}")
            elif message.receiver != self.database.publisher or message.sender not in letters or max(message.confirm, message.ask_offset) > end:
                self.report(f"stranger {name}")
            else:
                letters[message.sender][name] = message
        return letters

    def turn(self, user, letters):
        """Notes the confirm and the ask, takes windows, looks whether something is missing, and removes the files that are done with."""
        book = self.database.books[user]
        messages = list(letters.values())
        if messages:
            self.note_confirm(user, max(message.confirm for message in messages))
            self.note_ask(user, messages)
        self.take_windows(user, messages)
        furthest = max([message.upto for message in messages], default=0)
        if furthest > book.log_received:
            self.database.commit(logs.Raised(user))
            self.asks.add(user)
            self.report(f"gap {user} {book.log_received} {furthest}")
        if not self.options.keep:
            for name, message in letters.items():
                if message.upto <= book.log_received and message.confirm <= book.confirm_sent and message.ask_count <= book.resend_count:
                    del self.mail[self.database.publisher][name]

    def note_confirm(self, user, confirm):
        """Notes the greatest offset that is confirmed, where it is news."""
        book = self.database.books[user]
        if confirm > book.confirm_sent or confirm > book.log_sent:
            self.database.commit(logs.Confirmed(user, confirm))

    def note_ask(self, user, messages):
        """Notes the ask of the greatest count, with the least offset of several such, where that count is news."""
        count = max(message.ask_count for message in messages)
        if count > self.database.books[user].resend_count:
            offset = min(message.ask_offset for message in messages if message.ask_count == count)
            self.database.commit(logs.Asked(user, count, offset))

    def take_windows(self, user, messages):
        """Takes windows as far as they reach, the least first; one whose bytes are no body of it is torn."""
        windows = {}
        for message in messages:
            windows.setdefault(message.window(), []).append(message)
        book = self.database.books[user]
        torn = []
        taken = 0
        while True:
            found = self.next_window(windows, book.log_received)
            if found is None:
                break
            window, body = found
            transactions = read_body(body)
            if transactions is None or transactions[0][0] <= window[0] or transactions[-1][0] != window[1]:
                torn.append(window)
                del windows[window]
                continue
            for offset, operations in transactions:
                if offset > book.log_received:
                    self.take(user, offset, operations)
                    taken += 1
        for previous, upto, _ in torn:
            self.report(f"torn {user} {previous} {upto}")
        self.lines.append(f"from {user} took {taken} up to {book.log_received}")

    def next_window(self, windows, received):
        """The least whole window that leads on from what was received, with its body; None where there is none."""
        found = []
        for window, pieces in windows.items():
            if window[0] <= received < window[1]:
                body = whole_body(window[2], pieces)
                if body is not None:
                    found.append((window, body))
        return min(found, default=None)

    def take(self, user, offset, operations):
        """Takes a transaction: one entry with what became of each operation."""
        judge = Judge(self.database, user)
        judged = []
        for place, operation in enumerate(operations, 1):
            outcome, catalog = judge.take(operation)
            judged.append((operation, outcome, catalog))
            if isinstance(outcome, Conflict):
                self.lines.append(f"conflict {user} {offset} {place}")
            elif isinstance(outcome, Clash):
                self.report(f"clash {user} {offset} {place} {outcome.reason}")
        self.database.commit(logs.Taken(user, offset, judged))

    # ---- sending

    def send(self, user):
        """Puts what is due, and notes it behind the last message."""
        book = self.database.books[user]
        transactions = self.database.due(user)
        count = 0
        if transactions or book.log_received > book.confirm_received or user in self.asks:
            messages = self.messages(user, transactions)
            box = self.mail.setdefault(user, {})
            for count, message in enumerate(messages, 1):
                box[f"{self.database.publisher}.{book.send_count + count:016x}"] = message.spelled()
            self.database.commit(logs.Sent(user, messages[-1].upto, count, book.log_received))
        self.lines.append(f"to {user} put {count} up to {book.log_sent}")

    def messages(self, user, transactions):
        """The messages that bring transactions, each body cut into pieces that have room; one without a body where there are none."""
        book = self.database.books[user]
        room = self.room - BARE - len(self.database.publisher) - len(user)
        ask = (book.rereceive_count, book.log_received) if user in self.asks else (0, 0)
        bare = Message(self.database.publisher, user, book.resend_count, book.log_sent, book.log_sent, 0, 0, b"", book.log_received, *ask)
        messages = []
        previous = book.log_sent
        for upto, body in fill_windows(transactions, room):
            for start in range(0, len(body), room):
                piece = body[start : start + room]
                messages.append(bare._replace(previous=previous, upto=upto, total=len(body), start=start, fragment=piece))
            previous = upto
        return messages or [bare]
