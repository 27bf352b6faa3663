"""The book that a database keeps of a partner ("The book" of docs/REPLICATION.md)."""

import logs

# where counts stop
MOST = 2**64 - 1
COLUMNS = ("log_sent", "confirm_sent", "send_count", "resend_count", "log_received", "confirm_received", "receive_count", "rereceive_count")


class Book:
    """Offsets and counts, all 0 when the partner is granted."""

    def __init__(self):
        self.log_sent = 0
        self.confirm_sent = 0
        self.send_count = 0
        self.resend_count = 0
        self.log_received = 0
        self.confirm_received = 0
        self.receive_count = 0
        self.rereceive_count = 0

    def columns(self):
        """What `show` tells of it."""
        return [str(getattr(self, column)) for column in COLUMNS]

    def note(self, entry):
        """What an entry about the partner changes."""
        if isinstance(entry, logs.Taken):
            self.log_received = entry.offset
            self.receive_count = min(self.receive_count + 1, MOST)
        elif isinstance(entry, logs.Confirmed):
            self.log_sent = max(self.log_sent, entry.offset)
            self.confirm_sent = max(self.confirm_sent, entry.offset)
        elif isinstance(entry, logs.Asked):
            if entry.count > self.resend_count:
                self.resend_count = entry.count
                self.log_sent = max(self.confirm_sent, entry.offset)
        elif isinstance(entry, logs.Raised):
            self.rereceive_count = min(self.rereceive_count + 1, MOST)
        elif isinstance(entry, logs.Sent):
            self.log_sent = entry.offset
            self.send_count = min(self.send_count + entry.messages, MOST)
            self.confirm_received = entry.confirm
