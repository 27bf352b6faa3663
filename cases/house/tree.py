"""The files of a checkout, as they stand."""

import copy
import os
import re

WORD = re.compile(r"[^\W\d]\w*")
LEFT_OUT = {".git", "out", "__pycache__"}


class Tree:
    """A checkout: its files by their paths from the top, and their texts."""

    def __init__(self, top):
        self.top = top
        self.texts = {}
        self.files = set()
        self.folders = set()
        for folder, names, files in os.walk(top):
            names[:] = [name for name in names if name not in LEFT_OUT]
            inner = os.path.relpath(folder, top)
            inner = "" if inner == "." else inner + "/"
            self.folders.update(inner + name for name in names)
            self.files.update(inner + name for name in files)
        self.crates = {path.split("/")[1] for path in self.files if path.startswith("crates/")}
        self.crate_words = {}

    def with_text(self, path, text):
        """This checkout with a file of this text; without the file where there is no text."""
        other = copy.copy(self)
        other.texts = {**self.texts, path: text}
        other.files = self.files | {path} if text is not None else self.files - {path}
        other.crate_words = {} if path.startswith(("crates/", "wrong-bodies/")) else self.crate_words
        return other

    def text(self, path):
        """What a file has, as text."""
        if path not in self.texts:
            with open(os.path.join(self.top, path), encoding="utf-8", errors="replace") as file:
                self.texts[path] = file.read()
        return self.texts[path]

    def lines(self, path):
        """The lines of a file, each with its number."""
        return enumerate(self.text(path).split("\n"), 1)

    def is_there(self, path):
        """Whether a file or a folder has this path."""
        return path.rstrip("/") in self.files or path.rstrip("/") in self.folders

    def words_in(self, path):
        """The words of a source, those of its comments left out."""
        comment = "//" if path.endswith(".rt") else "--" if path.endswith(".antt") else "#"
        return set(WORD.findall(re.sub(comment + ".*", "", self.text(path))))

    def words_of(self, crate):
        """The words of a crate's code, definitions and proofs, and the names of its files and edits."""
        if crate not in self.crate_words:
            known = set()
            for path in self.files:
                if path.startswith((f"crates/{crate}/", f"wrong-bodies/{crate}/")):
                    known.add(os.path.splitext(os.path.basename(path))[0])
                    if path.endswith((".rt", ".antt")):
                        known |= self.words_in(path)
            self.crate_words[crate] = known
        return self.crate_words[crate]

    def all_words(self):
        """The words of all crates and of all programs that test, and the names of all files."""
        known = {os.path.splitext(os.path.basename(path))[0] for path in self.files}
        for crate in self.crates:
            known |= self.words_of(crate)
        for path in self.files:
            if path.endswith(".py") and not path.startswith("cases/house/"):
                known |= self.words_in(path)
        return known
