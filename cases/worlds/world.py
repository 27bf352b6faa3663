"""One world: databases in a folder beside databases as the rules have them, steps that are done to both, and what is compared behind each run."""

import os
import subprocess

import statements
import values
from agent import Agent
from damages import Damages, verdict
from database import Database
from drawing import Drawing
from messages import read_message
from sessions import DONE, Session

# how many characters of what was to come and of what came a difference tells, and from how many before the first that differs
TOLD = 800
BEFORE = 200
MAIL = "box"
# the endings of the names of a database's files
ENDINGS = ("root", "snap0", "log0", "snap1", "log1")
# where the copies of damaged databases lie
COPIES = "damaged"


class Difference(Exception):
    """The program did something else than the rules say."""


class World:
    """The databases, the files of each mail folder, those that are held back, and the steps so far."""

    def __init__(self, program, folder, drawing, publishers):
        self.program = program
        self.folder = folder
        self.drawing = drawing
        known = {}
        self.databases = {publisher: Database(publisher, known) for publisher in publishers}
        self.mail = {}
        self.held = []
        self.steps = []
        self.runs = 0
        self.restarts = 0
        self.damaged = 0
        self.unsure = 0
        # what becomes of the files of databases changes nothing of what else is drawn
        self.damages = Damages(Drawing(drawing.below(2**32)))
        os.mkdir(os.path.join(folder, COPIES))

    # ---- runs

    def run(self, words, script=""):
        """A run of the program: what it printed, and its status."""
        self.runs += 1
        done = subprocess.run([self.program, *words], cwd=self.folder, input=script.encode(), capture_output=True, check=False)
        return done.stdout.decode(errors="replace"), done.returncode

    def begin(self):
        """Makes the databases."""
        for publisher in self.databases:
            self.steps.append(f"init {publisher} {publisher}")
            self.run(["init", publisher, publisher])
            self.compare_files(publisher)

    def script(self, publisher, script):
        """A script of statements, of which the last may have its semicolon or not."""
        text = "; ".join(map(statements.print_statement, script)) + (";" if self.drawing.chance(0.5) else "")
        self.steps.append(f"sql {publisher} <<< {text}")
        wanted = Session(self.databases[publisher]).run(script)
        self.compare(publisher, wanted, self.run(["sql", publisher], text))

    def agent(self, publisher, options):
        """A run of the agent."""
        words = ["agent", publisher, "--mail", MAIL, *options.words()]
        self.steps.append(" ".join(words))
        wanted = Agent(self.databases[publisher], self.mail, options).run()
        self.restarts += options.restart
        self.compare(publisher, wanted, self.run(words))

    def show(self, publisher):
        """What `show` tells."""
        self.steps.append(f"show {publisher}")
        self.compare(publisher, (self.databases[publisher].show(), DONE), self.run(["show", publisher]))

    def select(self, publisher):
        """The rows of each table."""
        database = self.databases[publisher]
        for table in database.catalog.tables:
            self.steps.append(f"sql {publisher} <<< SELECT * FROM {table}")
            lines = ["|".join(map(values.printed, row)) for row in database.rows_of(table)]
            found = self.run(["sql", publisher], f"SELECT * FROM {table}")
            self.compare(publisher, ([*lines, f"{len(lines)} rows"], DONE), found)

    # ---- what is compared

    def differ(self, what, wanted, found):
        """Tells a difference: the step, what was to come and what came, from somewhat before the place where they part."""
        wanted, found = str(wanted), str(found)
        first = max(0, len(os.path.commonprefix([wanted, found])) - BEFORE)
        told = [f"step {len(self.steps)}: {self.steps[-1][:TOLD]}", f"{what} from character {first} on, is to be"]
        raise Difference("\n".join([*told, wanted[first : first + TOLD], "and is", found[first : first + TOLD]]))

    def compare(self, publisher, wanted, found):
        """Lines and status of a run, and behind that the files in force and the mail."""
        self.compare_lines(wanted, found)
        self.compare_files(publisher)
        self.compare_mail()

    def compare_lines(self, wanted, found):
        """Lines and status of a run."""
        lines, status = wanted
        told = "".join(line + "\n" for line in lines)
        if (told, status) != found:
            self.differ("what is printed, with the status behind it,", f"{told}{status}", f"{found[0]}{found[1]}")

    def compare_files(self, publisher):
        """Each byte of the root, of the snapshot in force, and of the log in force up to its closed gate; what is behind that gate has no meaning."""
        for ending, wanted in self.databases[publisher].files().items():
            found = self.found(publisher, ending) or b""
            if ending.startswith("log"):
                found = found[: len(wanted)]
            if found != wanted:
                self.differ(f"the file {publisher}.{ending}, which differs at byte {len(os.path.commonprefix([wanted, found]))},", wanted, found)

    def path(self, publisher, ending):
        """The path of a file of a database."""
        return os.path.join(self.folder, f"{publisher}.{ending}")

    def found(self, publisher, ending):
        """The bytes of a file of a database; None where it is not there."""
        path = self.path(publisher, ending)
        if not os.path.exists(path):
            return None
        with open(path, "rb") as file:
            return file.read()

    def all_found(self, publisher):
        """The bytes of each file of a database that is there, by the endings of their names."""
        found = {ending: self.found(publisher, ending) for ending in ENDINGS}
        return {ending: data for ending, data in found.items() if data is not None}

    def write(self, publisher, ending, data):
        """Puts bytes in place of a file of a database; None takes it away."""
        path = self.path(publisher, ending)
        if data is not None:
            with open(path, "wb") as file:
                file.write(data)
        elif os.path.exists(path):
            os.remove(path)

    def compare_mail(self):
        """Each name and each byte in the mail folders."""
        found = {}
        for root, _, names in os.walk(os.path.join(self.folder, MAIL)):
            for name in names:
                with open(os.path.join(root, name), "rb") as file:
                    found[os.path.basename(root), name] = file.read()
        wanted = {(address, name): data for address, files in self.mail.items() for name, data in files.items()}
        for path in sorted(set(found) | set(wanted)):
            if found.get(path) != wanted.get(path):
                self.differ(f"the file {'/'.join(path)},", self.told_of_file(wanted.get(path)), self.told_of_file(found.get(path)))

    def told_of_file(self, data):
        """What a difference tells of a file."""
        return "not there" if data is None else read_message(data) or f"no message: {data}"

    # ---- what becomes of the files of databases

    def unsettle(self, publisher):
        """The files of the generation that is not in force become anything, and the root another one of its generation. Nothing comes of it, now or later."""
        database = self.databases[publisher]
        ending, data = self.damages.not_in_force(database, self.all_found(publisher))
        self.write(publisher, ending, data)
        self.steps.append(f"change {publisher}.{ending}")
        if self.damages.drawing.chance(0.3):
            database.root = self.damages.root(database)
            self.write(publisher, "root", database.root)
            self.steps.append(f"change {publisher}.root to {database.root.hex()}")
        before = self.all_found(publisher)
        self.show(publisher)
        self.look_at_files(before, publisher)

    def damage(self, publisher):
        """A file in force is cut or changed in a bit, in a copy: `show` says where it is damaged; or it shows what the files stand for then, and so do the rows of each
        table. In both cases the files stay as they are."""
        database = self.databases[publisher]
        ending, data = self.damages.in_force(database)
        files = {**self.all_found(publisher), ending: data}
        copied = f"{COPIES}/{publisher}"
        for name in ENDINGS:
            self.write(copied, name, files.get(name))
        self.steps.append(f"damage {publisher}.{ending}, and show {copied}")
        said = verdict(files, database.known)
        found = self.run(["show", copied])
        self.damaged += 1
        if said.unsure:
            self.unsure += 1
            if not said.may_be(*found):
                self.differ("what is printed of files that stand, or are damaged no earlier than", said.unsure, found)
        else:
            self.compare_lines(said.show(), found)
        if said.state:
            self.compare_rows(copied, said.state)
        self.look_at_files(files, copied)

    def compare_rows(self, name, state):
        """The rows of each table of a database."""
        lines = []
        for table in state.catalog.tables:
            rows = ["|".join(map(values.printed, row)) for row in state.rows_of(table)]
            lines += [*rows, f"{len(rows)} rows"]
        script = "".join(f"SELECT * FROM {table};" for table in state.catalog.tables)
        self.compare_lines((lines, DONE), self.run(["sql", name], script))

    def look_at_files(self, wanted, name):
        """A run that only looked left the files of a database as they were."""
        found = self.all_found(name)
        for ending in ENDINGS:
            if wanted.get(ending) != found.get(ending):
                self.differ(f"the file {name}.{ending}, behind a run that only looks,", wanted.get(ending), found.get(ending))

    def befall(self):
        """Now and then something becomes of the files of a database."""
        drawing = self.damages.drawing
        publisher = drawing.choice(list(self.databases))
        if drawing.chance(0.15):
            self.unsettle(publisher)
        if drawing.chance(0.4):
            self.damage(publisher)

    # ---- what happens to files

    def put(self, address, name, data):
        """Puts a file into a mail folder."""
        self.steps.append(f"put {address}/{name}")
        self.mail.setdefault(address, {})[name] = data
        folder = os.path.join(self.folder, MAIL, address)
        os.makedirs(folder, exist_ok=True)
        with open(os.path.join(folder, name), "wb") as file:
            file.write(data)

    def remove(self, address, name):
        """Takes a file out of a mail folder."""
        self.steps.append(f"remove {address}/{name}")
        del self.mail[address][name]
        os.remove(os.path.join(self.folder, MAIL, address, name))

    def files(self):
        """The address, the name and the bytes of each file."""
        return [(address, name, data) for address, files in self.mail.items() for name, data in files.items()]

    def spoil(self):
        """Something bad happens to each file in 11 cases of 50. What was held back may come again, and what is no message is cleared away now and then."""
        for address, name, data in self.files():
            self.spoil_file(address, name, data)
        if self.held and self.drawing.chance(0.5):
            for address, name, data in self.drawing.some(self.held, range(1, len(self.held) + 1)):
                self.held.remove((address, name, data))
                self.put(address, name + ("" if self.drawing.chance(0.7) else ".late"), data)
        if self.drawing.chance(0.1):
            for address, name, data in self.files():
                if read_message(data) is None:
                    self.remove(address, name)

    def spoil_file(self, address, name, data):
        """A file is lost, held back, copied, cut, changed in a bit, or goes astray as well; or nothing happens."""
        share = self.drawing.random.random()
        if share < 0.06:
            self.remove(address, name)
        elif share < 0.12:
            self.held.append((address, name, data))
            self.remove(address, name)
        elif share < 0.16:
            self.put(address, f"{name} copy{self.drawing.below(3)}", data)
        elif share < 0.18 and data:
            self.put(address, name, data[: self.drawing.below(len(data))])
        elif share < 0.20 and data:
            place = self.drawing.below(len(data))
            self.put(address, name, data[:place] + bytes([data[place] ^ 1 << self.drawing.below(8)]) + data[place + 1 :])
        elif share < 0.22:
            self.put(self.drawing.choice(list(self.databases)), name, data)
