"""Reads expressions, and has the steps by which statements are read. Where no script goes on with a token, the script is refused at that token (docs/SQL.md,
"Where a script is refused")."""

from lexing import GREATEST, KEY_WORDS, Token, Unreadable, tokens
from tree import Binary, Literal, Reference, Unary
from values import Value, day_of, number_of

# how deep an expression may be, and how many parentheses may be open at one place of it
DEEPEST = 200
MOST_PARENTHESES = 200
COMPARISONS = ("=", "<>", "<", "<=", ">", ">=")


class Reader:
    """The tokens of a script, and how many are read."""

    def __init__(self, script):
        self.tokens = tokens(script)
        self.count = 0
        self.end = Token("end", None, len(script))

    def token(self, ahead=0):
        """The token that is read next, or one behind it."""
        place = self.count + ahead
        return self.tokens[place] if place < len(self.tokens) else self.end

    def refuse(self, ahead=0):
        """Refuses the script at the next token, or at one behind it."""
        raise Unreadable(self.token(ahead).place)

    def is_next(self, kind, contents):
        """Whether the next token is one of these."""
        return self.token().kind == kind and self.token().content in contents

    def take(self):
        """What the next token has, which is read."""
        self.count += 1
        return self.tokens[self.count - 1].content

    def took(self, *words):
        """Whether the next token is one of these words; then it is read."""
        if self.is_next("word", words):
            self.take()
            return True
        return False

    def took_sign(self, sign):
        """Whether the next token is this sign; then it is read."""
        if self.is_next("sign", (sign,)):
            self.take()
            return True
        return False

    def need(self, *words):
        """These words come next, in this order."""
        for word in words:
            if not self.took(word):
                self.refuse()

    def need_sign(self, sign):
        """This sign comes next."""
        if not self.took_sign(sign):
            self.refuse()

    def need_text(self):
        """A text comes next, whose bytes are answered."""
        if self.token().kind != "text":
            self.refuse()
        return self.take()

    def name(self):
        """A name, which is no key word."""
        if self.token().kind != "word" or self.token().content in KEY_WORDS:
            self.refuse()
        return self.take()

    def listed(self, part):
        """One part or more, with commas between them."""
        parts = [part()]
        while self.took_sign(","):
            parts.append(part())
        return parts

    def enclosed(self, part):
        """The same in parentheses."""
        self.need_sign("(")
        parts = self.listed(part)
        self.need_sign(")")
        return parts

    def names_if_any(self):
        """Names in parentheses, or None where no parenthesis stands here."""
        return self.enclosed(self.name) if self.is_next("sign", ("(",)) else None

    def date(self):
        """The literal of the date behind the word DATE."""
        if self.token().kind != "text" or day_of(self.token().content) is None:
            self.refuse()
        return Literal(Value("DATE", day_of(self.take())))

    def reference(self):
        """A name, perhaps behind an alias and a dot."""
        name = self.name()
        return Reference(name, self.name()) if self.took_sign(".") else Reference(None, name)


class Expressions(Reader):
    """Reads expressions, those that bind loosely first. Each step is told how deep its tree may be, its `room`, and how many parentheses are open; it answers
    the tree and its depth."""

    def expression(self):
        """A whole expression."""
        return self.disjunction(DEEPEST, 0)[0]

    def chain(self, operand, kind, operators, room, parentheses):
        """Operands with these operators between them, from left to right."""
        tree, depth = operand(room, parentheses)
        while self.is_next(kind, operators):
            tree, depth = self.second(operand, tree, depth, room, parentheses)
        return tree, depth

    def second(self, operand, left, depth, room, parentheses):
        """An operator and what stands to its right, behind its left operand, which has a depth."""
        if depth + 1 > room:
            self.refuse()
        operator = self.take().upper()
        right, right_depth = operand(room - 1, parentheses)
        return Binary(operator, left, right), max(depth, right_depth) + 1

    def disjunction(self, room, parentheses):
        """OR."""
        return self.chain(self.conjunction, "word", ("or",), room, parentheses)

    def conjunction(self, room, parentheses):
        """AND."""
        return self.chain(self.negation, "word", ("and",), room, parentheses)

    def negation(self, room, parentheses):
        """NOT, as often as it stands here."""
        count = 0
        while self.is_next("word", ("not",)):
            if room - count < 2:
                self.refuse()
            self.take()
            count += 1
        tree, depth = self.comparison(room - count, parentheses)
        for _ in range(count):
            tree = Unary("NOT", tree)
        return tree, depth + count

    def comparison(self, room, parentheses):
        """At most one comparison, or one IS NULL."""
        tree, depth = self.addition(room, parentheses)
        if self.is_next("sign", COMPARISONS):
            return self.second(self.addition, tree, depth, room, parentheses)
        if not self.is_next("word", ("is",)):
            return tree, depth
        if depth + 1 > room:
            self.refuse()
        self.take()
        operator = "IS NOT NULL" if self.took("not") else "IS NULL"
        self.need("null")
        return Unary(operator, tree), depth + 1

    def addition(self, room, parentheses):
        """Plus and minus."""
        return self.chain(self.multiplication, "sign", ("+", "-"), room, parentheses)

    def multiplication(self, room, parentheses):
        """Times."""
        return self.chain(self.operand, "sign", ("*",), room, parentheses)

    def operand(self, room, parentheses):
        """A minus and its operand, parentheses, a literal or a reference. A minus and a number are a literal together, so a minus without room is refused at
        what stands behind it."""
        if self.is_next("sign", ("-",)):
            if self.token(1).kind == "number":
                self.take()
                return Literal(number_of(-self.take())), 1
            if room < 2:
                self.refuse(1)
            self.take()
            tree, depth = self.operand(room - 1, parentheses)
            return Unary("-", tree), depth + 1
        if self.is_next("sign", ("(",)):
            if parentheses >= MOST_PARENTHESES:
                self.refuse()
            self.take()
            inner = self.disjunction(room, parentheses + 1)
            self.need_sign(")")
            return inner
        return self.literal_if_any() or self.reference(), 1

    def literal_if_any(self):
        """A literal without a sign before it, or None where none stands here."""
        if self.token().kind == "number":
            if self.token().content == GREATEST:
                self.refuse()
            return Literal(number_of(self.take()))
        if self.token().kind == "text":
            return Literal(Value("VARCHAR", self.take()))
        if self.took("null"):
            return Literal(None)
        if self.took("date"):
            return self.date()
        return None
