"""The tokens of a script, and the byte at which it is refused where it has none. docs/SQL.md, "Tokens", has the rules."""

from typing import NamedTuple

KEY_WORDS = frozenset(
    """create table primary key not null integer int bigint varchar date drop publication where subscribe by grant to consolidate start stop synchronize
    subscription for trigger resolve update of on referencing as each row begin declare end set insert into values if then else delete from select count sum
    min max inner join order asc desc commit work rollback passthrough only or and is""".split()
)
BLANKS = b" \t\r\n"
LETTERS = b"abcdefghijklmnopqrstuvwxyzABCDEFGHIJKLMNOPQRSTUVWXYZ_"
DIGITS = b"0123456789"
LONG_SIGNS = (b"<=", b">=", b"<>")
SIGNS = b"(),;.+-*=<>"
# the longest word, and the greatest number, which stands behind a minus alone
LONGEST = 64
GREATEST = 2**63


class Unreadable(Exception):
    """A script is refused as a whole, at a byte."""

    def __init__(self, place):
        super().__init__(place)
        self.place = place


class Token(NamedTuple):
    """A token: a word in lower case, a number, the bytes of a text, a sign, or the end."""

    kind: str
    content: object
    place: int


def tokens(script):
    """The tokens of the bytes of a script."""
    try:
        script.decode("utf-8")
    except UnicodeDecodeError as fault:
        raise Unreadable(fault.start) from None
    found = []
    place = behind_blanks(script, 0)
    while place < len(script):
        token, place = token_at(script, place)
        found.append(token)
        place = behind_blanks(script, place)
    return found


def behind_blanks(script, place):
    """The first place from here on where neither white space nor a comment stands."""
    while place < len(script):
        if script[place] in BLANKS:
            place += 1
        elif script[place : place + 2] == b"--":
            line_feed = script.find(b"\n", place)
            place = len(script) if line_feed < 0 else line_feed + 1
        else:
            break
    return place


def token_at(script, place):
    """The token that begins here, and the place behind it."""
    if script[place] in LETTERS:
        end = behind(script, place, LETTERS + DIGITS)
        if end - place > LONGEST:
            raise Unreadable(place)
        return Token("word", script[place:end].decode().lower(), place), end
    if script[place] in DIGITS:
        end = behind(script, place, DIGITS)
        return Token("number", number(script[place:end], place), place), end
    if script[place] == ord("'"):
        content, end = text_at(script, place)
        return Token("text", content, place), end
    length = 2 if script[place : place + 2] in LONG_SIGNS else 1
    if length == 1 and script[place] not in SIGNS:
        raise Unreadable(place)
    return Token("sign", script[place : place + length].decode(), place), place + length


def behind(script, place, bytes_of_token):
    """The first place from here on where none of these bytes stands."""
    while place < len(script) and script[place] in bytes_of_token:
        place += 1
    return place


def number(digits, place):
    """The number of these digits, which stand at a place. Zeros in front count for nothing."""
    digits = digits.lstrip(b"0") or b"0"
    if len(digits) > len(str(GREATEST)) or int(digits) > GREATEST:
        raise Unreadable(place)
    return int(digits)


def text_at(script, place):
    """The content of the text whose quote stands here, and the place behind it. A quote in it is written twice."""
    content = b""
    start = place + 1
    while True:
        quote = script.find(b"'", start)
        if quote < 0:
            raise Unreadable(place)
        content += script[start:quote]
        if script[quote + 1 : quote + 2] != b"'":
            return content, quote + 1
        content += b"'"
        start = quote + 2
