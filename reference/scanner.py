"""Bytes to tokens: docs/LANGUAGE.md, Lexemes; the faults: docs/REPORT.md, A refusal."""
import re
from dataclasses import dataclass
from typing import Iterator
from tree import Refusal

RESERVED = set("""array begin case class const cycle div do downto else end entry for function if in init mod monitor not
of or and procedure process record repeat set then to type until var while with univ program""".split())
SEPARATOR = r"[ \t\r\n]"
# The shapes of pieces. Of signs the longer ones come first. A character that is not closed goes to the end of its line.
PIECE = re.compile(rf"""(?P<separator>{SEPARATOR}+) | (?P<comment>"[^"]*") | (?P<word>[A-Za-z][A-Za-z0-9_]*) | (?P<number>[0-9]+)
  | (?P<char>'[^'\n]*'?) | (?P<sign><> | <= | >= | := | \(\. | \.\) | \.\. | [-+*=<>()\[\],;:.&])""", re.VERBOSE)
SAME_SIGN = {"(.": "[", ".)": "]", "&": "and"}
OPENING = re.compile(rf'"{SEPARATOR}*\(\*{SEPARATOR}*(assert|invariant)(?![A-Za-z0-9_])')
CLOSING = re.compile(rf'(\*\){SEPARATOR}*)?"\Z')


@dataclass
class Token:
    """The kind is a reserved word, a sign, "name", "number", "char", or of an annotation "(* assert", "(* invariant", "*)"."""
    kind: str
    line: int
    value: object = None             # of a name its letters in lower case, of a number or a character its number


def scan(source: bytes) -> list[Token]:
    """Lexemes: the tokens of a source."""
    if len(source) > 65535:
        raise Refusal(0, "scan: too long")
    tokens: list[Token] = []
    for shape, line, text in pieces(source.decode("latin-1"), 1):
        if len(tokens) == 20000:
            raise Refusal(line, "scan: too many tokens")
        tokens.append(Token(*lexeme(shape, line, text)))
    return tokens


def pieces(text: str, line: int) -> Iterator[tuple[str, int, str]]:
    """Lexemes: cuts a text, or what is inside an annotation, into pieces; the shape, line and text of those that are tokens."""
    place = 0
    while place < len(text):
        piece = PIECE.match(text, place)
        if piece is None:
            raise Refusal(line, "scan: open comment" if text[place] == '"' else "scan: bad byte")
        shown = piece.group()
        opening = OPENING.match(shown)
        if opening:
            closing = CLOSING.search(shown, opening.end())
            yield "sign", line, "(* " + opening.group(1)
            yield from pieces(shown[opening.end():closing.start()], line + opening.group().count("\n"))
            yield "sign", line + shown[:closing.start()].count("\n"), "*)"
        elif piece.lastgroup not in ("comment", "separator"):
            yield piece.lastgroup, line, shown
        line += shown.count("\n")
        place = piece.end()


def lexeme(shape: str, line: int, text: str) -> tuple:
    """Lexemes: kind, line and value of a token; its length and content are checked."""
    if shape == "sign":
        return SAME_SIGN.get(text, text), line
    if shape == "number":
        return "number", line, number(text, 32767, "number too large", line)
    if shape == "char":
        return "char", line, character(text, line)
    if text.lower() in RESERVED:
        return text.lower(), line
    if len(text) > 40:
        raise Refusal(line, "scan: name too long")
    return "name", line, text.lower()


def number(digits: str, most: int, fault: str, line: int) -> int:
    value = int(digits.lstrip("0")[:6] or "0")         # Python reads no number of 5,000 digits
    if value > most:
        raise Refusal(line, "scan: " + fault)
    return value


def character(text: str, line: int) -> int:
    """Lexemes, Character."""
    if not text[1:].endswith("'"):
        raise Refusal(line, "scan: open char")
    code = re.fullmatch(r"'\(:([0-9]+):\)'", text)
    if code:
        return number(code.group(1), 127, "bad char", line)
    if len(text) != 3 or not 32 <= ord(text[1]) <= 126:
        raise Refusal(line, "scan: bad char")
    return ord(text[1])
