"""The lexemes of a source, as docs/LANGUAGE.md has them."""
import re

LEXEME = re.compile(
    rb'(?P<blank>[ \t\r\n]+)|(?P<comment>"[^"]*")|(?P<name>[A-Za-z][A-Za-z0-9_]*)|(?P<number>[0-9]+)|(?P<char>\'[^\'\n]*\')'
    rb"|(?P<sign>\(\.|\.\)|\.\.|:=|<>|<=|>=|[-+*=<>()\[\],;:.&])|(?P<other>[\s\S])"
)
# Two spellings that mean the same.
SAME = {"(.": "[", ".)": "]", "&": "and"}
RESERVED = frozenset(
    "array begin case class const cycle div do downto else end entry for function if in init mod monitor not of or and procedure process record repeat set "
    "then to type until var while with univ program".split()
)


class Lexeme:
    """A token: its kind, its text in lower case, the bytes from begin to end that it is written in, and its line."""

    def __init__(self, kind, text, begin, end, line):
        self.kind, self.text, self.begin, self.end, self.line = kind, text, begin, end, line


def lexemes_of(source):
    """Returns the tokens of a source; comments are none."""
    found, line = [], 1
    for it in LEXEME.finditer(source):
        kind, text = it.lastgroup, it.group()
        if kind not in ("blank", "comment"):
            word = text.decode("latin-1").lower() if kind != "char" else text.decode("latin-1")
            word = SAME.get(word, word)
            found.append(Lexeme("word" if word in RESERVED else kind, word, it.start(), it.end(), line))
        line += text.count(b"\n")
    return found


def open_comment(source, begin, end):
    """Returns the line of a comment that begins within these bytes and goes on behind them, none if there is none."""
    for it in LEXEME.finditer(source):
        is_quote = it.lastgroup == "comment" or it.lastgroup == "other" and it.group() == b'"'
        if is_quote and begin <= it.start() < end and (it.end() > end or it.lastgroup == "other"):
            return source.count(b"\n", 0, it.start()) + 1
    return None


def what_displays(solution):
    """Returns the first place in a solution, without its frame, that could display something, in words; none if there is none."""
    begin = len(solution.frame.top)
    end = len(solution.source) - len(solution.frame.bottom)
    tokens = lexemes_of(solution.source)
    for before, it in zip([None, *tokens], tokens):
        is_component = before is not None and before.text == "."
        if begin <= it.begin < end and it.text == "display" and it.kind == "name" and not is_component:
            return f"{solution.line(it.line)} displays, which is not left to the solution"
    line = open_comment(solution.source, begin, end)
    return f"{solution.line(line)}: a comment goes on behind the solution" if line else None
