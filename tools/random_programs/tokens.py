"""Sources as lists of tokens: cutting them, and laying them out with a line for each statement, or at random."""
import re

OPENING = r'"\s*\(\*\s*(?:assert|invariant)(?![A-Za-z0-9_])'
PIECE = re.compile(rf"""({OPENING})|(\*\)\s*")|"[^"]*"|('[^'\n]*'|\(\.(?!\.)|\.\)|<>|<=|>=|:=|\.\.|[A-Za-z][A-Za-z0-9_]*|[0-9]+|[^\s])""")
WORD = re.compile(r"[A-Za-z0-9_]")
RESERVED = frozenset("""array begin case class const cycle div do downto else end entry for function if in init mod monitor not of or and procedure process
record repeat set then to type until var while""".split())
PREDECLARED = frozenset("integer boolean char queue false true succ pred chr ord abs empty delay continue display".split())
INNER = ("begin", "record", "cycle", "repeat", "case")


def tokens_of(source):
    """The tokens of a source, annotations by their openings and closings; other comments are left out."""
    return ["".join(it) for it in PIECE.findall(source) if any(it)]


def is_name(token):
    return token[:1].isalpha() and token.lower() not in RESERVED


def must_part(left, right):
    """Whether two tokens would be read as others if nothing stood between them."""
    if WORD.match(left[-1:]) and WORD.match(right[:1]):
        return True
    return left + right[:1] in ("..", ".)", "(.", ":=", "<=", "<>", ">=") or left[-1:] in ".(:<>" and right[:1] in ".=>)" or right.startswith("*)")


def joined(tokens, parting):
    """The text of tokens; `parting` says for each two neighbours what stands between them, as far as that is free."""
    text = [tokens[0]] if tokens else []
    for left, right in zip(tokens, tokens[1:]):
        between = parting(left, right)
        text += [between or " " * must_part(left, right), right]
    return "".join(text)


def laid_out(tokens):
    """A line for each statement and declaration, indented."""
    lines, line, depth, round_ones = [], [], 0, 0
    for token in tokens:
        word = token.lower()
        if word in ("end", "until"):
            lines, line = lines + [(depth, line)] * bool(line), []
            depth = max(depth - 1, 0)
        line.append(token)
        round_ones = max(round_ones + (word in ("(", "(.", "[")) - (word in (")", ".)", "]")), 0)
        is_inner = word in INNER and word != "record"
        if is_inner and word != "case" or word == ";" and not round_ones or word == "of" and any(it.lower() == "case" for it in line):
            lines, line = lines + [(depth, line)], []
        depth += word in INNER
    lines += [(depth, line)] * bool(line)
    return "\n".join("  " * depth + joined(line, usual) for depth, line in lines) + "\n"


def usual(left, right):
    tight = right in (";", ",", ")", "]", ":", "..") or left in ("(", "[", "..") or "." in (left, right) or right in ("(", "[") and (is_name(left))
    return "" if tight and not must_part(left, right) else " "


def strewn(tokens, chooser):
    """The same tokens in another dress: lines broken anywhere, comments, upper case, other signs for the same."""
    signs = {"[": "(.", "]": ".)", "and": "&"}
    dressed = []
    for token in tokens:
        if token.lower() in signs and chooser.chance(0.3):
            token = signs[token.lower()]
        elif token[0].isalpha() and chooser.chance(0.1):
            token = token.upper()
        elif token.isdigit() and chooser.chance(0.1):
            token = "00" + token
        dressed.append(token)
    betweens, is_inside = ["", "", " ", " ", " ", "\n", "\n  ", "\t", "\r\n"], False
    comments = [' "note" ', '"two\nlines"', '"(* Assert x *)"']

    def parting(left, right):
        """No comment stands in an annotation."""
        nonlocal is_inside
        is_inside = left[0] == '"' or is_inside and left[:2] != "*)"
        return chooser.among(betweens if is_inside else betweens + comments)

    return joined(dressed, parting) + "\n"
