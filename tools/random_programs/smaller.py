"""Makes a source smaller as long as something holds of it: lines are left out, then tokens, from many at once to single ones."""
import time

from random_programs.tokens import INNER, RESERVED, is_name, laid_out, tokens_of

WINDOWS = (12, 8, 6, 5, 4, 3, 2, 1)


class Smaller:
    """`holds` says of a source whether it still has what was found; it may take long, so the time is limited."""

    def __init__(self, holds, seconds):
        self.holds, self.until, self.seen = holds, time.monotonic() + seconds, set()

    def is_good(self, tokens):
        source = laid_out(tokens)
        if source in self.seen or time.monotonic() > self.until:
            return False
        self.seen.add(source)
        return self.holds(source)

    def made(self, source):
        tokens = tokens_of(source)
        if not self.is_good(tokens):
            return source
        before = None
        while before != tokens and time.monotonic() < self.until:
            before = tokens
            for way in (self.without_lines, self.without_blocks, self.without_tokens, self.simpler):
                tokens = way(tokens)
        return laid_out(tokens)

    def tried(self, tokens, candidates):
        """The tokens after each candidate that is good was taken; a candidate is a function of the tokens and a place."""
        place = len(tokens) - 1
        while place >= 0:
            for other in candidates(tokens, place):
                if other is not None and other != tokens and self.is_good(other):
                    tokens = other
                    break
            place = min(place, len(tokens)) - 1
        return tokens

    def without_lines(self, tokens):
        """Lines are left out, half of them at once, then fewer."""
        lines = [tokens_of(line) for line in laid_out(tokens).splitlines()]
        size = max(len(lines) // 2, 1)
        while size:
            first = len(lines) - size
            while first >= 0:
                other = lines[:first] + lines[first + size:]
                if self.is_good([token for line in other for token in line]):
                    lines = other
                first -= max(size // 2, 1)
            size = size * 2 // 3
        return [token for line in lines for token in line]

    def without_blocks(self, tokens):
        """What goes from a word to its 'end' is left out, with the semicolon behind it or without; or only both ends of it; and what is in parentheses."""
        def candidates(tokens, place):
            word = tokens[place].lower()
            if word in INNER or word in ("(", "["):
                end = closed(tokens, place)
                yield tokens[:place] + tokens[end + 2:]
                yield tokens[:place] + tokens[end + 1:]
                yield tokens[:place] + tokens[place + 1:end] + tokens[end + 1:]
            if word in ("procedure", "function"):
                body = next((at for at in range(place, len(tokens)) if tokens[at].lower() == "begin"), place)
                yield tokens[:place] + tokens[closed(tokens, body) + 2:]
            if word in ("if", "while"):
                then = next((at for at in range(place, len(tokens)) if tokens[at].lower() in ("then", "do")), place)
                yield tokens[:place] + tokens[then + 1:]

        return self.tried(tokens, candidates)

    def without_tokens(self, tokens):
        return self.tried(tokens, lambda tokens, place: (tokens[:place] + tokens[place + size:] for size in WINDOWS if place + size <= len(tokens)))

    def simpler(self, tokens):
        """An expression becomes one token; a variable has a simpler type."""
        def candidates(tokens, place):
            token = tokens[place]
            if is_name(token) or token.isdigit() or token[0] == "'":
                for simple in ("0", "1", "integer"):
                    if token != simple and not (simple == "1" and token == "0"):
                        yield tokens[:place] + [simple] + tokens[place + 1:]
            if token.lower() not in RESERVED and place + 2 < len(tokens):
                for size in (5, 3):
                    for simple in ("0", "1", "true"):
                        yield tokens[:place] + [simple] + tokens[place + size:]

        return self.tried(tokens, candidates)


def closed(tokens, place):
    """The place of what closes a word or a parenthesis."""
    depth = 0
    for at in range(place, len(tokens)):
        word = tokens[at].lower()
        depth += (word in INNER or word in ("(", "[")) - (word in ("end", "until", ")", "]"))
        if depth <= 0:
            return at
    return len(tokens) - 1


def smaller(source, holds, seconds):
    return Smaller(holds, seconds).made(source)
