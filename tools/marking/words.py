"""The words of ./class: what is asked of which files."""
import difflib
import re

# Options that ./show mark takes, with a value and without.
VALUED = ("--choices", "--steps", "--gates", "--signals", "--states")
FLAGS = ("--merge", "--ends", "--at-once")
FORMS = ("--csv", "--html")
# Options of ./class alone, with a value.
OWN = ("-e", "--like", "--mutants", "--top", "--bottom", "--seconds", "--minutes", "--pages")
ALONE = ("--no-display", "--other-sources")


class Refused(Exception):
    """The words ask for nothing that could be done; the text says why."""


class Asked:
    """What the words ask for."""

    def __init__(self, words):
        self.expectations, self.files, self.options, self.form, self.own = [], [], [], None, {}
        self.no_display, self.other_sources = False, False
        left, are_files = list(words), False
        while left:
            word = left.pop(0)
            if are_files or word == "-" or not word.startswith("-"):
                self.files.append(word)
            elif word == "--":
                are_files = True
            else:
                self.take(word, left)
        self.seconds = self.number("--seconds", 60)
        self.minutes = self.number("--minutes", None)
        self.like, self.mutants = self.own.get("--like"), self.own.get("--mutants")
        self.refuse_what_does_not_fit()

    def take(self, word, left):
        name, equals, value = word.partition("=") if word.startswith("--") else (word, "", "")
        if name in (*VALUED, *OWN):
            if not equals:
                if not left:
                    raise Refused(f"{name} wants a value")
                value = left.pop(0)
            self.keep(name, value)
        elif equals and name in (*FLAGS, *FORMS, *ALONE):
            raise Refused(f"{name} has no value")
        elif name in FLAGS:
            self.options.append(name)
        elif name in ALONE:
            setattr(self, name[2:].replace("-", "_"), True)
        elif name in FORMS:
            if self.form not in (None, name[2:]):
                raise Refused(f"{name}: not beside --{self.form}")
            self.form = name[2:]
        else:
            near = difflib.get_close_matches(name, (*VALUED, *OWN, *FLAGS, *FORMS, *ALONE), 1)
            raise Refused(f"{name} is no option" + (f": did you mean {near[0]}" if near else ""))

    def keep(self, name, value):
        if name == "-e":
            self.expectations.append(value)
        elif name in VALUED:
            self.options += [name, value]
        elif name in self.own:
            raise Refused(f"{name} is given twice")
        else:
            self.own[name] = value

    def number(self, name, otherwise):
        text = self.own.get(name)
        if text is None:
            return otherwise
        if not re.fullmatch(r"[0-9]{1,6}(\.[0-9]{1,6})?", text) or float(text) == 0:
            raise Refused(f"{name} {text}: a number is wanted, as 10 or 0.5")
        return float(text) if "." in text else int(text)

    def refuse_what_does_not_fit(self):
        named = [*self.files, *(self.own[it] for it in ("--like", "--mutants", "--top", "--bottom") if it in self.own)]
        if named.count("-") > 1:
            raise Refused("standard input is one file: - stands once")
        if "--pages" in self.own and self.form != "html":
            raise Refused("--pages: only beside --html")
        if self.mutants is not None:
            if not self.expectations:
                raise Refused("nothing is expected: -e EXPECTATION")
            if self.files:
                raise Refused(f"{self.files[0]}: beside --mutants there is no solution to mark")
            if self.form == "html" or self.no_display:
                raise Refused(f"{'--html' if self.form else '--no-display'}: not beside --mutants")
        elif not self.are_parts():
            if not self.expectations and self.like is None:
                raise Refused("nothing is expected: -e EXPECTATION, or --like MODEL.cp")
            if not self.files:
                raise Refused("there is no solution to mark")

    def are_parts(self):
        """Answers whether the files are tables that are to be taken together."""
        is_asked = self.expectations or self.like is not None or self.mutants is not None
        return not is_asked and self.form == "csv" and bool(self.files) and all(it == "-" or it.endswith(".csv") for it in self.files)

    def options_of(self, *left_out):
        """Returns the options for the program without these."""
        kept, left = [], list(self.options)
        while left:
            option = left.pop(0)
            words = [option, left.pop(0)] if option in VALUED else [option]
            if option not in left_out:
                kept += words
        return kept

    def under(self, head):
        """Returns a head with the rule of signals that it is marked under, where this is not that of the book."""
        rule = self.options[self.options.index("--signals") + 1] if "--signals" in self.options else "return"
        return head if rule == "return" else f"{head}, under --signals {rule}"

    def has(self, *words):
        """Answers whether these words stand side by side among the options for the program."""
        return any(tuple(self.options[at : at + len(words)]) == words for at in range(len(self.options)))
