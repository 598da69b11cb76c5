"""Whether each condition of the rules in crates/cp_refusal/src/advice.rt has a meaning: the compiler does not read them."""
import re
from pathlib import Path

ROOT = Path(__file__).resolve().parents[2]
SIGNS = set("+ - * / ( ) [ ] , ; : . = < > <= >= <> := .. &".split())
NAMES = {"as", "continue", "delay", "display", "down", "empty", "false", "is", "till", "true", "upto", "val", "value"}
PLACE = re.compile(r"[+-]?[0-9]|(open|paren)(-1)?|ahead")


def arms(source, function):
    """Returns the words that a function of the source matches."""
    body = source[source.index(f"fn {function}("):]
    return set(re.findall(r'^ {8}"([^"]+)" =>', body[:body.index("\n}\n")], re.MULTILINE))


def misspelt():
    """Returns the number of rules, and for each condition that means nothing its rule with it."""
    source = (ROOT / "crates/cp_refusal/src/advice.rt").read_text()
    reserved = set(re.findall(r'\("(\w+)", Mark::', (ROOT / "crates/cp_text/src/word.rt").read_text()))
    alone, kinds = arms(source, "is_so"), arms(source, "is_kind")
    table = (ROOT / "crates/cp_refusal/src/candidates.rt").read_text().split("static CHOICES", 1)[1].split("];", 1)[0]
    choices = {word for words in re.findall(r'\(&\[.*?\], "((?:[^"\\]|\\.)*)", ', table) for word in words.split(" ")}
    rules = [line for text in re.findall(r'= "\\\n(.*?)";', source, re.DOTALL) for line in text.splitlines()]
    faults = [] if rules else [("no rule stands where rules are looked for", "")]
    for rule in rules:
        for condition in rule.split("|")[0].split(" "):
            asked = condition.removeprefix("!")
            place, colon, words = asked.partition(":")
            if asked.startswith("?"):
                is_known = all(word in choices for word in asked[1:].split("/"))
            elif colon:
                is_known = PLACE.fullmatch(place) and (words in SIGNS or all(word in kinds | reserved | SIGNS | NAMES for word in words.split("/")))
            else:
                is_known = asked in alone
            if not is_known:
                faults.append((rule, condition))
    return len(rules), faults
