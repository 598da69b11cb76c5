"""How a picture looks: contrast of its texts, colours that the colour-blind tell apart, rounds that are folded, and print. Used by check-show."""
import re
from itertools import combinations
from math import atan2, cos, degrees, exp, hypot, radians, sin, sqrt

from page_looks import LEAST_CONTRAST, contrast, mixed

SVG = "{http://www.w3.org/2000/svg}"
# How different two colours have to be (CIEDE2000) for each kind of sight.
LEAST_DIFFERENCE = 15
COLOURS = 8
# Light as it is seen without red, green or blue cones (Machado, Oliveira and Fernandes 2009), and with all.
SIGHTS = {
    "all": ((1, 0, 0), (0, 1, 0), (0, 0, 1)),
    "no red": ((0.152286, 1.052583, -0.204868), (0.114503, 0.786281, 0.099216), (-0.003882, -0.048116, 1.051998)),
    "no green": ((0.367322, 0.860646, -0.227968), (0.280085, 0.672501, 0.047413), (-0.011820, 0.042940, 0.968881)),
    "no blue": ((1.255528, -0.076749, -0.178779), (-0.078411, 0.930809, 0.147602), (0.004733, 0.691367, 0.303900)),
}
WHITE = [255, 255, 255]
# The room of the sign before what changed.
SWATCH = 11

# ---- contrast ----


def channels(color):
    """The channels of #rrggbb or #rgb."""
    digits = color[1:] if len(color) == 7 else "".join(2 * digit for digit in color[1:])
    return [int(digits[at:at + 2], 16) for at in (0, 2, 4)]


def patterns_of(root):
    """The colours that each pattern has, by its name."""
    found = {}
    for pattern in root.iter(SVG + "pattern"):
        ground = channels(pattern[0].get("fill"))
        signs = [mixed(channels(sign.get("fill")), ground, float(sign.get("opacity", 1))) for sign in pattern[1:]]
        found[f"url(#{pattern.get('id')})"] = [ground, *signs]
    return found


def holds(shape, x, y):
    """Whether a rectangle or a circle holds a point."""
    at = lambda name: float(shape.get(name, 0))
    if shape.tag == SVG + "circle":
        return hypot(x - at("cx"), y - at("cy")) <= at("r")
    return at("x") <= x <= at("x") + at("width") and at("y") <= y <= at("y") + at("height")


def places_of(text):
    """Three points within a text."""
    size = float(text.get("font-size"))
    width = len(text.text or "") * size * 0.57
    left = float(text.get("x")) - {"middle": width / 2, "end": width}.get(text.get("text-anchor"), 0)
    return [(left + share * width, float(text.get("y")) - 0.35 * size) for share in (0.2, 0.5, 0.8)]


def low_texts(root):
    """The texts of a picture that can't be read well on what they are written on."""
    patterns, shapes = patterns_of(root), []
    hidden = {element for part in root.iter(SVG + "defs") for element in part.iter()}
    for element in root.iter():
        if element in hidden:
            continue
        if element.tag in (SVG + "rect", SVG + "circle") and element.get("fill") != "none":
            shapes.append(element)
        if element.tag == SVG + "text" and element.text:
            for x, y in places_of(element):
                below = next((shape.get("fill") for shape in reversed(shapes) if holds(shape, x, y)), "#fff")
                grounds = patterns.get(below) or [channels(below)]
                least = min(contrast(channels(element.get("fill")), ground) for ground in grounds)
                if least < LEAST_CONTRAST:
                    yield f"{element.text!r} in {element.get('fill')} on {below}: a contrast of {least:.2f}"
                    break


# ---- colours ----


def seen(color, sight):
    """A colour in CIELAB, as it is seen."""
    linear = [part / 12.92 if part <= 0.04045 else ((part + 0.055) / 1.055) ** 2.4 for part in (part / 255 for part in color)]
    red, green, blue = [min(1, max(0, sum(share * part for share, part in zip(row, linear)))) for row in SIGHTS[sight]]
    x = (0.4124564 * red + 0.3575761 * green + 0.1804375 * blue) / 0.95047
    y = 0.2126729 * red + 0.7151522 * green + 0.0721750 * blue
    z = (0.0193339 * red + 0.1191920 * green + 0.9503041 * blue) / 1.08883
    x, y, z = [part ** (1 / 3) if part > 0.008856 else 7.787 * part + 16 / 116 for part in (x, y, z)]
    return 116 * y - 16, 500 * (x - y), 200 * (y - z)


def difference(one, two):
    """CIEDE2000."""
    (l1, a1, b1), (l2, a2, b2) = one, two
    mean = (hypot(a1, b1) + hypot(a2, b2)) / 2
    stretch = 1.5 - 0.5 * sqrt(mean**7 / (mean**7 + 25**7))
    c1, c2 = hypot(stretch * a1, b1), hypot(stretch * a2, b2)
    h1, h2 = degrees(atan2(b1, stretch * a1)) % 360, degrees(atan2(b2, stretch * a2)) % 360
    turn = (h2 - h1 + 180) % 360 - 180
    light, chroma, hue = (l1 + l2) / 2, (c1 + c2) / 2, (h1 + turn / 2) % 360
    t = 1 - 0.17 * cos(radians(hue - 30)) + 0.24 * cos(radians(2 * hue)) + 0.32 * cos(radians(3 * hue + 6)) - 0.2 * cos(radians(4 * hue - 63))
    dl = (l2 - l1) / (1 + 0.015 * (light - 50) ** 2 / sqrt(20 + (light - 50) ** 2))
    dc = (c2 - c1) / (1 + 0.045 * chroma)
    dh = 2 * sqrt(c1 * c2) * sin(radians(turn / 2)) / (1 + 0.015 * chroma * t)
    rotation = -2 * sqrt(chroma**7 / (chroma**7 + 25**7)) * sin(radians(60 * exp(-(((hue - 275) / 25) ** 2))))
    return sqrt(dl * dl + dc * dc + dh * dh + rotation * dc * dh)


def monitors_of(root):
    """What the head of each monitor is filled with, in order."""
    heads = [group for group in root.iter(SVG + "g") if (group[0].text or "").startswith("monitor ")]
    return [tuple(shape.get("fill") for shape in head.iter(SVG + "rect")) for head in heads]


def like_colours(root):
    """Monitors of a picture that can't be told apart."""
    heads = monitors_of(root)
    if len(set(heads[:2 * COLOURS])) < len(heads[:2 * COLOURS]):
        yield "two monitors have the same colour and hatch"
    for (one, *_), (two, *_) in combinations(heads[:COLOURS], 2):
        for sight in SIGHTS:
            far = difference(seen(channels(one), sight), seen(channels(two), sight))
            if far < LEAST_DIFFERENCE:
                yield f"{one} and {two} differ by {far:.1f} to who has {sight}"
    for head in heads[COLOURS:]:
        if len(head) < 2 or not head[1].startswith("url(#bar"):
            yield "a monitor after the eighth without a hatch"


# ---- rows and print ----


def mixed_rounds(root):
    """Rows of several events that are not of one process."""
    for group in root.iter(SVG + "g"):
        processes = re.findall(r"(?:^|; )(\d+) [^ ,:]+(?:, line \d+)?: ", group[0].text or "")
        if len(set(processes)) > 1:
            yield f"a row of the processes {', '.join(sorted(set(processes)))}"


def crossed_numbers(root):
    """What changed in a monitor, where it comes to the numbers of the lines."""
    left = {text.text: float(text.get("x")) for text in root.iter(SVG + "text") if text.text in ("what changed inside", "line")}
    for text in root.iter(SVG + "text") if len(left) == 2 else ():
        x, words = float(text.get("x")), (text.text or "").rstrip()
        if x == left["what changed inside"] + SWATCH and x + 0.57 * float(text.get("font-size")) * len(words) > left["line"]:
            yield f"{words!r} comes to the numbers of the lines"


def looks_faults(root):
    """What is wrong with how a picture looks."""
    yield from low_texts(root)
    yield from crossed_numbers(root)
    yield from like_colours(root)
    yield from mixed_rounds(root)
    styles = [style.text for style in root.iter(SVG + "style")]
    if styles != ["@media print{svg:root{width:100%;height:100%}}"]:
        yield "no rule that fits it to a page that is printed"
