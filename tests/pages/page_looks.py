"""How a page looks: contrast, sizes, and what is on the first screen; with a browser as it is laid out, and without one by the style sheet."""
import re

LEAST_CONTRAST = 4.5
LEAST_SIZE = 24

# ---- by the style sheet ----


def channels(color):
    return [int(color[at:at + 2], 16) for at in (1, 3, 5)]


def mixed(a, b, share):
    """So much of a colour, and the rest of another one."""
    return [share * x + (1 - share) * y for x, y in zip(a, b)]


def light_of(color):
    parts = [part / 255 for part in color]
    red, green, blue = [part / 12.92 if part <= 0.03928 else ((part + 0.055) / 1.055) ** 2.4 for part in parts]
    return 0.2126 * red + 0.7152 * green + 0.0722 * blue


def contrast(a, b):
    high, low = sorted((light_of(a), light_of(b)), reverse=True)
    return (high + 0.05) / (low + 0.05)


class Style:
    """The rules of a style sheet outside of media, in one scheme."""

    def __init__(self, text, is_dark):
        plain, dark = re.split(r"@media screen and \(prefers-color-scheme: dark\) ", text), {}
        self.names, self.rules = {}, []
        body = re.sub(r"@(media|page|keyframes)[^{]*\{(?:[^{}]*\{[^{}]*\})*[^{}]*\}", "", text)
        for selectors, declared in re.findall(r"([^{}]+)\{([^{}]*)\}", body):
            self.rules += [(selector.strip(), self.declared(declared)) for selector in selectors.split(",")]
        if is_dark:
            for part in plain[1:]:
                dark_body = re.match(r"\{((?:[^{}]*\{[^{}]*\})*)", part).group(1)
                for selector, declared in re.findall(r"([^{}]+)\{([^{}]*)\}", dark_body):
                    dark.setdefault(selector.strip(), {}).update(self.declared(declared))
        self.root = {**dict(self.rules)[":root"], **dark.get(":root", {})}
        self.hues = [{**dict(self.rules)[f".m{m}"], **dark.get(f".m{m}", {})} for m in range(8)]
        self.kinds = {selector: declared["--k"] for selector, declared in self.rules if "--k" in declared}

    @staticmethod
    def declared(text):
        return {name.strip(): value.strip() for name, value in (each.split(":", 1) for each in text.split(";") if ":" in each)}

    def color(self, value, hue=None, kind=None):
        """The channels of a colour: a number, a variable, or a mixture of both in sRGB."""
        value = value.strip()
        if value.startswith("#"):
            return channels(value)
        if found := re.fullmatch(r"color-mix\(in srgb, (.*?) ([\w()%-]+), (.*)\)", value):
            share = found.group(2)
            share = self.root[share[4:-1]] if share.startswith("var") else share
            return mixed(self.color(found.group(1), hue, kind), self.color(found.group(3), hue, kind), float(share.rstrip("%")) / 100)
        name = re.fullmatch(r"var\((--\w+)\)", value).group(1)
        return self.color({**(hue or {}), "--k": kind}.get(name) or self.root[name], hue, kind)

    def of(self, selector, name):
        """What the last rule of this selector says."""
        return next((declared[name] for each, declared in reversed(self.rules) if each == selector and name in declared), None)


# Of texts in the lanes: their rule, and on what they stand besides the rows.
LANE_TEXTS = (("svg text", "svg .soft"), ("svg .dim", "svg .soft"), ("svg text.held", "svg .strong"), ("svg text.inv", "svg .dot"), ("svg text.on", "svg .opt"),
              ("svg .later text", "ahead svg .soft"), ("svg .later text.inv", "ahead svg .strong"), ("svg .later text.inv", "ahead svg .dot"))
GROUNDS = ("--ground", "--band", "--mark")


def check_style(check, page):
    """Contrast of all texts by the rules of the style sheet, with opacity, and the least sizes of controls."""
    text = re.search(r"<style>(.*?)</style>", page, re.S).group(1)
    script = page.rsplit("<script>", 1)[1]
    for is_dark in (False, True):
        style, scheme = Style(text, is_dark), "dark" if is_dark else "light"
        low = [*low_texts(style), *low_lanes(style)]
        check(not low, f"contrast by the style sheet, {scheme}: {low}")
    style = Style(text, False)
    for control in ("button", "input", "summary"):
        check(style.of(control, "min-height") == f"{LEAST_SIZE}px", f"{control}: {style.of(control, 'min-height')} high at least")
    check(style.of("button", "min-width") == f"{LEAST_SIZE}px", f"button: {style.of('button', 'min-width')} wide at least")
    sizes = {name: float(re.search(rf"const {name} = ([\d.]+)", script).group(1)) for name in ("H", "CHOICE", "LEAST_SCALE")}
    for name in ("H", "CHOICE"):
        check(sizes[name] * sizes["LEAST_SCALE"] >= LEAST_SIZE, f"a control of the lanes has {sizes[name] * sizes['LEAST_SCALE']} pixels")
    check(style.of(".heads", "position") == "sticky", "the heads of the lanes do not stay")
    check(style.of("#said", "-webkit-line-clamp") == "2", "the footer may have more than two lines")
    medium = "".join(re.findall(r"@media \(max-width: 1150px\) \{((?:[^{}]*\{[^{}]*\})*)", text))
    check("#picture { grid-area: 1 /" in medium and "height: auto" not in medium, "on a screen of 1024 pixels the lanes begin below the other panels")
    phone = "".join(re.findall(r"@media \(max-width: 720px\) \{((?:[^{}]*\{[^{}]*\})*)", text))
    check(re.search(r"#outcomes \{ max-height: none \}", phone), "on a telephone outcomes are cut")
    printed = re.search(r"@media print \{((?:[^{}]*\{[^{}]*\})*)", text).group(1)
    check(style.of(".go small", "display") == "block", "in a button what can still come of it runs into what happens")
    check("h2 { break-after: avoid }" in printed and "details:not([open])" in printed, "on paper a heading may stand alone, or a list that is closed")
    check("#whole { display: block }" in printed and "max-height: none" in printed, "what is printed is cut")


def low_texts(style):
    """Texts in HTML whose contrast is too low on a ground; those with opacity as they are seen through it."""
    grounds = [style.root[name] for name in GROUNDS[:2]]
    low = []
    for selector, declared in style.rules:
        if selector.startswith("svg") or selector.startswith(".bar"):
            continue
        if "color" in declared and "background" not in declared and declared["color"] != "inherit":
            kinds = style.kinds.values() if "--k" in declared["color"] else [None]
            hues = style.hues if re.search(r"--[csl]\)", declared["color"]) else [None]
            for kind in kinds:
                for hue in hues:
                    ratio = min(contrast(style.color(declared["color"], hue, kind), style.color(ground)) for ground in grounds)
                    if ratio < LEAST_CONTRAST:
                        low.append(f"{selector} {kind or (hue or {}).get('--c', '')} {ratio:.1f}")
        elif "color" in declared and "background" in declared:
            ratio = contrast(style.color(declared["color"]), style.color(declared["background"]))
            if ratio < LEAST_CONTRAST:
                low.append(f"{selector} {ratio:.1f}")
        if float(declared.get("opacity", 1)) < 1:
            ground = style.color("var(--ground)")
            ratio = contrast(mixed(style.color("var(--grey)"), ground, float(declared["opacity"])), ground)
            if ratio < LEAST_CONTRAST:
                low.append(f"{selector} with opacity {ratio:.1f}")
    return low


def low_lanes(style):
    low = []
    ahead = float(style.of("svg .ahead", "opacity") or 1)
    for selector, box in LANE_TEXTS:
        for hue in style.hues:
            grounds = [style.color(style.root[name]) for name in GROUNDS] if selector not in ("svg text.held", "svg text.inv", "svg text.on", "svg .later text.inv") else []
            if box and box.startswith("ahead "):
                under = style.color(style.of(box.removeprefix("ahead "), "fill"), hue)
                grounds.append(mixed(style.color("var(--ground)"), under, ahead))
            elif box:
                grounds.append(style.color(style.of(box, "fill"), hue))
            fill = style.of(selector, "fill")
            opacity = float(style.of(selector, "opacity") or 1)
            if fill is None:
                low.append(f"{selector}: no rule")
                continue
            for ground in grounds:
                ratio = contrast(mixed(style.color(fill, hue), ground, opacity), ground)
                if ratio < LEAST_CONTRAST:
                    low.append(f"{selector} on {box or 'rows'} {hue['--c']} {ratio:.1f}")
    return low


# ---- as it is laid out ----

# Each text that is seen, with the colours that are under and over it, opacity and all.
CONTRAST = """(() => {
  const parse = color => {
    const parts = color.match(/[\\d.]+/g).map(Number);
    const scale = color.startsWith("color") ? 255 : 1;
    return { rgb: parts.slice(0, 3).map(part => part * scale), a: parts.length > 3 ? parts[3] : 1 };
  };
  const over = (top, ground, a) => top.map((part, i) => a * part + (1 - a) * ground[i]);
  const light = rgb => {
    const [r, g, b] = rgb.map(part => part / 255).map(part => part <= .03928 ? part / 12.92 : ((part + .055) / 1.055) ** 2.4);
    return .2126 * r + .7152 * g + .0722 * b;
  };
  const ratio = (a, b) => (Math.max(light(a), light(b)) + .05) / (Math.min(light(a), light(b)) + .05);
  const page = parse(getComputedStyle(document.body).backgroundColor).rgb;
  const chain = element => element && element !== document.documentElement ? [...chain(element.parentElement), element] : [];
  const low = new Set();
  const note = (element, found) => {
    if (found < 4.5) low.add(`${element.tagName} ${element.getAttribute("class")} ${element.id} ${element.textContent.slice(0, 12)} ${found.toFixed(1)}`);
  };
  const texts = [...document.querySelectorAll("body *:not(svg *):not(script):not(style)")].filter(element => element.checkVisibility()
    && [...element.childNodes].some(node => node.nodeType === 3 && node.textContent.trim()));
  for (const element of texts) {
    let ground = page;
    let ink = parse(getComputedStyle(element).color).rgb;
    let veil = 1;
    for (const each of chain(element)) {
      const { backgroundColor, opacity } = getComputedStyle(each);
      veil *= +opacity;
      const { rgb, a } = parse(backgroundColor);
      ground = over(rgb, ground, a * veil);
    }
    note(element, ratio(over(ink, ground, veil), ground));
  }
  for (const drawn of document.querySelectorAll("#picture > svg, .heads svg")) {
    const shapes = [...drawn.querySelectorAll("rect, circle, text")].map(element => ({ element, look: getComputedStyle(element), box: element.getBoundingClientRect() }));
    const veilOf = element => chain(element).reduce((veil, each) => veil * +getComputedStyle(each).opacity, 1);
    shapes.forEach(({ element, look, box }, at) => {
      if (element.tagName !== "text" || !element.textContent.trim()) return;
      const [x, y] = [box.x + box.width / 2, box.y + box.height / 2];
      let ground = page;
      let ink = null;
      shapes.forEach((shape, place) => {
        if (place === at) {
          const first = element.querySelector("tspan:not(.swatch)");
          ink = over(parse((first ? getComputedStyle(first) : look).fill).rgb, ground, veilOf(element));
          return;
        }
        const { fill } = shape.look;
        const covers = shape.element.tagName !== "text" && fill !== "none" && !fill.startsWith("url")
          && shape.box.left <= x && x <= shape.box.right && shape.box.top <= y && y <= shape.box.bottom;
        if (!covers) return;
        const { rgb, a } = parse(fill);
        const veil = a * veilOf(shape.element) * +shape.look.fillOpacity;
        ground = over(rgb, ground, veil);
        if (ink) ink = over(rgb, ink, veil);
      });
      note(element, ratio(ink, ground));
    });
  }
  return [...low].slice(0, 8).join("; ");
})()"""

SMALL = """[...document.querySelectorAll("button, input, summary, svg .hit")].filter(element => element.checkVisibility()).map(element => {
  const { width, height } = element.getBoundingClientRect();
  return width < 23.99 || height < 23.99 ? `${element.tagName} ${element.id} ${element.getAttribute("class")} ${width.toFixed(1)}x${height.toFixed(1)}` : "";
}).filter(said => said).slice(0, 8).join("; ")"""

LAID = "$('first0') && $('first0').click(); move('forward'); move('forward'); move('forward')"


def check_looks(check, browser, by_name):
    names = ("philosophers-deadlock", "bounded-buffer", "readers-first-endless, any length", "long stretch", "many outcomes", "philosophers-five")
    for scheme in ("light", "dark"):
        browser.look(1600, 900, scheme)
        for name in names:
            browser.load(by_name[name])
            browser.do("$('key').click()")
            low = browser.do(CONTRAST)
            check(low == "", f"{name}: contrast, {scheme}, at first: {low}")
            browser.do(LAID)
            low = browser.do(CONTRAST)
            check(low == "", f"{name}: contrast, {scheme}, in the middle: {low}")
            browser.do("move('last')")
            low = browser.do(CONTRAST)
            check(low == "", f"{name}: contrast, {scheme}, at the end: {low}")
    for width, height in ((1600, 900), (1024, 768), (390, 844)):
        browser.look(width, height, "light")
        for name in names:
            browser.load(by_name[name])
            browser.do(LAID)
            check_sizes(check, browser, f"{name}, {width}x{height}", width, height)
    browser.look(1600, 900, "light")


def check_sizes(check, browser, name, width, height):
    small = browser.do(SMALL)
    check(small == "", f"{name}: controls smaller than 24 pixels: {small}")
    browser.do("say('what is long '.repeat(200))")
    check(browser.do("$('more').checkVisibility()"), f"{name}: nothing leads to the rest of a long footer")
    lines = browser.do("$('said').clientHeight / parseFloat(getComputedStyle($('said')).lineHeight)")
    check(lines <= 2.1, f"{name}: a footer of {lines} lines")
    check(browser.do("document.documentElement.scrollWidth <= innerWidth"), f"{name}: wider than the screen")
    if (width, height) == (1024, 768):
        top = browser.do("$('lanes').getBoundingClientRect().top")
        check(top < height - 100, f"{name}: the lanes begin at {top}")
    if width == 390:
        check(browser.do("$('outcomes').scrollHeight <= $('outcomes').clientHeight + 1"), f"{name}: outcomes are cut")
    # Without going to the lower end, where the lanes are shorter than their panel.
    moved = browser.do("""(() => {
      const panel = $("picture");
      panel.scrollTop = 1e6;
      return document.querySelector(".heads").getBoundingClientRect().top - panel.getBoundingClientRect().top;
    })()""")
    check(abs(moved) < 6, f"{name}: the heads of the lanes are at {moved} when the lanes are scrolled")
