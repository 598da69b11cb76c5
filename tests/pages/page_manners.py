"""How a page behaves: focus, keys, Back, words that are refused, what is told briefly, predictions, other schedules, the point of no return."""
import json
import re
import time
import zlib

from page_data import Play, limited, prospects_of

# A writer works alone for long, after its reader has ended.
STRETCH = b"""type shelf = monitor; var n: integer;
procedure entry put(x: integer); begin n := x end;
begin n := 0 end;
reader = process(s: shelf); begin s.put(0) end;
writer = process(s: shelf); var i: integer; begin for i := 1 to 30 do begin s.put(i); display(i) end end;
var s: shelf; r: reader; w: writer;
begin init s, r(s), w(s) end.
"""

# Each of four displays one value: 24 outcomes, and each choice after the starts says which value is next.
ORDERS = b"""type gate = monitor; var open: boolean; q: queue;
procedure entry pass(x: integer); begin display(x) end;
begin open := true end;
p = process(g: gate; x: integer); begin g.pass(x) end;
var g: gate; a, b, c, d: p;
begin init g, a(g, 1), b(g, 2), c(g, 3), d(g, 4) end.
"""

SIGNS = {"d": "\u2016", "c": "\u25b7", "g": "\u25a5"}
WRONG = ("x", "0..1", "99", "0 1", "00", "0.", "-", "0x1", "none.1", ".".join("0" * 101))
HALF_RIGHT = ("7.7", "0.0.9", "0.0.1.0.0.0", "0.0.1.0.0.1.1")


def type_word(browser, text):
    browser.do(f"(() => {{ const field = $('word'); field.value = {json.dumps(text)}; field.dispatchEvent(new Event('change')); }})()")


def check_focus(check, browser, path):
    """A control that is used keeps the focus, at the ends of the schedule too."""
    browser.load(path)
    for key in "0010":
        browser.press(key)
    for name in ("back", "back", "forward", "first", "back", "last", "forward", "key", "predict", "first0", "simplest0", "another0", "point", "listed", "go0", "go1"):
        if browser.do(f"$('{name}') === null"):
            check(name in ("point", "go0", "go1"), f"there is no control {name}")
            continue
        browser.do(f"$('{name}').focus()")
        browser.press("Enter")
        focus = browser.do("document.activeElement.id")
        check(focus == name or name == "point" or name.startswith("go") and focus.startswith("go"), f"{name} was used, and {focus!r} has the focus")
        if name == "predict":
            browser.press("Enter")


def check_keys(check, browser, path):
    """Digits choose after copying; arrows in a panel are its own."""
    browser.load(path)
    browser.press("0")
    browser.click("#copy")
    browser.press("0")
    check(browser.do("word.join('.')") == "0.0", f"a digit after copying: {browser.do('word')}, {browser.word()}")
    for panel in ("text", "play", "picture", "key"):
        browser.do(f"$('{panel}').focus()")
        for key in ("ArrowLeft", "ArrowRight", "Home", "End"):
            browser.press(key)
            check(browser.do("at") == 2, f"{key} in {panel} moves in the schedule")
    browser.do("document.activeElement.blur()")
    browser.press("ArrowLeft")
    check(browser.do("at") == 1, "an arrow outside of the panels")


def check_back(check, browser, path):
    browser.load(path)
    for key in "001":
        browser.press(key)
    for word in ("0.0", "0", "none"):
        browser.back()
        check(browser.word() == word and browser.do("at === word.length"), f"Back leads to {browser.word()}, not to {word}")


def check_typed(check, browser, path, trace):
    """A word that can't be read is refused beside its field, and one that can't be played is played as far as it goes, in the words of `trace`."""
    browser.load(path)
    browser.press("0")
    for text in WRONG:
        type_word(browser, text)
        wanted = trace(text)[2].splitlines()[1].removeprefix(f"--schedule {text}: ")
        check(browser.text("#refused") == wanted, f"{text!r}: {browser.text('#refused')!r}, not {wanted!r}")
        check(browser.do("word.join()") == "0" and browser.do("$('word').getAttribute('aria-invalid')") == "true", f"{text!r} is played")
        check(browser.word() == text, f"{text!r} stays in its field: {browser.word()!r}")
    for text in HALF_RIGHT:
        type_word(browser, text)
        said = browser.text("#refused")
        check(said and said in trace(text)[1].splitlines(), f"{text}: {said!r}, and trace: {trace(text)[1]}")
    type_word(browser, "0.0")
    check(browser.text("#refused") == "" and browser.do("$('word').getAttribute('aria-invalid')") is None, "what is right is refused")


def check_prediction(check, browser, path, is_endless):
    """What can still come is hidden until one has chosen, and then told of each choice there was."""
    browser.load(path)
    told = "document.querySelectorAll('.go .bar, .go .loss, #can, .gone, #point').length"
    left = "[...document.querySelectorAll('#outcomes small')].filter(s => /left|can still come|no more/.test(s.textContent)).length"
    browser.press("0")
    before = browser.do(told) + browser.do(left)
    check(before > 0, "nothing is told of what can still come")
    browser.click("#predict")
    check(browser.do(told) + browser.do(left) == 0, "what can still come is told before one has chosen")
    options = browser.do("NODES[play(word).node].options.length")
    browser.press("0")
    sign = ".kind" if is_endless else ".bar"
    check(browser.do(f"document.querySelectorAll('#review {sign}').length") >= options, "what could come of each choice is told after it")
    check(browser.do(told) == 0, "and the next one is hidden")
    browser.click("#predict")
    check(browser.do(told) + browser.do(left) > 0, "predictions end")


def check_another(check, browser, path, count):
    """Another schedule of an outcome leads to it, and is another one."""
    browser.load(path)
    for place in range(count):
        ending = f"[outcomes[{place}].end.kind, outcomes[{place}].output].join()"
        if browser.do(f"document.querySelector('#another{place}') === null"):
            check(browser.do(f"outcomes[{place}].count === 1n"), f"there is no other schedule of outcome {place}")
            continue
        words = []
        for _ in range(4):
            browser.click(f"#another{place}")
            words.append(browser.do("word.join('.')"))
            found = browser.do("(() => { const s = play(word); return [s.end.kind, isEndless ? '' : s.output.join(' ')].join() })()")
            check(found == browser.do(ending), f"another schedule of {browser.do(ending)}: {words[-1]} leads to {found}")
        check(all(a != b for a, b in zip(words, words[1:])), f"the same schedule again: {words}")


def point_of(data, word):
    """After how many choices of a word only its end can come: of each choice what can come is looked up in another way."""
    coming, play, ends = prospects_of(data), Play(data), []
    ends.append(coming[play.node])
    for number in word:
        play.take(number)
        ends.append({tuple(limited(play.end))} if play.end else coming[play.node])
    return next(place for place, each in enumerate(ends) if len(each) == 1)


def check_point(check, browser, path, data):
    """The point of no return of first and simplest schedules, and the button that goes there."""
    browser.load(path)
    marked = 0
    for place in range(browser.do("outcomes.length")):
        for button in ("first", "simplest"):
            if browser.do(f"$('{button}{place}') === null"):
                continue
            browser.click(f"#{button}{place}")
            wanted = point_of(data, browser.do("word"))
            if wanted == 0:
                continue
            marked += 1
            check(browser.do("document.querySelectorAll('#picture line.point').length") >= 1, f"{button} {place}: no point is marked in the lanes")
            low = browser.do("Number(document.querySelector('#picture line.point').getAttribute('y1'))")
            heights = browser.do("[...document.querySelectorAll('#lanes .taken .opt')].map(shape => Number(shape.getAttribute('y')) + 9)")
            check(sum(height < low for height in heights) == wanted, f"{button} {place}: the line is at {low}, the choices at {heights}, and the point after {wanted}")
            check(browser.do("$('point') !== null"), f"{button} {place}: there is no button")
            if browser.do("$('point') !== null"):
                browser.click("#point")
                check(browser.do("at") == wanted, f"{button} {place}: the point of no return is at {browser.do('at')}, not at {wanted}")
    check(marked > 0, "no schedule has a point of no return")


def check_known_point(check, browser, path, data):
    """A page that does not have all states tells no point but the one that all states have."""
    browser.load(path)
    for place in range(browser.do("outcomes.length")):
        if browser.do(f"$('first{place}') === null"):
            continue
        browser.click(f"#first{place}")
        place, word = browser.do("(pointOf(play(word)) || { place: null }).place"), browser.do("word")
        check(place in (None, point_of(data, word)), f"with few states the point of no return of {word} is at {place}, not at {point_of(data, word)}")


def check_brief(check, browser, path, job):
    """A long stretch is told briefly in button, footer and lanes, and whole by a click."""
    browser.load(path)
    word = [0, 0, 1, 1, 1]
    story = job.trace(str(job.program), word)["events"]
    last = max(place for place, event in enumerate(story) if "choice" in event)
    events = story[last:]
    brief = f"then 2 w alone: {len(events) - 4} events, displays 1 .. 30"
    type_word(browser, "0.0.1.1")
    check(brief in browser.text("#go1"), f"the button: {browser.text('#go1')[:300]}")
    rows = "document.querySelectorAll('#lanes circle').length"
    browser.press("1")
    said, dots = browser.text("#said"), browser.do(rows)
    check(brief in said and len(said) < 400, f"the footer: {said[:400]}")
    check(dots < len(story) - 60, f"{dots} rows in the lanes, of {len(story)}")
    browser.click("#more")
    check("displays 17" in browser.text("#said"), "the footer is not whole after a click")
    browser.click("#more")
    check(browser.text("#said") == said, "the footer is brief again")
    browser.click("#lanes .pick .hit", browser.do("document.querySelectorAll('#lanes .pick .hit').length - 1"))
    check(browser.do(rows) == len(story), f"{browser.do(rows)} rows in the lanes after a click, of {len(story)}")


def check_signs(check, browser, path):
    """At every width a label of delay, continue and gate begins with its sign, and the key has each of them."""
    browser.load(path)
    for kind, sign in SIGNS.items():
        says = browser.do(f"EVENTS.filter(e => e.kind === '{kind}').flatMap(e => [...saying(e), ...[200, 60, 30].map(width => cut(saying(e).at(-1), width))])")
        check(says and all(text.startswith(sign) for text in says), f"{kind}: {says and says[:5]}")
    check(browser.do("$('signs') === null"), "the key is open at first")
    browser.click("#key")
    key = browser.text("#signs")
    for sign in (*SIGNS.values(), "\u2205", "point of no return", "ahead"):
        check(sign in key, f"{sign} is not in the key: {key[:300]}")


# What says nothing by itself: grounds, lines of life, letters, and the colours of monitors.
PLAIN = {"band", "life", "hit", "pick", "text", "dim", "lab", "loud", "broken", "ended", "head", "later", "soft", "strong", "held", "hatched", "plate",
         *(f"m{m}" for m in range(8)), "finished", "all-waiting", "run-error", "choice-limit", "step-limit", "output-limit", "alone", "spins", "beyond"}
DRAWN = """(id => {
  const within = element => [...element.children].flatMap(child => [child, ...within(child)]);
  return [...new Set(within($(id)).flatMap(shape => (shape.getAttribute("class") || "").split(" ")))].filter(look => look);
})"""


def check_key(check, browser, paths):
    """Each sign that lanes draw stands in the key."""
    drawn = set()
    for path in paths:
        browser.load(path)
        browser.click("#key")
        key = set(browser.do(f"{DRAWN}('signs')"))
        for place in range(min(browser.do("outcomes.length"), 4)):
            if browser.do(f"$('first{place}') === null"):
                continue
            browser.click(f"#first{place}")
            for _ in range(2):
                found = set(browser.do(f"{DRAWN}('lanes')")) - PLAIN
                check(found <= key, f"{path.name}: signs that are not in the key: {found - key}")
                drawn |= found
                browser.press("End")
    wanted = {"cross", "edge", "stuck", "ever", "point", "folded", "ahead", "swatch", "taken", "opt", "box", "wait", "arrow", "in", "dot"}
    check(wanted <= drawn, f"signs that no page draws: {wanted - drawn}")


def check_stuck(check, browser, path):
    """Who waits, and nobody is left to end it, is told by a cross, and not by red alone."""
    browser.load(path)
    place = browser.do("outcomes.findIndex(each => each.end.kind === 'all-waiting')")
    browser.click(f"#first{place}")
    browser.press("End")
    waiting = browser.do("play(word).status.filter(status => status === 'gate' || status === 'delayed').length")
    found = browser.do("[document.querySelectorAll('#lanes .wait.ever').length, document.querySelectorAll('#lanes .stuck').length]")
    check(waiting > 1 and found == [waiting, waiting], f"{waiting} wait for good, and {found} waits have a red edge, and a cross")


def check_ahead(check, browser, path):
    """What makes pale what lies ahead lies under all letters, and those ahead have a look of their own."""
    browser.load(path)
    browser.click("#first0")
    browser.press("ArrowRight")
    order = browser.do("[...document.querySelectorAll('#lanes text, #lanes .ahead')].map(shape => shape.getAttribute('class'))")
    check(order and order.count("ahead") == 1 and order[0] == "ahead", f"letters under what is pale: {order and order[:4]}")
    check(browser.do("document.querySelectorAll('#lanes .later text').length") > 10, "no letters ahead")


def check_taken_away(check, browser, path):
    """With more than six outcomes a button says what its choice takes away."""
    browser.load(path)
    check(browser.do("outcomes.length") == 24, f"{browser.do('outcomes.length')} outcomes of four displays in any order")
    # The starts, and then the one that was chosen has displayed its value.
    type_word(browser, "0.0.0.0")
    here = browser.do("ways(play(word).node, K - play(word).used).size")
    check(here == 24, f"{here} outcomes before the first display")
    said = browser.text("#go1 .loss")
    check(said.startswith("takes away 18 of 24 outcomes"), f"of four: {said!r}, {browser.text('#go1')}")
    browser.press("1")
    for _ in range(9):
        if browser.do("play(word).output.length") == 1 and browser.do("NODES[play(word).node].options.includes(2)") and browser.text("#go2 .loss"):
            break
        browser.press("1")
    said = browser.text("#go2 .loss")
    check(said.startswith("then only") and "1 2 3 4" in said and "1 2 4 3" in said and "1 3" not in said, f"of three: {said!r}, {browser.text('#go2')}")


def check_titles(check, browser, titled):
    """The heading of a page is the title of the pictures of its program."""
    check(len(titled) > 4, f"{len(titled)} programs with titles")
    for path, title in titled:
        browser.load(path)
        check(browser.text("#title") == title, f"{path.name}: the title {browser.text('#title')!r}, and in pictures {title!r}")


def check_spoken(check, browser, path, page, name):
    """Where the script is blocked the page says so; where every schedule ends nothing is said of going on for ever."""
    check(b'id="blocked"' in page.split(b'id="data"')[0], f"{name}: nothing says that the script is blocked")
    browser.load(path)
    check(browser.do("$('blocked') === null"), f"{name}: it is said that the script is blocked, and it runs")


def check_finite(check, browser, path):
    browser.load(path)
    check("for ever" not in browser.text("#outcomes"), f"every schedule ends, and it is said: {browser.text('#outcomes')}")


def check_print(check, browser, path):
    """Printed are all outcomes, the whole schedule, and all rows of the lanes in pieces."""
    browser.load(path)
    browser.click("#another0")
    rows = browser.do("document.querySelectorAll('#lanes circle').length")
    browser.print()
    check(browser.text("#whole").endswith(browser.word()), "the schedule on paper")
    heights = browser.do("[...document.querySelectorAll('.sheet')].map(sheet => sheet.getAttribute('viewBox').split(' ').map(Number)).map(([, from, , height]) => [from, height])")
    whole = browser.do("+$('lanes').getAttribute('viewBox').split(' ')[3]")
    check(heights and heights[0][0] == 0 and sum(height for _, height in heights) == whole and all(a[0] + a[1] == b[0] for a, b in zip(heights, heights[1:])), f"pieces {heights} of {whole}, {rows} rows")


def check_tab(check, browser, path):
    """With the Tab key alone one comes to each control and to a choice, and sees where one is."""
    browser.load(path)
    seen = []
    for _ in range(40):
        browser.press("Tab")
        seen.append(browser.do("document.activeElement.id"))
        check(browser.do("getComputedStyle(document.activeElement).outlineWidth") == "3px", f"the focus on {seen[-1]!r} is not seen")
        if seen[-1] == "go0":
            break
    wanted = {"word", "copy", "predict", "first0", "simplest0", "another0", "text", "play", "go0"}
    check(wanted <= set(seen), f"the Tab key does not come to {wanted - set(seen)}")
    browser.press("Enter")
    check(browser.word() == "0", f"Enter on a choice: {browser.word()}")


def check_sheets(check, browser, path, name):
    """Each sheet that is printed has letters on it."""
    browser.load(path)
    browser.do("$('first0') && $('first0').click()")
    letters = [len(re.findall(rb"T[jJ]\b", content)) for content in sheets_of(browser.printed())]
    check(letters and min(letters) > 0, f"{name}: letters on the sheets {letters}")


def sheets_of(printed):
    """What is drawn on each page of a PDF."""
    objects = dict(re.findall(rb"(\d+) 0 obj\n?(.*?)endobj", printed, re.S))
    for page in (it for it in objects.values() if re.search(rb"/Type\s*/Page\b", it)):
        content = objects[re.search(rb"/Contents\s+(\d+) 0 R", page)[1]]
        yield zlib.decompress(content[content.index(b"stream") + 6:].lstrip(b"\r\n"))


def check_blocked(check, browser, path):
    """Where the script does not run the page says so."""
    browser.load(path)
    time.sleep(4)
    is_seen = browser.do("document.getElementById('blocked').checkVisibility({ visibilityProperty: true })")
    check(is_seen and "does not run" in browser.text("#blocked"), "the script is blocked, and nothing is seen that says so")


def check_with_layout(check, browser, by_name, folder):
    """What can be seen in a browser alone."""
    check_tab(check, browser, by_name["philosophers-deadlock"])
    for name in ("philosophers-deadlock", "philosophers-five", "readers-first-endless, any length", "many outcomes", "no choice"):
        check_sheets(check, browser, by_name[name], name)
    blocked = folder / "blocked.html"
    blocked.write_bytes(by_name["philosophers-deadlock"].read_bytes().replace(b"script-src 'sha256-", b"script-src 'sha256-A", 1))
    check_blocked(check, browser, blocked)


def check_printed_outcomes(check, browser, path):
    """Printed are all outcomes, also where a screen has some of them."""
    browser.load(path)
    chips = "document.querySelectorAll('#outcomes li:not(.sum) .kind').length"
    shown, all_of_them = browser.do(chips), browser.do("outcomes.length")
    browser.print()
    check(shown < all_of_them == browser.do(chips), f"{browser.do(chips)} outcomes on paper of {all_of_them}, and {shown} on a screen")


def check_manners(check, browser, program_trace, made, by_name):
    """All of it, where `made` are the jobs by their names."""
    deadlock = by_name["philosophers-deadlock"]
    check_focus(check, browser, deadlock)
    check_keys(check, browser, deadlock)
    check_back(check, browser, deadlock)
    check_typed(check, browser, deadlock, program_trace)
    check_prediction(check, browser, deadlock, False)
    check_prediction(check, browser, by_name["philosophers-deadlock, any length"], True)
    check_another(check, browser, deadlock, 3)
    check_another(check, browser, by_name["philosophers-deadlock, any length"], 2)
    check_point(check, browser, deadlock, made["philosophers-deadlock"].data)
    check_known_point(check, browser, by_name["few states"], made["philosophers-deadlock"].data)
    check_brief(check, browser, by_name["long stretch"], made["long stretch"])
    check_signs(check, browser, by_name["bounded-buffer"])
    check_key(check, browser, [deadlock, *(by_name[name] for name in ("two calls", "long stretch", "twelve monitors", "lost-update", "buffer-off-by-one", "philosophers-deadlock, any length"))])
    check_stuck(check, browser, deadlock)
    check_titles(check, browser, [(by_name[name], job.title) for name, job in made.items() if name.startswith("title ")])
    check_ahead(check, browser, deadlock)
    check_taken_away(check, browser, by_name["many outcomes"])
    check_spoken(check, browser, deadlock, made["philosophers-deadlock"].page, "philosophers-deadlock")
    check_finite(check, browser, by_name["philosophers-deadlock, any length"])
    check_print(check, browser, deadlock)
    check_printed_outcomes(check, browser, by_name["many outcomes"])
    check(not browser.faults, f"how pages behave: {browser.faults[:3]}")
