"""The table's page in a headless browser: what it shows is what the library answers through outline.py. Called by tests/table; a fault of the page, or a complaint in its console, fails it."""
import re
import sys
import time
import xml.etree.ElementTree as xml

sys.dont_write_bytecode = True
sys.path[:0] = ["examples/python", "tools", "tests"]
import browser
import job as fields
import outline
from table_server import Table

SHOWN = """return [...document.querySelectorAll('#drawing [data-word]')].map(path => [Number(path.dataset.path), path.dataset.word, path.dataset.points]).sort((a, b) => a[0] - b[0])"""
RINGS = """return [...document.querySelectorAll('#drawing [data-record]')].map(path => [Number(path.dataset.record), path.dataset.points]).sort((a, b) => a[0] - b[0])"""
TEXT = "return document.getElementById('text').value"
# Where something of the drawing is on the screen: the middle of a shape's box.
MIDDLE = "const box = document.querySelector(arguments[0]).getBoundingClientRect(); return [box.left + box.width / 2, box.top + box.height / 2]"
# The least contrast of words and what they stand on, and of whom.
CONTRAST = """
const light = words => { const [r, g, b] = words.match(/[\\d.]+/g).map(Number).map(v => (v /= 255) <= 0.03928 ? v / 12.92 : ((v + 0.055) / 1.055) ** 2.4); return 0.2126 * r + 0.7152 * g + 0.0722 * b };
const back = at => { for (; at; at = at.parentElement) { const colour = getComputedStyle(at).backgroundColor; if (!/, 0\\)$|transparent/.test(colour)) return colour } };
let least = [99, ''];
for (const at of document.querySelectorAll('h1, h2, h3, p, li, label, button:not(:disabled), pre, textarea, select, summary, td')) {
  if (!at.checkVisibility() || !at.textContent.trim() || getComputedStyle(at).color.includes('color(')) continue;
  const [a, b] = [light(getComputedStyle(at).color), light(back(at))].sort((x, y) => y - x), ratio = (a + 0.05) / (b + 0.05);
  if (ratio < least[0]) least = [ratio, at.outerHTML.slice(0, 120)];
}
return least"""


class Page:
    def __init__(self, web, host):
        self.web, self.host = web, host
        self.load()

    def load(self):
        self.web.go(f"http://{self.host}/")
        self.web.wait("return document.documentElement.dataset.ready")

    def until(self, check, what):
        """A check that must hold within some seconds: the page asks the table, which takes a moment."""
        end, seen = time.monotonic() + 20, None
        while time.monotonic() < end:
            seen = check()
            if seen is True:
                return
            time.sleep(0.05)
        raise AssertionError(f"{what}: {seen}")

    def job(self):
        """The job that stands there as text; no bytes while the text is bad."""
        try:
            return fields.from_text(self.web.run(TEXT)).bytes()
        except fields.Bad:
            return b""

    def agrees(self, rate=0):
        """The outlines and the listing on the page are those of the job that stands beside them as text."""
        data = self.job()
        want = [[place, ".".join(map(str, path.points))] for place, path in enumerate(outline.finish(data))]
        lines = outline.listing(data, rate)
        words = [line.split()[0] for line in lines.splitlines()[1:]]
        got = self.web.run(SHOWN)
        shown = [[place, ".".join(str(tuple(map(int, point.split(",")))) for point in points.split())] for place, _, points in got]
        if shown != want or [word for _, word, _ in got] != words[: len(got)]:
            return (shown, want)
        return self.web.run("return document.getElementById('listing').textContent") == lines or "the listing is another"

    def sample(self, name):
        self.web.run("const list = document.getElementById('sample'); list.value = arguments[0]; list.dispatchEvent(new Event('change'))", name)
        with open(f"samples/{name}.txt") as file:
            data = fields.from_text(file.read()).bytes()
        self.until(lambda: self.job() == data or "another text", f"the sample {name}")
        return data

    def write(self, text):
        self.web.run("const text = document.getElementById('text'); text.value = arguments[0]; text.dispatchEvent(new Event('input'))", text)

    def at(self, selector):
        return self.web.run(MIDDLE, selector)

    def counts(self, selector):
        return self.web.run("return document.querySelectorAll(arguments[0]).length", selector)

    def words(self, selector):
        return self.web.run("return [...document.querySelectorAll(arguments[0])].map(at => at.textContent)", selector)

    def sound(self):
        fault, complaints = self.web.run("return document.documentElement.dataset.fault || null"), self.web.complaints()
        assert fault is None and not complaints, (fault, complaints)


def in_place(page):
    """Each outline lies on the sheet where its points say: one scale both ways, y upwards."""
    boxes = page.web.run("""return [...document.querySelectorAll('#drawing [data-word]')].map(path => { const b = path.getBBox(); return [path.dataset.points, b.x, b.y, b.x + b.width, b.y + b.height] })""")
    ends = []
    for points, left, top, right, bottom in boxes:
        xs, ys = zip(*(tuple(map(int, point.split(",")))[:2] for point in points.split()))
        ends += [((min(xs), max(ys)), (left, top)), ((max(xs), min(ys)), (right, bottom))]
    (x, y), (across, down) = ends[0]
    (x2, _), (across2, _) = ends[1]
    scale = (across2 - across) / (x2 - x)
    assert scale > 0
    for (px, py), (left, top) in ends:
        assert abs(across + (px - x) * scale - left) < 1 and abs(down - (py - y) * scale - top) < 1, (px, py, left, top)


def draws(page):
    web = page.web
    page.until(page.agrees, "the page as it begins")
    in_place(page)
    began, (x, y) = web.run(TEXT), page.at("[data-point='6']")
    web.pointer((x, y), "down", (x + 10, y + 25), (x + 20, y + 50), "up")
    page.until(lambda: web.run(TEXT) != began or "nothing moved", "dragging the plate's corner")
    page.until(page.agrees, "the plate's corner")
    x2, y2 = page.at("[data-point='6']")
    assert abs(x2 - x - 20) < 2 and abs(y2 - y - 50) < 2, (x, y, x2, y2)
    in_place(page)
    web.press("Control+z")
    page.until(lambda: web.run(TEXT) == began or web.run(TEXT), "the corner taken back")
    page.sample("crossed")
    page.until(page.agrees, "a sample")
    assert page.counts("#drawing > .made") == 1, "the crossing is not marked"
    before = web.run(TEXT)
    x, y = page.at("[data-point='3']")
    web.pointer((x, y), "down", (x + 30, y + 15), (x + 60, y + 40), "up")
    page.until(lambda: web.run(TEXT) != before or "nothing moved", "dragging")
    page.until(page.agrees, "a dragged point")
    x, y = page.at("[data-edge='0']")
    web.pointer((x, y), "down", "up", "down", "up")
    page.until(lambda: len(fields.read(page.job()).points) == 5 or web.run(TEXT), "double-clicking an edge")
    page.until(page.agrees, "a point more")
    assert web.run("return document.getElementById('chosen-name').textContent") == "Point 1, record 0"
    web.press("Left", "Shift+Up", "Delete")
    page.until(lambda: len(fields.read(page.job()).points) == 4 or web.run(TEXT), "removing it")
    for _ in range(5):
        web.press("Control+z")
    page.until(lambda: web.run(TEXT) == before or web.run(TEXT), "undoing all of it")
    left, top = page.at("#drawing")
    web.press("r")
    web.pointer((left - 60, top - 60), "down", "up", (left + 80, top - 40), "down", "up", (left + 10, top + 90), "down", "up")
    web.press("Enter")
    page.until(lambda: len(fields.read(page.job()).records) == 2 or web.run(TEXT), "a new ring")
    page.until(page.agrees, "a new ring")
    web.click("#line")
    web.pointer((left - 90, top), "down", "up", (left + 90, top + 9), "down", "up")
    web.click("#line")
    page.until(lambda: page.counts("[data-word='line']") == 1 or web.run(TEXT), "a new line")
    page.until(page.agrees, "a new line")
    page.sound()
    print("table: in the browser: dragged, added, removed, undone and drawn anew, each time the library's outlines")


def writes(page):
    web = page.web
    page.write("settings 0\nring 0 - 0,0 60000,0 60000,40000 0,40000\nring 1 - 9,9 5000,5000,7\n")
    page.until(lambda: page.counts("[data-word='line']") == 1 or web.run(SHOWN), "the text's drawing")
    page.until(page.agrees, "the text's drawing")
    web.type("#rate", "250")
    page.until(lambda: page.agrees(250), "the charge")
    assert "charge" in web.run("return document.getElementById('listing').textContent")
    web.run("const rate = document.getElementById('rate'); rate.value = '1001'; rate.dispatchEvent(new Event('input'))")
    page.until(lambda: page.words("#refusal h2") == ["Refused 13, bad rate"] or page.words("#refusal h2"), "a bad rate")
    web.run("const rate = document.getElementById('rate'); rate.value = ''; rate.dispatchEvent(new Event('input'))")
    page.until(page.agrees, "no rate")
    page.write("settings 0\nring 0 - 0,0 1.5,2\n")
    page.until(lambda: page.words("#text-bad:not([hidden])") == ["line 2: not a whole number: 1.5; one unit is a micrometre"] or page.words("#text-bad"), "a bad line")
    page.sample("refused")
    page.until(lambda: page.words("#refusal h2") == ["Refused 7, muddled"] or page.words("#refusal h2"), "a refusal")
    card = page.words("#refusal")[0]
    assert outline.refusals()[7][1][1:] in card and "Here: point 2" in card and "What to do: give every ring one record" in card, card
    data = page.sample("lost")
    page.until(page.agrees, "rings without an outline")
    reasons = outline.Work(data, finished=True).reasons()
    assert page.words("#reasons .why") == list(map(str, reasons)) and page.words("#reasons .lost .who") == ["1", "2", "3"]
    assert web.run("return [...document.querySelectorAll('[data-lost]')].map(at => at.dataset.lost)") == ["1", "2", "3"]
    assert not page.counts("#refusal:not([hidden])")
    page.sound()
    print("table: in the browser: text both ways, the charge, refusals with what to do, rings without an outline in red")


def mends(page):
    """Only where the library can."""
    if not outline.has("mend"):
        return
    broken = "settings 0\npoint 0,0 1 0 0\npoint 90,0 2 0 0\npoint 0,90 0 0 0\nrecord 0 - 0\n"
    page.write(broken)
    page.until(lambda: page.words("#refusal h2") == ["Refused 6, loose"] or page.words("#refusal h2"), "loose links")
    page.web.click("#mend")
    page.until(lambda: page.counts("[data-word='piece']") == 1 or page.words("#refusal"), "mending")
    page.until(page.agrees, "a mended job")
    page.sound()
    print("table: in the browser: backward links mended")


def agree(page, work):
    """The rings and what is due of them, on the page and in a work space that took the same steps."""
    rings = work.rings()
    want = [[ring.record, " ".join(",".join(map(str, point)) for point in ring.points)] for ring in rings if ring.points]
    if page.web.run(RINGS) != want:
        return (page.web.run(RINGS), want)
    due = [f"due: {outline.DUE[ring.due]}" for ring in rings if ring.due not in (None, outline.DONE)]
    got = [words.split(",")[0] for words in page.words("#rings .why") if words.startswith("due: ")]
    return got == due or (got, due)


def steps(page):
    web, work = page.web, outline.Work(page.sample("crossed"))
    page.until(page.agrees, "the sample before steps")
    web.click("#mode-step")
    page.until(lambda: agree(page, work), "opened")
    web.press("Shift+A")
    work.keep(ord("A"))
    page.until(lambda: page.counts("#kept [data-name='A'] svg path") == 1 or page.counts("#kept svg"), "a kept state, small")
    # A click on a ring steps it: on its edge's middle.
    for _ in range(3):
        work.step(0)
        web.run("window.before = document.getElementById('progress').textContent")
        web.click("#rings [data-record='0'] button")
        x, y = page.at("#drawing [data-record='0']")
        web.pointer((x - 60, y), "down", "up")
        page.until(lambda: web.run("return document.getElementById('progress').textContent !== window.before") or "no step", "a click on a ring")
        page.until(lambda: agree(page, work), "a step by a click")
    while len(work.rings()) == 1:
        work.step(0)
        web.press("s")
        page.until(lambda: agree(page, work), "a step by a key")
    web.press("Shift+B")
    work.keep(ord("B"))
    page.until(lambda: page.counts("#kept [data-name='B'] svg path") == 2 or page.counts("#kept svg"), "a second kept state")
    web.press("e")
    work.finish_ring(1 if work.is_done(0) else 0)
    page.until(lambda: agree(page, work), "a ring to its end")
    web.press("a")
    work.go_back(ord("A"))
    page.until(lambda: agree(page, work), "back to A")
    web.click("#kept [data-name='B'] button")
    work.go_back(ord("B"))
    page.until(lambda: agree(page, work), "back to B, by its button")
    web.click("#kept [data-name='A'] button:last-of-type")
    work.drop(ord("A"))
    page.until(lambda: page.counts("#kept svg") == 1 or page.counts("#kept svg"), "dropping A")
    web.press("a")
    page.until(lambda: page.words("#refusal h2") == ["Refused 14, unknown name"] or page.words("#refusal h2"), "A is kept no more")
    assert agree(page, work) is True
    web.run("document.getElementById('order').value = 'falling'; document.getElementById('speed').value = 30")
    web.click("#play")
    while not work.all_done():
        work.step(max(ring.record for ring in work.rings() if not work.is_done(ring.record)))
    page.until(lambda: agree(page, work), "an order that is played")
    page.until(lambda: web.run("return document.getElementById('progress').dataset.same") == "true" or page.words("#progress"), "the same outlines as in one call")
    shown = [points for _, _, points in web.run(SHOWN)]
    assert shown == [" ".join(",".join(map(str, point)) for point in path.points) for path in work.write()], shown
    assert page.words("#rings .why")[0].startswith(str(work.reasons()[0]))
    page.sound()
    print("table: in the browser: stepped by clicks, keys and in an order, kept, gone back to, dropped; each time the library's rings")


def full(page):
    """Crossings for ever, the job of docs/JOB.md: the steps end with 10, and the page shows how far they came."""
    web = page.web
    web.click("#mode-draw")
    page.write("settings 0\nring 0 - 0,-1 9,2 7,13 -1,0 8,9 0,0 9,5 10,0 6,16 9,0\n")
    page.until(lambda: page.words("#refusal h2") == ["Refused 10, full"] or page.words("#refusal h2"), "crossings for ever")
    web.click("#mode-step")
    page.until(lambda: page.counts("#steps:not([hidden])") == 1 or page.words("#refusal"), "opened all the same")
    web.press("f")
    page.until(lambda: page.words("#refusal h2") == ["Refused 10, full"] or page.words("#refusal h2"), "the steps' end")
    assert re.search(r"2,04\d points", page.words("#progress")[0]), page.words("#progress")
    page.sound()
    web.click("#again")
    page.until(lambda: page.words("#progress")[0].startswith("0 steps") or page.words("#progress"), "starting again")
    web.click("#mode-draw")
    print("table: in the browser: a job whose crossings never end is stepped to its refusal")


def apart(page):
    """A second tab, with another drawing; the first one's kept state is still its own."""
    web, first = page.web, page.web.here()
    web.tab()
    other = Page(web, page.host)
    other.sample("plate")
    web.click("#mode-step")
    other.until(lambda: other.counts("#drawing [data-record]") == 5 or other.counts("[data-record]"), "a second tab")
    web.press("b")
    other.until(lambda: other.words("#refusal h2") == ["Refused 14, unknown name"] or other.words("#refusal h2"), "B is kept in the other tab")
    other.sound()
    web.call("DELETE", "/window")
    web.turn(first)
    work = outline.Work(fields.from_text(open("samples/crossed.txt").read()).bytes())
    while len(work.rings()) == 1:
        work.step(0)
    web.press("b")
    page.until(lambda: agree(page, work), "the first tab's state")
    page.sound()
    print("table: in the browser: a second tab does not disturb the first")


def lays(page):
    web = page.web
    # A look at the drawing does not end the steps.
    web.click("#mode-draw")
    page.until(page.agrees, "the drawing between steps")
    before = page.words("#progress")
    web.click("#mode-step")
    page.until(lambda: page.counts("#kept svg") == 1 or page.counts("#kept svg"), "what is kept, still kept")
    assert page.words("#progress") == before
    web.click("#mode-draw")
    data = page.sample("lost")
    page.until(page.agrees, "the first of two drawings")
    web.click("#mode-step")
    page.until(lambda: agree(page, outline.Work(data)), "the first of two drawings")
    if not outline.has("lay_together"):
        assert not page.counts("#second:not([hidden])")
        return
    second = fields.from_text(open("samples/plate.txt").read()).bytes()
    web.run("document.getElementById('second-sample').value = 'plate'")
    web.click("#lay")
    work = outline.Work(data)
    work.lay_together(outline.Work(second))
    page.until(lambda: agree(page, work), "two drawings")
    web.press("f")
    page.until(lambda: web.run("return document.getElementById('progress').dataset.same") == "true" or page.words("#progress"), "each drawing's own outlines")
    page.sound()
    print("table: in the browser: a second drawing laid on, each with its own outlines")


def views(page):
    """A window over the rings that are stepped: dragged, typed, turned inside out, taken away; after steps it shows what it then shows."""
    web = page.web
    if not outline.has("records_in"):
        assert not page.counts("#windows:not([hidden])")
        return
    web.click("#mode-draw")
    data = page.sample("plate")
    page.until(page.agrees, "the plate before windows")
    web.click("#mode-step")
    work = outline.Work(data)
    page.until(lambda: agree(page, work), "the plate opened")
    sides = ("left", "top", "right", "bottom")
    typed = lambda: [int(web.run("return document.getElementById(arguments[0]).value", f"window-{side}")) for side in sides]
    said = lambda: web.run("return document.getElementById('window-said').dataset.shown")
    marked = lambda: sorted(web.run("return [...document.querySelectorAll('#drawing [data-shown]')].map(at => Number(at.dataset.shown))"))

    def shows(what):
        want = work.records_in(*typed())
        seen = lambda: (said(), marked(), page.counts("#drawing .box"))
        page.until(lambda: seen() == (" ".join(map(str, want)), want, len(want)) or (*seen(), want), what)
        return want

    web.press("w")
    box = web.run("const box = document.querySelector('#drawing [data-record=\"3\"]').getBoundingClientRect(); return [box.left, box.top, box.right, box.bottom]")
    web.pointer((box[0] - 3, box[1] - 3), "down", (box[0] + 10, box[1] + 10), (box[2] + 3, box[3] + 3), "up")
    page.until(lambda: page.counts("#drawing .window") == 1 or page.counts("#drawing .window"), "a window dragged")
    assert 3 in shows("a window dragged over record 3")
    # A click is a window of one place; the sheet has not moved.
    web.pointer((box[0] - 30, box[1] - 30), "down", "up")
    shows("a window of one place")
    for sides_of in ((-(2**31), -(2**31), 2**31 - 1, 2**31 - 1), (1, 0, 0, 90000), (0, 90000, 90000, 0), (2000000, 2000000, 3000000, 3000000)):
        for side, number in zip(sides, sides_of):
            web.run("const field = document.getElementById(arguments[0]); field.value = arguments[1]", f"window-{side}", str(number))
        web.run("document.getElementById('window-left').dispatchEvent(new Event('change'))")
        shows(f"the window {sides_of}")
    web.run("document.getElementById('window-right').value = 3e10; document.getElementById('window-right').dispatchEvent(new Event('change'))")
    page.until(lambda: "32 bits" in page.words("#said")[0] or page.words("#said"), "a side that is too large")
    for side, number in zip(sides, (0, 0, 90000, 90000)):
        web.run("document.getElementById(arguments[0]).value = arguments[1]", f"window-{side}", str(number))
    web.run("document.getElementById('window-left').dispatchEvent(new Event('change'))")
    web.press("f")
    work.finish()
    page.until(lambda: agree(page, work), "the plate finished")
    shows("the same window after the steps")
    web.press("Escape")
    page.until(lambda: (said(), page.counts("#drawing .window")) == ("none", 0) or said(), "no window")
    page.sound()
    print("table: in the browser: a window dragged and typed shows the records that the library says")


def hovers(page):
    """Only where the library can say what lies in what; elsewhere a path says its own facts."""
    web, data = page.web, page.sample("plate")
    page.until(page.agrees, "the plate")
    x, y = page.at("#drawing")
    box = web.run("const box = document.querySelector('[data-path=\"0\"]').getBoundingClientRect(); return [box.left, box.top]")
    web.pointer((box[0] + 25, box[1] + 25))
    page.until(lambda: page.words("#about")[0].startswith("piece 0, 8 points, 2,248 mm²") or page.words("#about"), "hovering the plate")
    if outline.has("contained"):
        inside = outline.contained(data)[1][0]
        assert web.run("return [...document.querySelectorAll('[data-within]')].map(at => Number(at.dataset.within))") == inside and inside
        assert page.words("#about")[0].endswith("In it: hole 1, hole 2, piece 3, piece 4"), page.words("#about")
    web.pointer((x, 2))
    web.run("document.querySelector(`#reasons [data-record='3'] button`).focus()")
    page.until(lambda: page.words("#about")[0].startswith("piece 3, 3 points, 25 mm²") or page.words("#about"), "the line of a record, by keys")
    web.run("document.activeElement.blur()")
    page.sound()
    print("table: in the browser: a path under the pointer says its size" + (" and what lies in it" if outline.has("contained") else ""))


def saves(page):
    """The files that the buttons give: the job's bytes, the listing's, and a picture that is well-formed and has each path."""
    web, data = page.web, page.job()
    web.run("window.saved = []; URL.createObjectURL = blob => { saved.push(blob); return 'data:,' }")
    for button in ("job", "listing", "picture"):
        web.click(f"#save-{button}")
    page.until(lambda: web.run("return saved.length") == 3 or web.run("return saved.length"), "saving")
    job, listing, picture = web.run("return Promise.all(saved.map(async blob => [...new Uint8Array(await blob.arrayBuffer())]))")
    assert bytes(job) == data and bytes(listing).decode() == outline.listing(data)
    root = xml.fromstring(bytes(picture))
    assert sum("data-word" in shape.attrib for shape in root) == len(outline.finish(data)) and not [shape for shape in root if shape.get("class") in ("hit", "grip")]
    page.sound()
    print("table: in the browser: the job, the listing and the picture are saved")


def narrow(page):
    """A phone's width: nothing is cut off, a finger drags a point; both themes can be read."""
    web = page.web
    web.size(360, 740)
    page.sample("crossed")
    page.until(page.agrees, "a sample on a phone")
    for mode in ("step", "draw"):
        web.click(f"#mode-{mode}")
        page.until(lambda: page.counts(f"#{mode if mode == 'draw' else 'steps'}:not([hidden])") == 1 or mode, "a mode on a phone")
        wide = web.run("return document.documentElement.scrollWidth")
        assert wide <= 360, f"the page is {wide} wide"
        for theme in ("light", "dark"):
            web.theme(theme)
            ratio, whose = web.run(CONTRAST)
            assert ratio >= 4.5, (theme, ratio, whose)
    before = web.run(TEXT)
    x, y = page.at("[data-point='1']")
    web.pointer((x, y), "down", (x - 20, y + 30), (x - 30, y + 40), "up", kind="touch")
    page.until(lambda: web.run(TEXT) != before or "nothing moved", "a finger")
    page.until(page.agrees, "a point dragged by a finger")
    page.sound()
    print("table: in the browser: a phone's width, a finger, both themes readable")


def main():
    table = Table()
    try:
        web = browser.Browser()
        try:
            page = Page(web, table.host)
            web.size(1280, 860)
            for part in (draws, writes, mends, steps, apart, lays, views, full, hovers, saves, narrow):
                part(page)
        except Exception:
            web.shot("target/table.png")
            print("table: target/table.png is the page as it was", file=sys.stderr)
            raise
        finally:
            web.close()
    finally:
        table.end()


if __name__ == "__main__":
    if browser.missing():
        print(f"table: skipped: the page in a browser: no {browser.missing()}; install the Debian packages chromium and chromium-driver")
    else:
        main()
