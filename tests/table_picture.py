"""Takes the README's picture of the table anew: python3 tests/table_picture.py docs/table.png"""
import sys
import time

sys.dont_write_bytecode = True
sys.path[:0] = ["examples/python", "tools", "tests"]
import browser
from table_browser import Page
from table_server import Table

# The picture in README.md: a plate with letters, a ring that crosses itself, a speck, two loops that cancel each other out, a scoring line.
PICTURE = """settings 0
ring 0 - 64000,0 64000,8000 50000,8000 50000,12000 64000,12000 64000,36000 0,36000 0,0
ring 0 - 10500,8000 8000,8000 13000,28000 18000,28000 23000,8000 20500,8000 18000,13000 13000,13000
ring 0 - 40000,8000 30000,8000 25000,13000 25000,23000 30000,28000 40000,28000 45000,23000 45000,13000
ring 0 - 13000,15500 18000,15500 15500,25500
ring 0 - 30000,10500 40000,10500 42500,13000 42500,23000 40000,25500 30000,25500 27500,23000 27500,13000
ring 0 - 70000,18000 86000,32000 86000,18000 70000,36000
ring 0 - 70000,0 86000,13000 86000,0 70000,13000
ring 1 - 60000,31500 4000,31500
"""


def picture(web, host, name):
    page = Page(web, host)
    web.size(1200, 740)
    web.theme("light")
    page.write(PICTURE)
    page.until(page.agrees, "the picture's drawing")
    web.click("#mode-step")
    page.until(lambda: page.counts("#rings li") == 8 or page.counts("#rings li"), "the picture's rings")
    web.press("Shift+A")
    page.until(lambda: page.counts("#kept svg") == 1 or "no A", "A")
    for record in (1, 3, 6):
        web.click(f"#rings [data-record='{record}'] button")
        web.press("e")
        page.until(lambda: web.run("return document.querySelector(arguments[0]).textContent", f"#rings [data-record='{record}'] .why")[:4] in ("done", "area") or record, "a ring to its end")
    web.click("#rings [data-record='5'] button")
    while page.counts("#rings li") == 8:
        web.press("s")
        time.sleep(0.1)
    web.press("Shift+B")
    page.until(lambda: page.counts("#kept svg") == 2 or "no B", "B")
    for side, number in (("left", 66000), ("top", 14500), ("right", 80000), ("bottom", 28000)):
        web.run("document.getElementById(arguments[0]).value = arguments[1]", f"window-{side}", number)
    web.run("document.getElementById('window-left').dispatchEvent(new Event('change'))")
    page.until(lambda: page.counts("#drawing .window") == 1 or "no window", "a window")
    web.run("document.activeElement.blur(); document.querySelector('#rings').scrollTop = 0")
    page.sound()
    web.shot(name)


if __name__ == "__main__":
    table = Table()
    try:
        web = browser.Browser()
        try:
            picture(web, table.host, sys.argv[1])
        finally:
            web.close()
    finally:
        table.end()
