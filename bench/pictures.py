"""The part `draw` of bench/peers: the page that `nvmesgl draw` writes of a script of sixty steps, as a browser without a screen shows it.

What a program can see is looked at: how many pictures there are, which one is shown, whether each cell says the owner that the shell says, what keys and
slider do, what is there without scripts, and of a picture of the window whether its colours are there and nothing is cut off.
"""

import html
import os
import re
import shutil
import struct
import subprocess
import tempfile
import zlib

from entries import shell_of

ROOT = os.path.dirname(os.path.dirname(os.path.abspath(__file__)))
SCRIPT = os.path.join(ROOT, "bench", "sixty.script")
OPTIONS = ["--queues", "2", "--segment", "2"]
# Pages of the pool, and how high the window is for them; the line of the script that is looked at, and which picture that is.
WINDOWS, LINE, PLACE, STEPS = {16: 600, 256: 1100}, 17, 16, 60
BROWSER = ["--headless", "--no-sandbox", "--disable-gpu", "--hide-scrollbars"]
SECTION = re.compile(r'<section id="line(\d+)"([^>]*)>(.*?)</section>', re.S)
CELL = re.compile(r'<b class="([^"]*)"[^>]*title="page (\d+): ([^"]*)"')
OWNER = re.compile(r"(\d+)-(\d+) (free|queue|command) ?(\d+)? ?(.*)$")
# The colours of cells that a picture of the window must have: submission queue, completion queue, free.
COLOURS = {"3d5a80": "a submission queue", "98c1d9": "a completion queue", "eef0f3": "free"}
# What is done in the page, and which picture is shown then.
MOVES = [
    ("the right arrow", "key('ArrowRight')", PLACE + 1),
    ("the left arrow", "key('ArrowLeft')", PLACE - 1),
    ("Home", "key('Home')", 0),
    ("End", "key('End')", STEPS),
    ("the slider", "slide(5)", 5),
]
HAND = """<script>
function key(name) { document.dispatchEvent(new KeyboardEvent('keydown', { key: name })); }
function slide(to) { const bar = document.querySelector('nav input'); bar.value = to; bar.dispatchEvent(new Event('input')); }
%s;
</script>
</body>"""


class Page:
    """The page of a pool of so many pages, and what a browser makes of it."""

    def __init__(self, program, folder, pages):
        self.folder, self.pages = folder, pages
        ran = subprocess.run([program, "draw", "--pages", str(pages), *OPTIONS, SCRIPT], capture_output=True, text=True, check=True)
        self.text = ran.stdout

    def _shown(self, text, *options):
        path = os.path.join(self.folder, "page.html")
        with open(path, "w", encoding="utf-8") as file:
            file.write(text)
        asked = ["chromium", *BROWSER, *options, f"file://{path}#line{LINE}"]
        return subprocess.run(asked, capture_output=True, text=True, check=True, timeout=120).stdout

    def dom(self, text=None):
        """The pictures that the browser has, once scripts have run, each with its number, whether it is shown and its text; and all of the text."""
        shown = self._shown(self.text if text is None else text, "--dump-dom")
        return [(int(number), "hidden" not in marks, inside) for number, marks, inside in SECTION.findall(shown)], shown

    def window(self):
        """A picture of the window: width, height, and the rows of its pixels, three bytes each."""
        path = os.path.join(self.folder, "window.png")
        self._shown(self.text, f"--window-size=1200,{WINDOWS[self.pages]}", f"--screenshot={path}")
        with open(path, "rb") as file:
            return pixels(file.read())


def pixels(png):
    """The pixels of a PNG of 8 bits a channel, without what covers them: width, height, rows."""
    at, data = 8, b""
    while at < len(png):
        size, kind = struct.unpack_from(">I4s", png, at)
        if kind == b"IHDR":
            width, height, depth, colours = struct.unpack_from(">IIBB", png, at + 8)
        elif kind == b"IDAT":
            data += png[at + 8 : at + 8 + size]
        at += 12 + size
    if depth != 8 or colours not in (2, 6):
        raise ValueError("a PNG of another kind")
    step = 3 if colours == 2 else 4
    rows, before, data = [], bytearray(width * step), zlib.decompress(data)
    for row in range(height):
        begin = row * (width * step + 1)
        before = unfiltered(data[begin], bytearray(data[begin + 1 : begin + 1 + width * step]), before, step)
        rows.append(before)
    return width, height, [b"".join(bytes(row[at : at + 3]) for at in range(0, len(row), step)) for row in rows]


def unfiltered(kind, row, above, step):
    """A row of a PNG without its filter."""
    for at in range(len(row) if kind else 0):
        left = row[at - step] if at >= step else 0
        corner = above[at - step] if at >= step else 0
        if kind == 4:
            guess = left + above[at] - corner
            near = min((abs(guess - value), place) for place, value in enumerate((left, above[at], corner)))
            add = (left, above[at], corner)[near[1]]
        else:
            add = (0, left, above[at], (left + above[at]) // 2)[kind]
        row[at] = row[at] + add & 0xFF
    return row


def owners(shell):
    """What each page's cell should say."""
    for first, last, what, number, rest in filter(None, (found and found.groups() for found in map(OWNER.match, shell.ask(".owners")))):
        said = {"free": "free", "queue": "", "command": ""}[what]
        if what == "queue":
            said = f"{'submission' if rest == 'sq' else 'completion'} queue {number}"
        elif what == "command":
            cid, role = rest.split()
            said = f"{'data' if role == 'data' else 'list'} of command {number} {cid}"
        yield from [said] * (int(last) - int(first) + 1)


def wanted(program, pages):
    """For each picture the number of its line, what the step prints, and what the cells say: by the shell."""
    shell = shell_of(program, ["--pages", str(pages), *OPTIONS])
    yield 0, "", list(owners(shell))
    with open(SCRIPT, encoding="utf-8") as file:
        for number, line in enumerate(file, 1):
            said = shell.ask(line.rstrip("\n"))
            if said:
                yield number, said[0], list(owners(shell))
    shell.close()


def pictures_differ(program, page):
    """What is otherwise in the pictures."""
    found, shown = page.dom()
    there = list(wanted(program, page.pages))
    if [number for number, _, _ in found] != [number for number, _, _ in there]:
        yield f"{len(found)} pictures, and not {len(there)}"
    if [number for number, is_shown, _ in found if is_shown] != [LINE] or f"{PLACE} of {STEPS}" not in shown:
        yield f"not the picture of line {LINE} alone is shown"
    for (number, _, inside), (_, reply, says) in zip(found, there):
        cells = [(int(place), said) for _, place, said in CELL.findall(inside)]
        if cells != list(enumerate(says)):
            yield f"the cells of line {number}"
        if html.escape(reply.split(" ", 1)[-1]) not in inside:
            yield f"the answer of line {number}"


def moves_differ(page):
    """What keys, slider and a page without scripts do otherwise."""
    for name, does, place in MOVES:
        found, shown = page.dom(page.text.replace("</body>", HAND % does))
        if [at for at, (_, is_shown, _) in enumerate(found) if is_shown] != [place]:
            yield f"{name} does not show picture {place}"
    found, shown = page.dom(page.text.replace("<script>", '<script type="text/plain">'))
    if not found or not all(is_shown for _, is_shown, _ in found) or "<nav hidden" not in shown:
        yield "without scripts not all pictures are there"


def window_differs(page):
    """What is otherwise in a picture of the window."""
    width, height, rows = page.window()
    white = b"\xff" * 3 * width
    if (width, height) != (1200, WINDOWS[page.pages]):
        yield f"the window has {width} x {height} pixels"
    if any(row != white for row in rows[-8:]) or any(row[-24:] != white[-24:] for row in rows[60:]):
        yield "the picture is cut off"
    for colour, what in COLOURS.items():
        if sum(row.count(bytes.fromhex(colour)) for row in rows) < 500:
            yield f"the colour of {what} is not there"


def draw(program):
    """Whether the page is, in a browser, what it should be."""
    if shutil.which("chromium") is None:
        print("draw: chromium is not there: apt-get install chromium")
        return False
    good = True
    for pages in WINDOWS:
        with tempfile.TemporaryDirectory() as folder:
            page = Page(program, folder, pages)
            others = [*pictures_differ(program, page), *moves_differ(page), *window_differs(page)]
        for other in others[:5]:
            print(f"draw: {pages} pages: {other}")
        print(f"draw: {pages} pages: {'as it should be' if not others else 'otherwise'}")
        good = good and not others
    return good
