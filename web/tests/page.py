"""The page as people use it, by real events: what it shows, says, refuses and saves."""
import base64
import json
import os
import re

import module
import native
from browser import Off, Page
from native import files, tillsparrow

WEB = os.path.dirname(os.path.dirname(os.path.abspath(__file__)))
URL = "file://" + os.path.join(WEB, "tillsparrow.html")
TRAY = os.path.join(native.ROOT, "docs", "tray.jpg")
HINT = "Point at a pixel, or tap it, to see its samples."


def held(wanted, got, what):
    if wanted != got:
        raise Off(f"{what}: {str(got)[:300]!r}, and not {str(wanted)[:300]!r}")


class Tillsparrow(Page):
    """The page in a tab."""

    def __init__(self, browser, url=URL, **how):
        super().__init__(browser, url, **how)
        self.asked = 0

    def rest(self, more=0):
        """Waits until so many photographs more are in the list, and everything is read."""
        self.asked += more
        self.until(f"document.querySelectorAll('#strip li').length === {self.asked} && photo.ariaBusy === 'false'")

    def drop_all(self, *paths):
        self.drop(list(paths))
        self.rest(len(paths))

    def choose_all(self, *paths):
        self.choose("#choose", list(paths))
        self.rest(len(paths))

    def text(self, name):
        return self.value(f"document.getElementById('{name}').textContent")

    def texts(self, selector):
        return self.value(f"Array.from(document.querySelectorAll({json.dumps(selector)}), e => e.textContent)")

    def seen(self, name):
        return self.value(f"document.getElementById('{name}').getClientRects().length > 0")

    def select(self, place):
        """The photograph at that place of the list, counted from 0."""
        self.click(f"#strip li:nth-child({place + 1}) button")
        self.rest()

    def canvas(self):
        """The digest of the pixels that are on the canvas, read back."""
        return self.value("""(async () => {
            const c = document.getElementById("picture"), data = c.getContext("2d").getImageData(0, 0, c.width, c.height).data;
            return Array.from(new Uint8Array(await crypto.subtle.digest("SHA-256", data)), b => b.toString(16).padStart(2, "0")).join("");
        })()""")

    def spot(self, x, y):
        """Where the middle of a pixel is on the screen."""
        left, top, scale = self.value("""(() => { const c = document.getElementById("picture"), r = c.getBoundingClientRect();
            return [r.left, r.top, r.width / c.width]; })()""")
        return left + (x + 0.5) * scale, top + (y + 0.5) * scale

    def over(self, x, y):
        self.mouse("mouseMoved", *self.spot(x, y))

    def scale(self):
        return self.value("new DOMMatrix(getComputedStyle(document.getElementById('picture')).transform).a")


def hold_picture(page, name, picture):
    seen = native.shown(picture)
    held([seen.width, seen.height], page.value("[picture.width, picture.height]"), f"{name}: the canvas's size")
    held(native.digest(native.rgba(picture)), page.canvas(), f"{name}: the canvas")
    beside = f" Its {picture.channels} channels stand side by side, each in grey, as they are coded." if seen is not picture else ""
    held(f"Read: {picture.width:,} × {picture.height:,} pixels.{beside}", page.text("said"), f"{name}: what is said")
    held(False, page.seen("refused"), f"{name}: a refusal is seen")


def put(room, name, data):
    return files.write(room, re.sub(r"[^\w.]+", "-", name) + ".jpg", data)


# ---- shown and described

def test_drop(browser, room, shots):
    """One photograph, dropped."""
    page = Tillsparrow(browser)
    shots(page, "empty")
    page.drop_all(TRAY)
    hold_picture(page, "docs/tray.jpg", tillsparrow.read(TRAY))
    held("tray.jpg", page.text("name"), "its name")
    held("tray.jpg - Tillsparrow", page.value("document.title"), "the title")
    held(False, page.seen("strip"), "a list of one")
    held(False, page.seen("noted"), "notes where there are none")
    shots(page, "one")
    urls = [re.sub(r"^blob:.*", "blob:", url) for url in page.requests()]
    held([URL, "blob:"], urls, "what was asked for")
    held([], page.complaints(), "what the browser complains of")
    page.close()


# the words for the channels, and for the factors of each
CHANNELS = {1: "1: grey", 3: "3: red, green, blue", 2: "2: as they are coded, each shown in grey, side by side",
            4: "4: as they are coded, each shown in grey, side by side"}
SAMPLINGS = {
    "1x1": "every pixel has its own sample",
    "1x1, 1x1, 1x1": "1x1, 1x1, 1x1: 4:4:4, every pixel has its own colour",
    "2x1, 1x1, 1x1": "2x1, 1x1, 1x1: 4:2:2, one colour for 2 × 1 pixels, halved across",
    "1x2, 1x1, 1x1": "1x2, 1x1, 1x1: 4:4:0, one colour for 1 × 2 pixels, halved down",
    "2x2, 1x1, 1x1": "2x2, 1x1, 1x1: 4:2:0, one colour for 2 × 2 pixels, halved both ways",
    "4x1, 1x1, 1x1": "4x1, 1x1, 1x1: 4:1:1, one colour for 4 × 1 pixels",
    "3x1, 1x1, 1x1": "3x1, 1x1, 1x1: one colour for 3 × 1 pixels",
    "1x4, 1x1, 1x1": "1x4, 1x1, 1x1: one colour for 1 × 4 pixels",
    "4x2, 1x1, 1x1": "4x2, 1x1, 1x1: 4:1:0, one colour for 4 × 2 pixels",
    "2x2, 1x2, 1x2": "2x2, 1x2, 1x2: 4:2:2, one colour for 2 × 1 pixels, halved across",
    "2x2, 2x1, 2x1": "2x2, 2x1, 2x1: 4:4:0, one colour for 1 × 2 pixels, halved down",
    "2x1, 2x1, 2x1": "2x1, 2x1, 2x1: 4:4:4, every pixel has its own colour",
    "1x1, 1x1": "1x1, 1x1: every pixel has its own samples",
    "1x1, 1x1, 1x1, 1x1": "1x1, 1x1, 1x1, 1x1: every pixel has its own samples",
}
OTHERS = ("1x2", "4x1", "3x1", "1x4", "4x2", "2x2,2x1,2x1", "2x1,2x1,2x1")


def facts(found, size):
    """The record in words. Factors that are not listed above have no other words."""
    factors = [f"{across}x{down}" for across, down in zip(found.across, found.down)][:found.channels]
    units = "unit" if found.interval == 1 else f"{found.interval} units"
    return [f"{found.width:,} × {found.height:,} pixels", f"{size:,} bytes, baseline JPEG", CHANNELS[found.channels],
            SAMPLINGS.get(", ".join(factors), ", ".join(factors)),
            f"every {units} of {8 * max(found.across)} × {8 * max(found.down)} pixels" if found.interval else "none",
            f"{found.blocks:,} of 8 × 8 samples"]


def test_shapes(browser, room, shots):
    """Files of every form, chosen together, and looked at one after another."""
    page, shapes = Tillsparrow(browser), list(files.shapes())
    shapes += [(form, files.encode(70, 50, "-sample", form), []) for form in OTHERS] + [(*each, []) for each in native.channelled()]
    paths = [put(room, name, data) for name, data, _ in shapes]
    page.choose_all(*paths)
    held([os.path.basename(path) for path in paths], page.texts("#strip .called"), "the names in the list")
    for i, (name, data, _) in enumerate(shapes):
        page.select(i)
        found = tillsparrow.inspect(data).record
        hold_picture(page, name, tillsparrow.read(data))
        held(facts(found, len(data)), page.texts("#facts dd"), f"{name}: its record in words")
        flat = [", ".join(map(str, value)) if isinstance(value, tuple) else str(value) for value in vars(found).values()]
        held([list(vars(found)), flat], [page.texts("#record dt"), page.texts("#record dd")], f"{name}: the whole record")
        held(f"{i + 1} of {len(shapes)}", page.text("count"), f"{name}: its place")
    thumbs = page.value("Array.from(document.querySelectorAll('.thumb'), c => c.getContext('2d').getImageData(0, 0, 1, 1).data[3])")
    held([255] * len(shapes), thumbs, "the small pictures of the list")
    held([], page.complaints(), "what the browser complains of")
    page.close()
    return f"{len(shapes)} pictures on the canvas are the native library's"


def plain(note):
    """A note as it is shown: text, or bytes by their numbers."""
    return "".join(chr(byte) if byte == 10 or 31 < byte < 127 else f"\\x{byte:02x}" for byte in note)


def test_notes(browser, room, shots):
    """Notes, whatever they hold, as text."""
    page, noted = Tillsparrow(browser), [(name, data, [plain(note) for note in notes]) for name, data, notes in files.noted()]
    base = files.encode(16, 16)
    for text, shown in (("Weizen, Gewächshaus 7", None), ("<img src=x onerror=alert(1)>", None),
                        ("a\u202eb\x07c\ttray\n7", "a\\u{202e}b\\u{7}c\\u{9}tray\n7")):
        noted.append((f"note {len(noted)}", files.with_segment(base, 0xFE, text.encode()), [shown or text]))
    paths = [put(room, name, data) for name, data, _ in noted]
    page.drop_all(*paths)
    for i, (name, _, notes) in enumerate(noted):
        page.select(i)
        held(notes, page.texts("#notes li"), f"{name}: its notes")
        held(True, page.seen("noted"), f"{name}: its notes are seen")
        if name == "two comments, grey":
            page.over(20, 13)
            shots(page, "notes")
    held([], page.complaints(), "what the browser complains of")
    page.close()
    return f"{sum(len(notes) for *_, notes in noted)} notes"


# ---- refused

SENTENCES = {
    1: "Refused (1). The file is longer than this page takes, which is 256 MiB. The command ./tillsparrow takes files of any size.",
    3: "Refused (3). The file ends before its picture begins. Copy it again from the camera.",
    4: "Refused (4). The file breaks a rule of the format before its picture begins: a damaged copy, seldom faulty tables in its head, or "
       "no JPEG file at all. Copy it again; a file that stays so cannot be trusted.",
    5: "Refused (5). This is a form of JPEG that is not read: progressive, arithmetic coding, 12 bits or the like. "
       "Have the camera write baseline files.",
    6: "Refused (6). The picture is larger than this page shows, which is 16,384 pixels a side, and for channels side by side 32,767 across "
       "and 268,435,456 in all. The command ./tillsparrow takes pictures of any size.",
}


# and where the scan broke: why, and what to do
CUT = "It was cut: copy it again from the camera."
DAMAGED = "Copy it again from the camera; a file that stays so is damaged, or what wrote it is faulty, and cannot be trusted."
BROKEN = {
    3: ("The bytes ran out in block {}, which begins at byte {} of {}.", CUT),
    4: ("The scan breaks a rule of the format at block {}, whose reading began at byte {} of {}.", DAMAGED),
    10: ("A 255 is followed by neither 0 nor the end in block {}, which begins at byte {} of {}.", DAMAGED),
    11: ("No code of the table matches in block {}, which begins at byte {} of {}.", DAMAGED),
}


def sentence(number, block, place, size):
    """What the page says. A place in a scan is never 0."""
    if not place:
        return SENTENCES[number]
    why, to_do = BROKEN[number]
    return f"Refused ({number}). {why.format(f'{block:,}', f'{place:,}', f'{size:,}')} {to_do}"


def test_words(browser, room, shots):
    """The words for samplings and the sentences of refusals, for numbers that are given here."""
    page = module.blank(browser, room, "src/words.js")
    plain = ("3x1, 2x1, 1x1", "1x1, 2x2, 1x2", "2x2, 2x1, 1x2", "2x2, 1x2, 2x2", "2x2, 1x1", "4x1, 1x4, 1x1, 1x1", "2x2, 1x1, 1x1, 2x2")
    for factors, wanted in (*SAMPLINGS.items(), *zip(plain, plain)):
        across, down = zip(*(each.split("x") for each in factors.split(", ")))
        numbers = ["[" + ", ".join(f"{each}n" for each in (*row, *"000")[:4]) + "]" for row in (across, down)]
        got = page.value(f"samplingOf({{channels: {len(across)}n, across: {numbers[0]}, down: {numbers[1]}}})")
        held(wanted, got, f"the words for {factors}")
    for number, block, place, size, wanted in (
            (3, 1207, 31337, 31352, "Refused (3). The bytes ran out in block 1,207, which begins at byte 31,337 of 31,352. " + CUT),
            (4, 0, 144, 150, "Refused (4). The scan breaks a rule of the format at block 0, whose reading began at byte 144 of 150. " + DAMAGED),
            (10, 6, 625, 627, "Refused (10). A 255 is followed by neither 0 nor the end in block 6, which begins at byte 625 of 627. " + DAMAGED),
            (11, 1000000, 268435455, 268435456, "Refused (11). No code of the table matches in block 1,000,000, which begins at byte "
             "268,435,455 of 268,435,456. " + DAMAGED),
            *((number, 0, 0, 99, SENTENCES[number]) for number in SENTENCES)):
        held(wanted, page.value(f"refusalOf({{number: {number}, block: {block}n, place: {place}n}}, {size})"), "a sentence")
    page.close()


def refused(room):
    """A path, a number, the block and the place each; the two limits are met from both sides."""
    for name, data, number, block, place in files.refused():
        yield put(room, name, data), number, block, place
    tall = files.encode(8, 16)
    frame = tall.index(b"\xff\xc0") + 5
    yield put(room, "one pixel too wide", tall[:frame + 2] + (16385).to_bytes(2, "big") + tall[frame + 4:]), 6, 0, 0
    # its one MCU has six blocks, and where the seventh would begin stands the last marker
    wide = tall[:frame + 2] + (16384).to_bytes(2, "big") + tall[frame + 4:]
    yield put(room, "as wide as may be, and too short", wide), 10, 6, len(wide) - 2
    # blocks of two bits 0: four channels side by side are one pixel too wide, and two have too many pixels
    row = native.small(scan=bytes(1024), width=8192, samplings=(17,) * 4)
    yield put(room, "four channels one pixel too wide", row), 6, 0, 0
    many = native.small(scan=bytes(2 * 512 * 257), width=16383, height=8193, samplings=(0x41, 0x14))
    yield put(room, "two channels with too many pixels", many), 6, 0, 0
    # of no bytes but zeros that a disk does not keep; the second is one that no browser could read whole
    for name, size in (("one byte too long", (256 << 20) + 1), ("far too long", 40 << 30)):
        path = os.path.join(room, name + ".jpg")
        with open(path, "wb") as file:
            file.truncate(size)
        yield path, 1, 0, 0


def test_refusals(browser, room, shots):
    """A refusal is a sentence with its number and, where a scan broke, its place; nothing of another picture stays, and the next file is
    read."""
    page, wanted = Tillsparrow(browser), list(refused(room))
    page.drop_all(TRAY)
    page.choose_all(*(path for path, *_ in wanted))
    held([f"refused {number}" for _, number, *_ in wanted], page.texts("#strip .bad .verdict"), "the list")
    for i, (path, *numbers) in enumerate(wanted):
        page.select(i + 1)
        said = sentence(*numbers, os.path.getsize(path)) + " No picture is shown."
        held(said, page.text("refused"), os.path.basename(path))
        held([True, False, False], [page.seen(each) for each in ("refused", "view", "about")], f"{path}: what is seen")
    held({*SENTENCES, *BROKEN}, {number for _, number, *_ in wanted}, "the numbers that came up")
    held(set(BROKEN), {number for _, number, _, place in wanted if place}, "the numbers of scans that broke")
    shots(page, "refused")
    page.select(0)
    hold_picture(page, "docs/tray.jpg, behind the refused", tillsparrow.read(TRAY))
    widest = native.small(scan=bytes(1024), width=8191, samplings=(17,) * 4)
    page.drop_all(put(room, "four channels as wide as may be", widest))
    hold_picture(page, "four channels as wide as may be", tillsparrow.read(widest))
    held([], page.complaints(), "what the browser complains of")
    page.close()
    return f"{len(wanted)} refusals, each by its number"


# ---- a pixel's values

def test_pixels(browser, room, shots):
    """The pixel under the pointer, and the one that arrow keys come to."""
    page = Tillsparrow(browser)
    grey, other = put(room, "grey", files.encode(120, 90, "-grayscale")), put(room, "tray again", tillsparrow.settled(TRAY))
    page.drop_all(TRAY, grey, other)
    picture = tillsparrow.read(TRAY)
    held(HINT, page.text("values"), "before a pixel is pointed at")
    for x, y in ((0, 0), (143, 0), (77, 31), (0, 143), (143, 143), (72, 72)):
        page.over(x, y)
        held(native.values(picture, x, y), page.text("values"), "under the pointer")
    page.value("document.getElementById('stage').focus()")
    for keys, (x, y) in ((("ArrowRight",), (73, 72)), (("ArrowUp", "ArrowUp"), (73, 70)), (("ArrowLeft", "ArrowDown"), (72, 71))):
        for key in keys:
            page.key(key)
        held(native.values(picture, x, y), page.text("values"), f"behind the keys {keys}")
    for key, count, (x, y) in (("ArrowRight", 3, (102, 71)), ("ArrowDown", 20, (102, 143)), ("ArrowRight", 9, (143, 143))):
        for _ in range(count):
            page.key(key, shift=True)
        held(native.values(picture, x, y), page.text("values"), f"behind {count} times Shift and {key}")
    red, green, blue = picture.samples[-3:]
    held(f"rgb({red}, {green}, {blue})", page.value("getComputedStyle(swatch).backgroundColor"), "the colour beside the values")
    # of the same size: the same place; of another: none
    page.select(2)
    held(native.values(picture, 143, 143), page.text("values"), "the same picture in another file")
    page.select(1)
    held(HINT, page.text("values"), "a picture of another size")
    page.over(11, 80)
    held(native.values(tillsparrow.read(grey), 11, 80), page.text("values"), "of a grey picture")
    page.close()


def test_channels(browser, room, shots):
    """Of two and four channels side by side, the pixel in each, and all of its samples; arrow keys go from one channel to the next."""
    page, pointed = Tillsparrow(browser), 0
    for name, data in native.channelled():
        picture = tillsparrow.read(data)
        if picture.channels == 3:
            continue
        page.drop_all(put(room, name, data))
        grey, (width, height) = native.shown(picture).samples, (picture.width, picture.height)
        for channel in range(picture.channels):
            for x, y in ((0, 0), (width - 1, 0), (17, 31), (width - 1, height - 1)):
                page.over(channel * width + x, y)
                held(native.values(picture, x, y, channel), page.text("values"), f"{name}: under the pointer")
                sample = grey[y * width * picture.channels + channel * width + x]
                held(f"rgb({sample}, {sample}, {sample})", page.value("getComputedStyle(swatch).backgroundColor"), f"{name}: its grey")
                pointed += 1
        page.over(width - 1, 5)
        page.value("stage.focus()")
        for key, (x, channel) in (("ArrowRight", (0, 1)), ("ArrowRight", (1, 1)), ("ArrowLeft", (0, 1)), ("ArrowLeft", (width - 1, 0))):
            page.key(key)
            held(native.values(picture, x, 5, channel), page.text("values"), f"{name}: behind {key}")
    shots(page, "four-channels")
    held([], page.complaints(), "what the browser complains of")
    page.close()
    return f"{pointed} pixels in channels side by side"


def test_waiting(browser, room, shots):
    """While a photograph is read, nothing of the one before it is seen, and no pixel of it told."""
    page = Tillsparrow(browser)
    page.drop_all(TRAY, put(room, "noted", files.with_comment(files.encode(144, 144), "other")))
    page.over(30, 30)
    spot = page.spot(40, 40)
    page.worker().value("{ const read = onmessage; onmessage = event => setTimeout(() => read(event), 1500); }")
    page.key("n")
    page.mouse("mouseMoved", *spot)
    held(["noted.jpg", "Reading …", HINT], [page.text(each) for each in ("name", "said", "values")], "what is said meanwhile")
    held([False, False, []], [page.seen("picture"), page.seen("mark"), page.texts("#facts dd")], "what is seen meanwhile")
    page.key("p")
    page.value("globalThis.told = []; new MutationObserver(() => told.push(facts.textContent)).observe(facts, {childList: true}); 0")
    page.rest()
    hold_picture(page, "the one before it, gone back to", tillsparrow.read(TRAY))
    held([page.text("facts")], page.value("told"), "what was described on the way")
    held([False, []], [page.seen("noted"), page.texts("#notes li")], "the notes of the other")
    page.close()


# ---- zoom

def test_zoom(browser, room, shots):
    """Wheel, keys, buttons, drag: what is under the pointer stays under it."""
    page, picture = Tillsparrow(browser), tillsparrow.read(TRAY)
    page.drop_all(TRAY)
    fitted = page.scale()
    x, y = page.spot(54, 80)
    for delta in (-300, -300, -400, 200):
        before = page.scale()
        page.mouse("mouseMoved", x, y)
        page.mouse("mouseWheel", x, y, deltaX=0, deltaY=delta)
        page.until(f"new DOMMatrix(getComputedStyle(picture).transform).a {'>' if delta < 0 else '<'} {before}")
        held(native.values(picture, 54, 80), page.text("values"), "under the pointer, zoomed by the wheel")
        page.mouse("mouseMoved", x + 1, y)
        held(native.values(picture, 54, 80), page.text("values"), "under the pointer that moves on a large pixel")
    shots(page, "zoomed")
    left = page.spot(0, 0)
    page.mouse("mousePressed", x, y, button="left", clickCount=1)
    page.mouse("mouseMoved", x + 2, y + 2, button="left", buttons=1)
    held(left, page.spot(0, 0), "the picture, when a hand trembles")
    for step in (10, 25, 40):
        page.mouse("mouseMoved", x + step, y + step, button="left", buttons=1)
    page.mouse("mouseReleased", x + 40, y + 40, button="left")
    held((left[0] + 40, left[1] + 40), page.spot(0, 0), "the picture, dragged")
    held("pixelated", page.value("getComputedStyle(picture).imageRendering"), "how a large pixel is drawn")
    for key, wanted in (("1", 1), ("+", 2), ("=", 4), ("-", 2), ("-", 1), ("-", 0.5), ("-", 0.5), ("0", fitted)):
        page.key(key)
        held(wanted, page.scale(), f"the scale behind the key {key}")
    for button, wanted in (("natural", 1), ("closer", 2), ("farther", 1), ("fit", fitted)):
        page.click("#" + button)
        held(wanted, page.scale(), f"the scale behind the button {button}")
        held(f"{round(100 * wanted)} %", page.text("scale"), "the scale that is said")
    for _ in range(9):
        page.key("+")
    held(64, page.scale(), "the largest scale")
    held([], page.complaints(), "what the browser complains of")
    page.close()


# ---- saved

def hold_png(png, picture, reader, name):
    """By its head, and by the browser's own reader of PNG files."""
    seen = native.shown(picture)
    kind = {1: 0, 3: 2}[seen.channels]
    sides = seen.width.to_bytes(4, "big") + seen.height.to_bytes(4, "big")
    held(b"\x89PNG\r\n\x1a\n\0\0\0\rIHDR" + sides + bytes([8, kind, 0, 0, 0]), png[:29], f"{name}: the head of the PNG file")
    held([b"IHDR", b"IDAT", b"IEND"], re.findall(rb"IHDR|IDAT|IEND|gAMA|sRGB|iCCP|cHRM", png), f"{name}: the parts of the PNG file")
    got = reader.value(f"""(async () => {{
        const image = await createImageBitmap(new Blob([fromBase64("{base64.b64encode(png).decode()}")]), {{colorSpaceConversion: "none"}});
        const canvas = new OffscreenCanvas(image.width, image.height), context = canvas.getContext("2d");
        context.drawImage(image, 0, 0);
        return digestOf(context.getImageData(0, 0, image.width, image.height).data);
    }})()""")
    held(native.digest(native.rgba(picture)), got, f"{name}: the samples of the PNG file")


def test_saving(browser, room, shots):
    """PNG files with just the samples, and settled files that are the native library's; a file that cannot be settled is said."""
    page, reader = Tillsparrow(browser), module.blank(browser, room)
    named = [(name, data) for name, data, _ in files.shapes()] + [("longer", native.longer_when_settled()), *native.channelled()]
    paths = [put(room, name, data) for name, data in named]
    page.drop_all(*paths)
    for i, (path, (name, data)) in enumerate(zip(paths, named)):
        page.select(i)
        stem = os.path.basename(path)[:-4]
        page.click("#png")
        page.rest()
        png = page.download(stem + ".png")
        hold_png(png, tillsparrow.read(data), reader, name)
        held(f"{stem}.png is saved: {len(png):,} bytes.", page.text("said"), "what is said")
        page.click("#settle")
        page.rest()
        held(tillsparrow.settled(data), page.download(stem + ".settled.jpg"), f"{name}: the settled file")
    page.drop_all(put(room, "unsettled", files.without_end_code()))
    page.click("#settle")
    page.rest()
    held("unsettled.settled.jpg is not saved. Refused (9). The file cannot be settled, for want of an end-of-block code in its own tables. "
         "Compare pictures instead.", page.text("said"), "a file that cannot be settled")
    held([], os.listdir(browser.downloads), "what is saved of it")
    held([], page.complaints(), "what the browser complains of")
    page.close()
    reader.close()
    return f"{len(named)} PNG and {len(named)} settled files"


# ---- what goes wrong beside the library

NO_ROOM = "There is not enough memory for this photograph. Close other pages, or use the command ./tillsparrow."
UNREAD = "It cannot be read: a folder, or a file that was moved or changed. Choose it again; of a folder, the photographs in it."


def test_faults(browser, room, shots):
    """No memory, a worker that ends, a file that goes or changes, a canvas that takes nothing: a sentence, and the next file is read."""
    page = Tillsparrow(browser)
    large, changing = put(room, "large", files.encode(640, 480)), put(room, "changing", files.encode(16, 16))
    page.drop_all(TRAY)
    for lost, (wrong, sentence) in enumerate((
            ("WebAssembly.Memory.prototype.grow = () => { throw new RangeError('no memory'); }", NO_ROOM),
            ("onmessage = () => { throw new Error('lost'); }", "The page failed: Uncaught Error: lost."))):
        page.worker(lost + 1).value(wrong + "; 0")
        page.drop_all(large)
        held(sentence, page.text("refused"), "a fault of the worker")
        held("not read", page.texts("#strip .verdict")[-1], "the list")
        page.select(2 * lost + 1)
        hold_picture(page, "the same file, once more", tillsparrow.read(large))
        page.drop_all(TRAY)
        hold_picture(page, "the next file", tillsparrow.read(TRAY))
    held(3, len(page.workers()), "the workers that were needed")
    page.drop_all(changing, TRAY)
    files.write(room, "changing.jpg", files.encode(24, 24, "-quality", "30"))
    page.select(6)
    page.select(5)
    held(UNREAD, page.text("refused"), "a file that was changed")
    os.remove(changing)
    page.select(6)
    page.select(5)
    held(UNREAD, page.text("refused"), "a file that is gone")
    page.drop_all(room)
    held(UNREAD, page.text("refused"), "a folder")
    held("not read", page.texts("#strip .verdict")[-1], "the list")
    page.value("HTMLCanvasElement.prototype.getContext = () => null; 0")
    page.select(0)
    held("This browser cannot draw so large a picture. It can still be saved.", page.text("said"), "a canvas that takes nothing")
    page.close()


# ---- without a mouse; on a telephone

def test_keyboard(browser, room, shots):
    """Every part is reached and used by keys alone, and has a name."""
    page = Tillsparrow(browser)
    page.key("Tab")
    held("choose", page.value("document.activeElement.id"), "what the first Tab comes to")
    paths = [put(room, name, data) for name, data, _ in list(files.shapes())[:4]]
    page.choose_all(*paths)
    order = []
    for _ in range(12):
        page.key("Tab")
        order.append(page.value("document.activeElement.id || document.activeElement.tagName"))
    held(["BUTTON", "next", "farther", "closer", "fit", "natural", "png", "settle", "stage", "SUMMARY", "SUMMARY", "SUMMARY"], order,
         "the order of Tab")
    counts = []
    for key in ("n", "n", "n", "n", "p"):
        page.key(key)
        counts.append(page.text("count"))
    held(["2 of 4", "3 of 4", "4 of 4", "4 of 4", "3 of 4"], counts, "the photographs that n and p come to")
    page.value("document.querySelector('#strip [aria-current]').focus()")
    page.key("ArrowLeft")
    page.rest()
    held(["2 of 4", os.path.basename(paths[1])], [page.text("count"), page.value("document.activeElement.title")],
         "the arrow keys of the list")
    page.value("stage.focus()")
    page.key("PageDown")
    page.rest()
    held(["3 of 4", "stage"], [page.text("count"), page.value("document.activeElement.id")], "Page Down in the picture")
    tree = [node for node in page.send("Accessibility.getFullAXTree")["nodes"] if not node.get("ignored")]
    parts = [node for node in tree if node["role"]["value"] in ("button", "application", "DisclosureTriangle", "navigation")]
    held([], [node["role"]["value"] for node in parts if not node["name"]["value"]], "parts without a name")
    held(True, len(parts) >= 17, f"{len(parts)} named parts")
    page.close()


def test_telephone(browser, room, shots):
    """A screen of 360 pixels: nothing sticks out, a tap marks a pixel, two fingers zoom."""
    for dark in (False, True):
        page = Tillsparrow(browser, width=360, height=740, dark=dark, touch=True)
        wide = "Array.from(document.querySelectorAll('html, h2, #notes li'), e => e.scrollWidth > Math.min(360, e.clientWidth))"
        fits = lambda what: held(False, page.value(wide + ".includes(true)"), f"360 pixels do not hold {what}")  # noqa: E731
        fits("the empty page")
        long = put(room, "a" * 120, files.with_segment(files.encode(40, 30), 0xFE, b"w" * 400))
        page.drop_all(TRAY, long, put(room, "no", b"no"))
        fits("the tray")
        page.value("document.querySelectorAll('details').forEach(d => d.open = true); 0")
        fits("everything unfolded")
        for i in (1, 2, 0):
            page.select(i)
            fits(f"photograph {i}")
        hold_picture(page, "on a telephone", tillsparrow.read(TRAY))
        page.touch("touchStart", page.spot(100, 40))
        page.touch("touchEnd")
        held(native.values(tillsparrow.read(TRAY), 100, 40), page.text("values"), "a pixel that was tapped")
        (x, y), before = page.middle("#stage"), page.scale()
        page.touch("touchStart", (x - 20, y), (x + 20, y))
        for apart in (25, 30, 40):
            page.touch("touchMove", (x - apart, y), (x + apart, y))
        page.touch("touchEnd")
        held(True, 1.8 < page.scale() / before < 2.2, f"two fingers twice as far apart: scale {before}, then {page.scale()}")
        shots(page, "telephone-dark" if dark else "telephone")
        (left, top), scrolled = page.spot(0, 0), page.value("scrollY")
        page.touch("touchStart", (x, y))
        for step in (10, 20, 30, 40):
            page.touch("touchMove", (x - step, y - step))
        page.touch("touchEnd")
        held([left - 40, top - 40, scrolled], [*page.spot(0, 0), page.value("scrollY")], "one finger moves the picture, and not the page")
        held([], page.complaints(), "what the browser complains of")
        page.close()
