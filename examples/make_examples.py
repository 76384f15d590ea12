#!/usr/bin/env python3
"""Writes the pictures in images/, the longest script, and the expected output and status of the scripts, NAME.out.

Each picture is a formula: from a place (x, y), counted from the top left, to red, green and blue.
Its text is `P6`, the size, the maximum 255 and three bytes a pixel, from the top row; or a Windows
bitmap. A `dump` line prints four bytes a pixel, with an alpha of 255, and a `show` line prints their
SHA-256. The expected output is worked out here from the formulas, and never taken from the program.
"""
import hashlib
import os
import struct
from fractions import Fraction

HERE = os.path.dirname(os.path.abspath(__file__))

# name: width, height, pixel
PICTURES = {
    # One red and one blue pixel.
    "red": (2, 1, lambda x, y: (255, 0, 0) if x == 0 else (0, 0, 255)),
    # Red grows to the right, green downwards.
    "gradient": (8, 8, lambda x, y: (36 * x, 36 * y, 128)),
    # Black and white.
    "checkerboard": (4, 4, lambda x, y: (255, 255, 255) if (x + y) % 2 else (0, 0, 0)),
    # Red grows to the right, blue downwards. Its rows have 15 bytes, so a bitmap pads them to 16.
    "stairs": (5, 3, lambda x, y: (50 * x, 10, 100 * y)),
}


def places(name):
    width, height, pixel = PICTURES[name]
    return [pixel(x, y) for y in range(height) for x in range(width)]


def text(name):
    width, height, _ = PICTURES[name]
    return b"P6\n%d %d\n255\n" % (width, height) + b"".join(bytes(p) for p in places(name))


def bitmap(name):
    # A file header of 14 bytes and an info header of 40. Then the rows from the bottom, each padded to a
    # multiple of four bytes, with blue, green and red a pixel.
    width, height, pixel = PICTURES[name]
    rows = [b"".join(bytes(reversed(pixel(x, y))) for x in range(width)) for y in range(height)]
    raster = b"".join(row + bytes(-len(row) % 4) for row in reversed(rows))
    info = struct.pack("<IiiHHIIiiII", 40, width, height, 1, 24, 0, len(raster), 0, 0, 0, 0)
    return b"BM" + struct.pack("<IHHI", 54 + len(raster), 0, 0, 54) + info + raster


def stored(name):
    return b"".join(bytes(p) + b"\xff" for p in places(name))


def pixels(view, name):
    return f"{view} pixels {stored(name).hex()}"


def shown(view, name):
    width, height, _ = PICTURES[name]
    return f"{view} shown {width} {height} argb {hashlib.sha256(stored(name)).hexdigest()}"


# ---- the rules of docs/PICTURES.md, for pictures as lists of rows of (red, green, blue)


def rounded(n, d):
    return (2 * n + d) // (2 * d)


def sample_for(width, height, wanted_width, wanted_height, rule):
    sample = 1
    if rule == "atleast":
        while 2 * sample * wanted_width <= width and 2 * sample * wanted_height <= height:
            sample *= 2
    else:
        while sample * wanted_width < width or sample * wanted_height < height:
            sample *= 2
    return sample


def sampled(rows, sample):
    def mean(x, y):
        block = [p for row in rows[y : y + sample] for p in row[x : x + sample]]
        return tuple((sum(p[c] for p in block) + len(block) // 2) // len(block) for c in range(3))

    width, height = max(1, len(rows[0]) // sample), max(1, len(rows) // sample)
    return [[mean(sample * x, sample * y) for x in range(width)] for y in range(height)]


def fit(rows, wanted_width, wanted_height):
    width, height = len(rows[0]), len(rows)
    if wanted_width * height <= wanted_height * width:
        size = wanted_width, max(1, rounded(height * wanted_width, width))
    else:
        size = max(1, rounded(width * wanted_height, height)), wanted_height
    columns = [(2 * x + 1) * width // (2 * size[0]) for x in range(size[0])]
    return [[rows[(2 * y + 1) * height // (2 * size[1])][x] for x in columns] for y in range(size[1])]


def crop(rows, wanted_width, wanted_height):
    # The box is as large as the source takes; half of what is left over lies before it.
    width, height = len(rows[0]), len(rows)
    scale = min(Fraction(width, wanted_width), Fraction(height, wanted_height))
    left = (width - wanted_width * scale) / 2
    top = (height - wanted_height * scale) / 2
    half = Fraction(1, 2)
    columns = [int(left + (x + half) * scale) for x in range(wanted_width)]
    return [[rows[int(top + (y + half) * scale)][x] for x in columns] for y in range(wanted_height)]


def inside(rows, wanted_width, wanted_height):
    fits = len(rows[0]) <= wanted_width and len(rows) <= wanted_height
    return rows if fits else fit(rows, wanted_width, wanted_height)


TRANSFORMS = {"none": lambda rows, width, height: rows, "fit": fit, "crop": crop, "inside": inside}

CONFIGS = {
    "argb": lambda r, g, b: bytes([r, g, b, 255]),
    "rgb565": lambda r, g, b: (r >> 3 << 11 | g >> 2 << 5 | b >> 3).to_bytes(2, "little"),
    "alpha": lambda r, g, b: b"\xff",
}


def rows_resized(name, wanted_width, wanted_height, transform, rule="atleast"):
    width, height, pixel = PICTURES[name]
    rows = [[pixel(x, y) for x in range(width)] for y in range(height)]
    rows = sampled(rows, sample_for(width, height, wanted_width, wanted_height, rule))
    return TRANSFORMS[transform](rows, wanted_width, wanted_height)


def packed(rows, config):
    return b"".join(CONFIGS[config](*p) for row in rows for p in row)


def resized(view, name, wanted_width, wanted_height, transform, config, rule="atleast"):
    rows = rows_resized(name, wanted_width, wanted_height, transform, rule)
    return f"{view} pixels {packed(rows, config).hex()}"


def shown_resized(view, name, wanted_width, wanted_height, transform, config):
    rows = rows_resized(name, wanted_width, wanted_height, transform)
    digest = hashlib.sha256(packed(rows, config)).hexdigest()
    return f"{view} shown {len(rows[0])} {len(rows)} {config} {digest}"


# ---- a list of forty tiles, scrolled over a screen of six rows: down to its end and back to its beginning

ROWS, TILES = 6, 40

for number in range(1, TILES + 1):
    PICTURES[f"tile{number:02}"] = (8, 8, lambda x, y, number=number: (6 * number, 32 * x, 32 * y))


def scroll():
    """The lines of the script. When a row leaves the screen it comes back at the other end, with the tile that comes into sight."""

    def load(tile):
        # Tile 1 is in row 1, tile 7 again, and so on.
        return f"load row{(tile - 1) % ROWS + 1} tile{tile:02} 1 8 8 fit argb"

    yield "# A list of forty pictures on a screen of six rows, scrolled down to its end and back. Made by make_examples.py."
    yield from map(load, range(1, ROWS + 1))
    yield "wait"
    for tile in range(ROWS + 1, TILES + 1):
        yield load(tile)
        yield "wait"
    for tile in range(TILES - ROWS, 0, -1):
        yield load(tile)
        yield "wait"
    yield "show"


LOADS = ROWS + 2 * (TILES - ROWS)


def totals(**numbers):
    """The stats line: the numbers that are not given are 0."""
    words = "loads active memory joined started takes reused made decoding held cached pooled recycled fetches"
    return "stats " + " ".join(f"{word} {numbers.get(word, 0)}" for word in words.split())


def on_screen():
    return [shown(f"row{row}", f"tile{row:02}") for row in range(1, ROWS + 1)]


# With the words' defaults memory has room for all tiles: each is fetched once, and on the way back memory answers.
REMEMBERED = totals(loads=LOADS, memory=TILES - ROWS, started=TILES, takes=TILES, made=TILES, cached=TILES, fetches=TILES)
# Without a memory cache each load fetches; but as many bitmaps as are shown at a time are used again and again.
REUSED = totals(loads=LOADS, started=LOADS, takes=LOADS, reused=LOADS - ROWS, made=ROWS, pooled=ROWS, fetches=LOADS)
# Without a pool either, each load makes a bitmap, which is dropped.
NEITHER = totals(loads=LOADS, started=LOADS, takes=LOADS, made=LOADS, recycled=LOADS, fetches=LOADS)

IMAGES = {name: text(name) for name in PICTURES} | {
    "stairs": bitmap("stairs"),
    # Two bytes behind the raster, which are ignored.
    "long": text("red") + b"\0\0",
    # The last byte is missing.
    "short": text("checkerboard")[:-1],
    "notes": b"This is no picture.\n",
}

OUTPUTS = {
    "pictures": (0, [
        pixels("right", "gradient"),
        pixels("left", "red"),
        pixels("left", "red"),
        pixels("left", "checkerboard"),
        pixels("middle", "checkerboard"),
        pixels("last", "red"),
        pixels("below", "stairs"),
        shown("left", "checkerboard"),
        shown("middle", "checkerboard"),
        shown("right", "gradient"),
        shown("last", "red"),
        shown("below", "stairs"),
    ]),
    "failures": (1, [
        "gone failed missing",
        "cut failed refused truncated",
        "text failed refused unknown",
        pixels("here", "red"),
        "gone failed missing",
    ]),
    "sizes": (1, [
        resized("half", "gradient", 4, 4, "none", "argb"),
        resized("less", "gradient", 3, 3, "none", "argb", "atmost"),
        resized("fitted", "gradient", 4, 2, "fit", "rgb565"),
        resized("middle", "gradient", 4, 2, "crop", "argb"),
        resized("larger", "checkerboard", 8, 8, "fit", "rgb565"),
        resized("same", "red", 16, 16, "inside", "alpha"),
        "huge failed refused too-large",
    ]),
    "views": (1, [
        "list waiting",
        shown_resized("list", "gradient", 4, 4, "none", "argb"),
        shown_resized("list", "gradient", 4, 4, "none", "argb"),
        "item paused",
        pixels("item", "red"),
        "list paused",
        "item paused",
        shown_resized("list", "gradient", 2, 2, "none", "argb"),
        shown("item", "red"),
        "list cleared",
        shown("item", "red"),
        "gone failed missing",
        "list cleared",
        shown("item", "red"),
        "gone failed missing",
        "list cleared",
        "item cleared",
        "gone cleared",
    ]),
    # Of the three loads one started a job, one joined it, and memory answered the last.
    "memory": (0, [
        pixels("b", "red"),
        shown("a", "red"),
        "b cleared",
        totals(loads=3, memory=1, joined=1, started=1, takes=1, made=1, cached=1, fetches=1),
    ]),
    "scroll": (0, on_screen() + [REMEMBERED]),
    "scroll-without-memory": (0, on_screen() + [REUSED]),
    "scroll-without-pool": (0, on_screen() + [NEITHER]),
}


def write(name, data):
    with open(os.path.join(HERE, name), "wb") as out:
        out.write(data)


os.makedirs(os.path.join(HERE, "images"), exist_ok=True)
for name, data in IMAGES.items():
    write(os.path.join("images", name), data)
write("scroll.script", "".join(line + "\n" for line in scroll()).encode())
for name, (status, lines) in OUTPUTS.items():
    write(name + ".out", "".join(line + "\n" for line in lines + [f"(status {status})"]).encode())
