"""What the calls on keys, areas, zooms, visible keys and rectangles answer, from their definitions alone.

    python3 tests/model/keys.py cases > crates/key_readings/stdin
    python3 tests/model/keys.py answers < crates/key_readings/stdin > crates/key_readings/stdout

A key is a part, a width and height of 1 to 256 pixels, a position and a size of 15 to 61,440 twips on each
side, the position being a multiple of the size and at most 2,147,483,647, and a look, 0 or 1, which is 1
where the word is 1. Key order compares part, tileposy, tileposx, width, height, tilewidth, tileheight and
look. A view sees the keys of its part and zoom at multiples of the zoom's twips that have a point in common
with its area and the part; here they are found by trying every row and column that could.
"""

import itertools
import random
import sys

FIELDS = ["part", "width", "height", "tileposx", "tileposy", "tilewidth", "tileheight", "nviewid"]


def record(name, fields):
    return name + " { " + ", ".join(f"{field}: {value}" for field, value in fields) + " }"


def look(number):
    return 1 if number == 1 else 0


def is_key(part, width, height, posx, posy, tilewidth, tileheight, nviewid):
    sizes = 1 <= width <= 256 and 1 <= height <= 256 and 15 <= tilewidth <= 61440 and 15 <= tileheight <= 61440
    return sizes and max(posx, posy) < 2**31 and posx % tilewidth == 0 and posy % tileheight == 0


def is_area(part, width, height, posx, posy, tilewidth, tileheight, nviewid):
    pixels = 1 <= width <= 2048 and 1 <= height <= 256
    return pixels and 1 <= tilewidth <= 491520 and 1 <= tileheight <= 491520 and max(posx, posy) < 2**31


def in_order(part, width, height, posx, posy, tilewidth, tileheight, nviewid):
    return (part, posy, posx, width, height, tilewidth, tileheight, look(nviewid))


def printed_key(*key):
    names = ["part", "posy", "posx", "width", "height", "tilewidth", "tileheight", "nviewid"]
    return record("TileKey", zip(names, in_order(*key)))


def printed_rect(x, y, w, h):
    return record("Rect", [("x", x), ("y", y), ("w", w), ("h", h)])


def answer_key(key):
    part, width, height, posx, posy, tilewidth, tileheight, nviewid = key
    lines = ["  no key", "  no area"]
    if is_key(*key):
        lines[0] = f"  {printed_key(*key)} {printed_rect(posx, posy, tilewidth, tileheight)} true"
    if is_area(*key):
        lines[1] = "  " + record("TileWords", zip(FIELDS, key[:7] + [look(nviewid)]))
    return lines


def answer_order(front, behind):
    if not is_key(*front) or not is_key(*behind):
        return ["  no keys"]
    a, b = in_order(*front), in_order(*behind)
    order = "Less" if a < b else "Equal" if a == b else "Greater"
    return [f"  {order} {str(a == b).lower()}"]


def is_zoom(pixel_w, pixel_h, twip_w, twip_h, nviewid):
    return is_key(0, pixel_w, pixel_h, 0, 0, twip_w, twip_h, nviewid)


def answer_zoom(numbers):
    if not is_zoom(*numbers):
        return ["  no zoom"]
    names = ["pixel_w", "pixel_h", "twip_w", "twip_h", "nviewid"]
    return ["  " + record("Zoom", zip(names, numbers[:4] + [look(numbers[4])]))]


def common(a, b):
    """The range of the points of two ranges (from, length)."""
    return max(a[0], b[0]), min(a[0] + a[1], b[0] + b[1])


def seen_side(start, length, size, twips):
    """The multiples of `twips` whose tile has one of the points from `start`, `length` of them, below `size`."""
    first, end = common((start, length), (0, size))
    if first >= end:
        return []
    return [at for at in range(first - first % twips, end, twips)]


def answer_visible(numbers):
    part, pixel_w, pixel_h, twip_w, twip_h, nviewid, x, y, w, h, width, height = numbers
    fits = x + w < 2**32 and y + h < 2**32 and width < 2**31 and height < 2**31
    if not fits or not is_zoom(pixel_w, pixel_h, twip_w, twip_h, nviewid):
        return ["  no view"]
    columns, rows = seen_side(x, w, width, twip_w), seen_side(y, h, height, twip_h)
    if not columns or not rows:
        columns, rows = [], []
    count = len(columns) * len(rows)
    if count > 4096 or count * pixel_w * pixel_h > 16777216:
        return ["  true TooLarge"]
    keys = [(part, pixel_w, pixel_h, px, py, twip_w, twip_h, nviewid) for py in rows for px in columns]
    assert sorted(keys, key=lambda key: in_order(*key)) == keys and all(is_key(*key) for key in keys)
    ends = [f"Some({printed_key(*keys[0])})", f"Some({printed_key(*keys[-1])})"] if keys else ["None", "None"]
    return [f"  false {count}", f"  {ends[0]}", f"  {ends[1]}"]


def answer_rects(x, y, w, h, px, py, pw, ph):
    if max(x + w, y + h, px + pw, py + ph) >= 2**32:
        return ["  no rectangles"]
    across, down = common((x, w), (px, pw)), common((y, h), (py, ph))
    if across[0] < across[1] and down[0] < down[1]:
        return [f"  true {printed_rect(across[0], down[0], across[1] - across[0], down[1] - down[0])}"]
    return [f"  false {printed_rect(0, 0, 0, 0)}"]


def answer(line):
    form, _, text = line.partition(" ")
    numbers = [int(word) for word in text.split(" ")]
    if form == "key":
        return answer_key(numbers)
    if form == "order":
        return answer_order(numbers[:8], numbers[8:])
    if form == "zoom":
        return answer_zoom(numbers)
    if form == "visible":
        return answer_visible(numbers)
    return answer_rects(*numbers)


def changed(base, edges):
    """The base, and the base with each number at each of its edges."""
    yield base
    for place, values in edges.items():
        for value in values:
            yield base[:place] + [value] + base[place + 1 :]


TOP = 4294967295


def cases():
    pixels = [0, 1, 256, 257, 2048, 2049, TOP]
    twips = [0, 1, 14, 15, 240, 61440, 61441, 491520, 491521, TOP]
    positions = [0, 7, 240, 2147483520, 2147483647, 2147483648, TOP]
    edges = {0: [1, TOP], 1: pixels, 2: pixels, 3: positions, 4: positions, 5: twips, 6: twips, 7: [1, 2, TOP]}
    for key in changed([0, 8, 8, 480, 240, 240, 240, 0], edges):
        yield "key", key
    for key in [
        [0, 0, 256, 0, 3840, 3840, 3840, 0],
        [0, 257, 256, 0, 3840, 3840, 3840, 0],
        [0, 1, 256, 7, 3840, 3840, 3840, 1],
        [0, 1, 256, 0, 3840, 14, 3840, 0],
        [0, 1, 256, 0, 3840, 61441, 3840, 0],
        [0, 1, 256, 2147483650, 3840, 50, 3840, 0],
        [0, 256, 256, 7680, 3840, 3840, 3840, 0],
        [0, 256, 256, 7680, 3840, 3840, 3840, 1],
        [0, 2048, 256, 7, 3840, 491520, 3840, 0],
        [0, 2049, 256, 7, 3840, 491520, 3840, 0],
        [0, 1, 1, 2147483640, 2147483640, 15, 15, 1],
    ]:
        yield "key", key
    base = [1, 8, 8, 480, 480, 240, 240, 0]
    more = [2, 9, 9, 720, 720, 480, 480, 1]
    for place in range(8):
        other = base[:place] + [more[place]] + base[place + 1 :]
        yield "order", base + other
        yield "order", other + base
        # a later number can't outweigh an earlier one
        for later in range(8):
            third = base[:later] + [more[later]] + base[later + 1 :]
            yield "order", other + third
    yield "order", base + base
    yield "order", base + base[:7] + [2]
    yield "order", base + [1, 0, 8, 480, 480, 240, 240, 0]
    zoom_edges = {0: pixels[:5], 1: pixels[:5], 2: twips, 3: twips, 4: [1, 2, TOP]}
    for zoom in changed([256, 256, 3840, 3840, 0], zoom_edges):
        yield "zoom", zoom
    # area from 0, 0, pixels and twips of a square tile, of a part of 3,840 by 3,840
    for w, h, side, size in [
        (3120, 1200, 8, 240),
        (3360, 1200, 8, 240),
        (3120, 1200, 8, 480),
        (3840, 3840, 1, 15),
        (960, 960, 1, 15),
        (961, 960, 1, 15),
        (960, 961, 1, 15),
        (240, 240, 256, 15),
        (241, 240, 256, 15),
        (240, 241, 256, 15),
        (0, 3840, 1, 15),
        (3840, 0, 1, 15),
        (3840, 3840, 256, 3840),
        (3841, 3841, 256, 3840),
        (1, 1, 256, 3840),
    ]:
        for nviewid in (0, 1, 2):
            yield "visible", [0, side, side, size, size, nviewid, 0, 0, w, h, 3840, 3840]
    for view in [
        [3, 8, 4, 240, 120, 0, 239, 599, 4000, 4000, 500, 700],
        [3, 8, 4, 240, 120, 1, 239, 599, 4000, 4000, 500, 700],
        [3, 8, 4, 240, 120, 0, 500, 0, 9, 9, 500, 700],
        [3, 8, 4, 240, 120, 0, 499, 699, 9, 9, 500, 700],
        [3, 8, 4, 240, 120, 0, 240, 120, 1, 1, 500, 700],
        [3, 8, 4, 240, 120, 0, 239, 119, 1, 1, 500, 700],
        [3, 8, 4, 240, 120, 0, 0, 0, 9, 9, 0, 0],
        [0, 1, 1, 61440, 61440, 0, 2147483000, 2147483000, 9999, 9999, 2147483647, 2147483647],
        [0, 1, 1, 15, 15, 0, 2147483646, 2147483646, 1, 1, 2147483647, 2147483647],
        [0, 1, 1, 15, 15, 0, 0, 0, 2147483647, 1, 2147483647, 2147483647],
        [0, 1, 1, 15, 15, 0, 0, 0, TOP, 1, 2147483648, 1],
        [0, 1, 1, 15, 15, 0, 1, 0, TOP, 1, 9, 9],
        [TOP, 256, 256, 3840, 3840, 0, 0, 0, TOP, TOP, 245760, 3840],
    ]:
        yield "visible", view
    rng = random.Random(17)
    for _ in range(40):
        twip_w, twip_h = rng.choice([15, 240, 960, 3840]), rng.choice([15, 240, 960, 3840])
        area = [rng.randrange(6000), rng.randrange(6000), rng.randrange(3000), rng.randrange(3000)]
        size = [rng.randrange(9000), rng.randrange(9000)]
        zoom = [rng.choice([1, 8, 256]), rng.choice([1, 8, 256]), twip_w, twip_h, rng.randrange(3)]
        yield "visible", [rng.randrange(4)] + zoom + area + size
    square = [0, 0, 10, 10]
    for other in [
        [10, 0, 5, 5],
        [9, 0, 5, 5],
        [8, 4, 9, 2],
        [0, 10, 5, 5],
        [0, 9, 5, 5],
        [3, 3, 2, 2],
        [3, 3, 0, 2],
        [3, 3, 2, 0],
        [0, 0, 10, 10],
        [0, 0, 0, 0],
        [0, 0, TOP, TOP],
        [1, 0, TOP, 1],
        [TOP, TOP, 0, 0],
    ]:
        yield "rects", square + other
        yield "rects", other + square
    for x, y in itertools.product(range(0, 12, 3), repeat=2):
        yield "rects", [3, 2, 5, 4, x, y, 3, 3]


def main():
    if sys.argv[1:] == ["cases"]:
        for line in dict.fromkeys(form + " " + " ".join(map(str, numbers)) for form, numbers in cases()):
            print(line)
        return
    for line in sys.stdin:
        line = line.removesuffix("\n")
        print(line)
        for found in answer(line):
            print(found)


main()
