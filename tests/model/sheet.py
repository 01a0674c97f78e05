#!/usr/bin/env python3
"""The patch document, the sheet document, the font and the canvas once more, in plain Python, written from
their rules alone (docs/sheet-kit.md). Writes the cases and what must come of them: `stdin` and `stdout` of
the programs kit_readings and paint_readings.

    python3 tests/model/sheet.py          writes both programs' files
    python3 tests/model/sheet.py --check  says whether the files are those that it would write
"""
import os
import random
import re
import sys

CRATES = os.path.join(os.path.dirname(os.path.abspath(__file__)), "..", "..", "crates")

# ---- the font: columns 0 to 4 of the characters from 32 on, two hexadecimal digits each

TABLE = """
0000000000 00005F0000 0007000700 147F147F14 242A7F2A12 2313086462 3649562050 0008070300
001C224100 0041221C00 2A1C7F1C2A 08083E0808 0080703000 0808080808 0000606000 2010080402
3E5149453E 00427F4000 7249494946 2141494D33 1814127F10 2745454539 3C4A494931 4121110907
3649494936 464949291E 0000140000 0040340000 0008142241 1414141414 0041221408 0201590906
3E415D594E 7C1211127C 7F49494936 3E41414122 7F4141413E 7F49494941 7F09090901 3E41415173
7F0808087F 00417F4100 2040413F01 7F08142241 7F40404040 7F021C027F 7F0408107F 3E4141413E
7F09090906 3E4151215E 7F09192946 2649494932 03017F0103 3F4040403F 1F2040201F 3F4038403F
6314081463 0304780403 6159494D43 007F414141 0204081020 004141417F 0402010204 4040404040
0003070800 2054547840 7F28444438 3844444428 384444287F 3854545418 00087E0902 18A4A49C78
7F08040478 00447D4000 2040403D00 7F10284400 00417F4000 7C04780478 7C08040478 3844444438
FC18242418 18242418FC 7C08040408 4854545424 04043F4424 3C4040207C 1C2040201C 3C4030403C
4428102844 4C9090907C 4464544C44 0008364100 0000770000 0041360800 0201020402
""".split()


def dot(number, x, y):
    glyph = TABLE[number - 32] if 32 <= number <= 126 else "7F4141417F"
    return x < 5 and int(glyph[2 * x:2 * x + 2], 16) >> y & 1 == 1


def text_dot(text, across, down):
    """Whether a place lies on a dot of a text: letters of 90 by 120 twips, dots of 15 by 15."""
    if across < 0 or not 0 <= down < 120 or across // 90 >= len(text):
        return False
    return dot(ord(text[across // 90]), across % 90 // 15, down // 15)


# ---- areas

class Area:
    def __init__(self, part, width, height, x, y, twips_w, twips_h, nviewid):
        self.part, self.width, self.height = part, width, height
        self.x, self.y, self.twips_w, self.twips_h = x, y, twips_w, twips_h
        self.nviewid = 1 if nviewid == 1 else 0

    def valid(self):
        return (1 <= self.width <= 2048 and 1 <= self.height <= 256 and 1 <= self.twips_w <= 491520
                and 1 <= self.twips_h <= 491520 and self.x <= 2147483647 and self.y <= 2147483647)

    def picture(self, sign):
        """Rows of signs: that of the point which each pixel samples."""
        rows = []
        for j in range(self.height):
            y = self.y + j * self.twips_h // self.height
            rows.append("".join(sign(self.x + i * self.twips_w // self.width, y)
                                for i in range(self.width)))
        return rows

    def debug(self):
        return (f"Area {{ part: {self.part}, posy: {self.y}, posx: {self.x}, width: {self.width}, "
                f"height: {self.height}, tilewidth: {self.twips_w}, tileheight: {self.twips_h}, "
                f"nviewid: {self.nviewid} }}")


# ---- the patch document

class Patch:
    def __init__(self, file):
        if len(file) not in (0, 256):
            raise ValueError
        self.squares = list(file) if file else [0] * 256
        self.chosen = {}

    def about(self):
        return ["  patch of 1 parts", "  0: 3840 3840"]

    parts = 1

    def input(self, view, part, what):
        if what[0] == "mouse":
            _, x, y = what
            if x >= 3840 or y >= 3840:
                return []
            square = y // 240 * 16 + x // 240
            self.chosen[view] = square
            self.squares[square] = (self.squares[square] + 1) % 256
        else:
            if what[1] == 0:
                return []
            square = self.chosen.get(view, 0)
            if self.squares[square] == what[1] % 256:
                return []
            self.squares[square] = what[1] % 256
        return [(square % 16 * 240, square // 16 * 240, 240, 240)]

    def save(self):
        return bytes(self.squares)

    def cut(self, area):
        return PatchScene(area, list(self.squares))


class PatchScene:
    def __init__(self, area, squares):
        self.area, self.squares = area, squares

    def key(self):
        return (vars(self.area), self.squares)

    def debug(self):
        return f"PatchScene {{ area: {self.area.debug()}, squares: {self.squares} }}"

    def rows(self):
        def sign(x, y):
            if x >= 3840 or y >= 3840:
                return "W"
            colour = self.squares[y // 240 * 16 + x // 240]
            return {255: "W", 0: "B", 192: "G"}.get(colour, str(colour) if colour < 10 else "+")
        return self.area.picture(sign)


# ---- the sheet document

LEAST, MOST = -2 ** 63, 2 ** 63 - 1


def column_name(col):
    return chr(65 + col) if col < 26 else chr(64 + col // 26) + chr(65 + col % 26)


def ref_of(word):
    found = re.fullmatch(r"([A-Za-z]{1,2})([1-9][0-9]{0,3})", word)
    if not found:
        return None
    col = 0
    for letter in found[1].upper():
        col = col * 26 + ord(letter) - 64
    row = int(found[2])
    return (row - 1, col - 1) if col <= 256 and row <= 4096 else None


def formula_of(raw):
    """The formula of a raw text, None where it has none: of the grammar the part that the cases have, which is
    sums and differences of numbers and references, and one `=` between two of them."""
    tokens = re.findall(r"[A-Za-z]+[0-9]*|[0-9]+|[^ ]", raw[1:]) if raw.startswith("=") else []
    place = 0

    def peek():
        return tokens[place] if place < len(tokens) else ""

    def factor():
        nonlocal place
        token = peek()
        place += 1
        if token == "-":
            return ("-", factor())
        if re.fullmatch(r"[0-9]{1,19}", token) and int(token) <= MOST:
            return int(token)
        if ref_of(token) is None:
            raise ValueError
        return ref_of(token)

    def total():
        nonlocal place
        found = factor()
        while peek() in ("+", "-"):
            sign = peek()
            place += 1
            found = (sign, found, factor())
        return found

    try:
        found = total()
        if peek() == "=":
            place += 1
            found = ("=", found, total())
        return found if place == len(tokens) else None
    except ValueError:
        return None


def refs_of(found):
    if isinstance(found, int):
        return []
    if isinstance(found[0], int):
        return [found]
    return [ref for part in found[1:] for ref in refs_of(part)]


def reads(cells, at):
    found = formula_of(cells.get(at, ""))
    return [] if found is None else refs_of(found)


def circular(cells):
    """The cells from which a walk begins that has more steps than there are formulas."""
    formulas = [at for at in cells if formula_of(cells[at]) is not None]
    walking = set(formulas)
    for _ in range(len(formulas) + 1):
        walking = {at for at in walking if any(to in walking for to in reads(cells, at))}
    return walking


def values(cells):
    ring = circular(cells)
    known = {}

    def plain(raw):
        if raw == "":
            return None
        if re.fullmatch(r"-?[0-9]{1,19}", raw) and LEAST <= int(raw) <= MOST:
            return int(raw)
        return raw

    def number(value):
        return 0 if value is None else ("#VALUE!",) if isinstance(value, str) else value

    def within(result):
        return result if LEAST <= result <= MOST else ("#NUM!",)

    def equal(left, right):
        if left is None:
            left = "" if isinstance(right, str) else 0
        if right is None:
            right = "" if isinstance(left, str) else 0
        return 1 if left == right else 0

    def evaluated(found):
        if isinstance(found, int):
            return found
        if isinstance(found[0], int):
            return value(found)
        operands = [evaluated(part) for part in found[1:]]
        if found[0] != "=":
            operands = [number(operand) for operand in operands]
        for operand in operands:
            if isinstance(operand, tuple):
                return operand
        if found[0] == "=":
            return equal(*operands)
        if len(operands) == 1:
            return within(-operands[0])
        return within(operands[0] + operands[1] if found[0] == "+" else operands[0] - operands[1])

    def value(at):
        if at not in known:
            raw = cells.get(at, "")
            found = formula_of(raw)
            known[at] = plain(raw) if found is None else ("#CIRC!",) if at in ring else evaluated(found)
        return known[at]

    for at in cells:
        value(at)
    return known


def shown(cells):
    texts = {}
    known = values(cells)
    for at, raw in cells.items():
        if formula_of(raw) is not None:
            value = known[at]
            texts[at] = ("0" if value is None else value[0] if isinstance(value, tuple)
                         else str(value) if isinstance(value, int) else value)
        else:
            texts[at] = raw
    return texts


def rectangles(cells):
    """Of changed cells: neighbours in one row make one, and more than 256 the one that holds them all."""
    found = []
    for row, col in sorted(cells):
        if found and found[-1][0] == row and found[-1][1] + found[-1][2] == col:
            found[-1][2] += 1
        else:
            found.append([row, col, 1])
    rects = [(col * 960, row * 240, count * 960, 240) for row, col, count in found]
    if len(rects) > 256:
        x, y = min(r[0] for r in rects), min(r[1] for r in rects)
        rects = [(x, y, max(r[0] + r[2] for r in rects) - x, max(r[1] + r[3] for r in rects) - y)]
    return rects


def is_raw(raw):
    return 1 <= len(raw.encode()) <= 1024 and all(ord(c) >= 32 and ord(c) != 127 for c in raw)


class Sheet:
    def __init__(self, file):
        self.cells = [{}]
        self.cursors = {}
        if file:
            self.read(file)

    def read(self, file):
        if len(file) > 2097152 or not file.endswith(b"\n"):
            raise ValueError
        lines = file.decode().split("\n")[:-1]
        if lines[0] != "coolsheet 1" or len(lines) < 2:
            raise ValueError
        many = re.fullmatch(r"parts ([1-9]|1[0-6])", lines[1])
        if not many:
            raise ValueError
        self.cells = [{} for _ in range(int(many[1]))]
        before = (-1, 0, 0)
        for line in lines[2:]:
            words = line.split(" ", 2)
            if len(words) < 3 or not re.fullmatch(r"0|[1-9][0-9]*", words[0]):
                raise ValueError
            at = ref_of(words[1])
            if at is None or words[1] != words[1].upper() or not is_raw(words[2]):
                raise ValueError
            if int(words[0]) >= len(self.cells) or (int(words[0]),) + at <= before:
                raise ValueError
            before = (int(words[0]),) + at
            self.cells[int(words[0])][at] = words[2]

    @property
    def parts(self):
        return len(self.cells)

    def about(self):
        return [f"  sheet of {self.parts} parts"] + [f"  {n}: 245760 983040" for n in range(self.parts)]

    def save(self):
        lines = ["coolsheet 1", f"parts {self.parts}"]
        for part, cells in enumerate(self.cells):
            for row, col in sorted(cells):
                lines.append(f"{part} {column_name(col)}{row + 1} {cells[row, col]}")
        return ("\n".join(lines) + "\n").encode()

    def input(self, view, part, what):
        cursor = self.cursors.get(view)
        if cursor is None or cursor[0] != part:
            cursor = (part, 0, 0, True)
        _, row, col, fresh = cursor
        cells = self.cells[part]
        raw = cells.get((row, col), "")
        if what[0] == "mouse":
            _, x, y = what
            if x < 245760 and y < 983040:
                self.cursors[view] = (part, y // 240, x // 960, True)
            return []
        _, char, code = what
        if code in (1024, 1280):
            self.cursors[view] = (part, min(row + 1, 4095), col, True)
        elif code == 1025:
            self.cursors[view] = (part, max(row - 1, 0), col, True)
        elif code == 1026:
            self.cursors[view] = (part, row, max(col - 1, 0), True)
        elif code in (1027, 1282):
            self.cursors[view] = (part, row, min(col + 1, 255), True)
        elif code == 1028:
            self.cursors[view] = (part, row, 0, True)
        elif code == 1029:
            self.cursors[view] = (part, row, max([c for r, c in cells if r == row], default=0), True)
        elif code == 1283:
            return self.write(view, part, row, col, raw[:-1], False)
        elif code == 1286:
            return self.write(view, part, row, col, "", True)
        elif 32 <= char < 1114112 and char != 127 and not 55296 <= char < 57344:
            return self.write(view, part, row, col, ("" if fresh else raw) + chr(char), False)
        return []

    def write(self, view, part, row, col, raw, fresh):
        before = self.cells[part]
        after = {at: text for at, text in before.items() if at != (row, col)}
        if raw:
            after[row, col] = raw
        self.cells[part] = after
        if len(raw.encode()) > 1024 or len(self.save()) > 2097152:
            self.cells[part] = before
            return []
        self.cursors[view] = (part, row, col, fresh)
        old, new = shown(before), shown(after)
        return rectangles(at for at in {**old, **new} if old.get(at, "") != new.get(at, ""))

    def cut(self, area):
        texts = [(row, col, text) for (row, col), text in sorted(shown(self.cells[area.part]).items())
                 if text and area.x // 960 <= col <= (area.x + area.twips_w - 1) // 960
                 and area.y // 240 <= row <= (area.y + area.twips_h - 1) // 240]
        return SheetScene(area, texts)


class SheetScene:
    def __init__(self, area, texts):
        self.area, self.texts = area, texts

    def key(self):
        return (vars(self.area), self.texts)

    def debug(self):
        texts = ", ".join(f'ShownText {{ row: {row}, col: {col}, text: TextOf {{ text: "{text}" }} }}'
                          for row, col, text in self.texts)
        return f"SheetScene {{ area: {self.area.debug()}, texts: ListOf {{ items: [{texts}] }} }}"

    def rows(self):
        cells = {(row, col): text for row, col, text in self.texts}

        def sign(x, y):
            if x >= 245760 or y >= 983040:
                return "W"
            dx, dy = x % 960, y % 240
            if self.area.nviewid == 0 and (dx >= 945 or dy >= 225):
                return "G"
            text = cells.get((y // 240, x // 960), "")
            return "B" if text_dot(text, dx - 30, dy - 60) else "W"
        return self.area.picture(sign)


# ---- kit_readings

def long_file(count, last):
    lines = [f"0 A{row + 1} " + "x" * 1022 for row in range(min(count, 4000))]
    return ("\n".join(["coolsheet 1", "parts 1"] + lines + ["0 A4096 " + "x" * last]) + "\n").encode()


def read_by(count):
    return ("coolsheet 1\nparts 1\n0 A1 1\n" + "".join(f"0 B{n + 1} =A1\n" for n in range(count))).encode()


class Desk:
    """A document that lines are said to, and what must be printed of each."""

    def __init__(self):
        self.document, self.kept, self.said, self.answers = None, None, [], []

    def note(self, text):
        self.said += ["", f"# {text}"]

    def say(self, line):
        self.said.append(line)
        self.answers.append(line)
        word, _, rest = line.partition(" ")
        self.answers += self.answer(word, rest)

    def load(self, word, rest):
        numbers = [int(n) for n in rest.split()] if word != "sheet" else []
        try:
            if word == "patch":
                document = Patch(bytes([numbers[1]]) * numbers[0])
            elif word == "sheet":
                document = Sheet(rest.replace("|", "\n").encode())
            elif word == "long":
                document = Sheet(long_file(*numbers))
            else:
                document = Sheet(read_by(*numbers))
        except ValueError:
            return ["  the file is none of this kind of document"]
        self.document, self.kept = document, None
        return []

    def answer(self, word, rest):
        if word in ("patch", "sheet", "long", "readers"):
            return self.load(word, rest)
        if self.document is None:
            return ["  no document"]
        if word == "about":
            return self.document.about()
        if word == "save":
            file = self.document.save()
            text = file[-600:].decode(errors="replace")
            signs = "".join("|" if c == "\n" else "." if ord(c) < 32 else c for c in text)
            return [f"  {len(file)} bytes: {signs}"]
        if word in ("key", "mouse", "type"):
            return self.give(word, rest)
        numbers = [int(n) for n in rest.split()]
        return self.show(word, Area(*numbers))

    def give(self, word, rest):
        view, part, rest = (rest.split(" ", 2) + [""])[:3]
        if word == "type":
            inputs = [("key", ord(c), 0) for c in rest]
        else:
            inputs = [(word,) + tuple(int(n) for n in rest.split())]
        answers = []
        for what in inputs:
            if int(part) >= self.document.parts:
                answers.append("  no such part")
                continue
            # The patch document has one part, and its inputs act there.
            rects = self.document.input(int(view), int(part), what)
            answers.append(f"  {len(rects)} damaged" + "".join(f"; {x} {y} {w} {h}" for x, y, w, h in rects))
        return answers

    def show(self, word, area):
        if not area.valid():
            return ["  no area"]
        if area.part >= self.document.parts:
            return ["  no such part"]
        scene = self.document.cut(area)
        picture = [f"  {area.width} by {area.height}"]
        if word == "cut":
            return ["  " + scene.debug()]
        if word == "keep":
            self.kept = scene
            return []
        if word == "kept":
            if self.kept is None:
                return ["  none is kept"]
            same = str(self.kept.key() == scene.key()).lower()
            kept = self.kept.area
            return [f"  equal: {same} true", f"  {kept.width} by {kept.height}"] + ["  " + row for row in self.kept.rows()]
        return picture + ["  " + row for row in scene.rows()]


BLANK = "sheet coolsheet 1|parts 1|"
KEYS = [1024, 1025, 1026, 1027, 1028, 1029, 1280, 1282, 1283, 1286]


def patch_cases(desk):
    desk.note("files of patch documents")
    for count in (0, 1, 255, 257, 512):
        desk.say(f"patch {count} 7")
    for count, colour in ((0, 0), (256, 0), (256, 65), (256, 33)):
        desk.say(f"patch {count} {colour}")
        desk.say("save")
    desk.say("about")
    desk.note("clicks raise colours, 255 becoming 0; chars set them")
    desk.say("patch 0 0")
    for x, y in ((3840, 0), (0, 3840), (4294967295, 4294967295), (479, 480), (3839, 3839), (0, 0)):
        desk.say(f"mouse 0 0 {x} {y}")
    desk.say("mouse 0 0 479 480")
    for char in (0, 257, 258, 511, 511, 256, 65, 4294967295):
        desk.say(f"key 0 0 {char} 0")
    desk.say("mouse 0 0 479 480")
    desk.say("key 1 0 66 1286")
    desk.say("key 1 0 66 0")
    desk.say("mouse 0 1 0 0")
    desk.note("pictures, the same in both looks")
    for look in (0, 1, 2):
        for place in ("8 8 0 0 240 240", "8 8 0 0 480 480", "4 4 3720 3720 240 240", "3 5 0 0 7680 7680"):
            desk.say(f"tile 0 {place} {look}")
    desk.say("cut 0 8 8 0 0 480 480 1")
    desk.say("keep 0 8 8 0 0 480 480 0")
    desk.say("kept 0 8 8 0 0 480 480 0")
    desk.say("kept 0 8 8 0 0 480 480 1")
    desk.say("mouse 0 0 0 0")
    desk.say("kept 0 8 8 0 0 480 480 0")
    for words in ("0 0 8 0 0 240 240 0", "0 2049 8 0 0 240 240 0", "0 8 257 0 0 240 240 0",
                  "0 8 8 0 0 491521 240 0", "0 8 8 2147483648 0 240 240 0", "1 8 8 0 0 240 240 0"):
        desk.say(f"tile {words}")


def file_cases(desk):
    desk.note("files of sheet documents")
    for file in ("", "coolsheet 1|parts 1|", "coolsheet 1|parts 3|0 B1 x|2 IV4096 =1+1|", "coolsheet 1|parts 16|"):
        desk.say(f"sheet {file}")
        desk.say("about")
        desk.say("save")
    for file in ("sheet|", "coolsheet 1|", "coolsheet 1|parts 0|", "coolsheet 1|parts 17|", "coolsheet 1|parts 1",
                 "coolsheet 1|parts 1|0 B1 x|0 A1 y|", "coolsheet 1|parts 1|0 A1 x|0 A1 x|",
                 "coolsheet 1|parts 1|1 A1 x|", "coolsheet 1|parts 1|0 a1 x|", "coolsheet 1|parts 1|0 A0 x|",
                 "coolsheet 1|parts 1|0 IW1 x|", "coolsheet 1|parts 1|0 A4097 x|", "coolsheet 1|parts 1|0 A1|",
                 "coolsheet 1|parts 1|0 A1 |", "|"):
        desk.say(f"sheet {file}")
    desk.note("a file of 2,097,152 bytes, and one of a byte more")
    short = len(long_file(2035, 1))
    for size in (2097152, 2097153, 3000000):
        last = size - short + 1
        desk.say(f"long {2035 + last // 1029} {last % 1029}" if last > 1024 else f"long 2035 {last}")
    desk.say("long 4000 1024")


def key_cases(desk):
    desk.note("keys from C3, from the last cell, from the first one")
    for code in KEYS:
        for x, y in ((1920, 480), (6720, 480), (245759, 983039), (0, 0)):
            desk.say("sheet coolsheet 1|parts 1|0 F3 f|")
            desk.say(f"mouse 0 0 {x} {y}")
            desk.say("type 0 0 old")
            desk.say(f"key 0 0 0 {code}")
            desk.say("type 0 0 new")
            desk.say(f"mouse 0 0 {x} {y}")
            desk.say("key 0 0 0 1286")
            desk.say("mouse 0 0 4800 480")
            desk.say("key 0 0 0 1286")
            desk.say("save")
    desk.note("a code counts before a char; codes beside those of keys leave a key to its char")
    desk.say(BLANK)
    for code in KEYS + [0, 1, 1023, 1030, 1279, 1281, 1284, 1285, 1287, 4294967295]:
        desk.say(f"key 0 0 65 {code}")
        desk.say("save")
    desk.note("END goes past empty cells, from either side, and to column A in an empty row")
    desk.say("sheet coolsheet 1|parts 1|0 B1 b|0 F1 f|0 IV2 z|")
    for x, y, text in ((2880, 10, "x"), (9600, 10, "yz"), (9600, 490, "a"), (0, 250, "w")):
        desk.say(f"mouse 0 0 {x} {y}")
        desk.say("key 0 0 0 1029")
        desk.say(f"type 0 0 {text}")
    desk.say("save")


def edit_cases(desk):
    desk.note("the first text at a fresh cursor takes the old one's place, and what follows is added")
    for steps in (["ab"], ["ab", 1283, "é€"], ["aé€", 1283], ["aé", 1283], [1283, "w"], [1286, 1283, 1286],
                  [1283, 1283, 1283, 1283, "q"], ["=1", "+1", 1283, 1283], [1286, "x", 1024, 1025, "y"]):
        desk.say("sheet coolsheet 1|parts 1|0 A1 one|")
        for step in steps:
            desk.say(f"type 0 0 {step}" if isinstance(step, str) else f"key 0 0 0 {step}")
        desk.say("save")
    desk.note("chars that are not typed; nor do clicks outside change anything")
    desk.say("sheet coolsheet 1|parts 1|0 A1 one|")
    desk.say("mouse 0 0 245760 0")
    desk.say("mouse 0 0 0 983040")
    for char in (0, 31, 127, 55296, 57343, 1114112, 4294967295, 32, 55295, 57344, 1114111, 126, 128):
        desk.say(f"key 0 0 {char} 0")
    desk.say("save")
    desk.note("a raw text has at most 1,024 bytes")
    for text in (["ab"], ["abc"], ["aé"]):
        desk.say("long 0 1023")
        desk.say("mouse 0 0 10 983000")
        desk.say("key 0 0 0 1283")
        desk.say(f"type 0 0 {text[0]}")
        desk.say("save")
    desk.say("long 0 1023")
    desk.say("mouse 0 0 10 983000")
    desk.say("type 0 0 ab")
    desk.say("save")
    desk.note("a file of 2,097,151 bytes takes one more byte and no second one")
    desk.say(f"long 2035 {2097151 - len(long_file(2035, 1)) + 1}")
    desk.say("mouse 0 0 10 983000")
    desk.say("key 0 0 0 1283")
    desk.say("type 0 0 abcd")
    desk.say("save")
    desk.note("views have cursors of their own, fresh at A1 of another part")
    desk.say("sheet coolsheet 1|parts 2|")
    for line in ("key 7 0 0 1024", "key 9 1 0 1024", "key 9 1 0 1024", "type 7 0 seven", "type 9 1 nine",
                 "type 7 0 !", "key 9 0 10 0", "type 9 1 !", "type 9 0 new", "type 9 1 newer", "type 9 2 x", "save"):
        desk.say(line)


def damage_cases(desk):
    desk.note("changed cells side by side are one rectangle; what shows as before isn't damaged")
    gap = "coolsheet 1|parts 1|0 A1 1|0 B1 =A1|0 C1 c|0 D1 =A1|0 C3 =B1|0 D3 =C3|0 E3 =D1|"
    for char in (50, 49):
        desk.say(f"sheet {gap}")
        desk.say(f"key 0 0 {char} 0")
    desk.note("256 rectangles, and the one that holds more of them")
    for count in (1, 2, 255, 256, 257, 300):
        desk.say(f"readers {count}")
        desk.say("key 0 0 50 0")
        desk.say("key 0 0 50 0")
        desk.say("key 0 0 0 1286")
    desk.note("a circle and its end")
    desk.say("sheet ")
    for line in ("mouse 0 0 10 10", "type 0 0 =B1+1", "mouse 0 0 970 10", "type 0 0 =A1", "tile 0 6 8 30 60 90 120 0",
                 "mouse 0 0 970 10", "key 0 0 52 0", "save", "tile 0 6 8 0 0 90 120 0", "tile 0 6 8 0 0 90 120 1"):
        desk.say(line)


def scene_cases(desk):
    desk.note("both looks of one corner: with lines and without")
    desk.say(BLANK)
    for look in (0, 1):
        desk.say(f"tile 0 4 4 900 180 60 60 {look}")
    desk.note("corners of cells, the end of the document, places outside of it, the last cell")
    desk.say("sheet coolsheet 1|parts 2|0 A1 I|0 B2 HHHHHHHHHHHHHH|0 IV4096 I|1 A1 other|")
    for look in (0, 1, 7):
        for place in ("4 4 915 195 60 60", "4 4 245730 983010 60 60", "3 1 300000 983010 45 15", "3 1 0 983040 45 15",
                      "6 8 244830 982860 90 120", "8 16 1800 240 120 240", "64 16 960 240 960 240", "16 8 0 0 1920 480",
                      "5 3 0 0 491520 491520", "7 7 950 220 21 27"):
            desk.say(f"tile 0 {place} {look}")
            desk.say(f"cut 0 {place} {look}")
    desk.say("tile 1 16 4 0 0 960 240 1")
    desk.say("tile 2 16 4 0 0 960 240 1")
    desk.note("scenes hold the texts of their cells and stay as they were cut")
    desk.say("sheet coolsheet 1|parts 1|0 A1 1|0 B1 =A1|0 A2 2|0 C3 =A2+B1|")
    for place in ("130 32 0 0 1950 480", "64 16 0 0 960 240", "1 1 959 0 15 15", "64 16 1920 0 960 240", "1 1 0 239 1 1",
                  "1 1 0 239 1 2", "8 8 0 0 245760 491520"):
        desk.say(f"cut 0 {place} 0")
    desk.say("keep 0 13 8 0 0 1950 480 0")
    desk.say("kept 0 13 8 0 0 1950 480 0")
    desk.say("kept 0 13 8 0 0 1950 480 1")
    desk.say("type 0 0 8")
    desk.say("kept 0 13 8 0 0 1950 480 0")
    desk.say("tile 0 13 8 0 0 1950 480 0")
    desk.say("mouse 0 0 5000 5000")
    desk.say("keep 0 13 8 0 0 1950 480 0")
    desk.say("type 0 0 far")
    desk.say("kept 0 13 8 0 0 1950 480 0")


def drawn_cases(desk, number):
    """Inputs of two views at random, and what is seen of them."""
    random.seed(number)
    desk.note(f"drawn, {number}")
    desk.say("sheet coolsheet 1|parts 2|0 A1 5|0 B2 =A1+1|1 C3 x|")
    texts = ["7", "-3", "x", "=A1", "=B2+1", "=A1+B1", "=C3", "ab é", "9223372036854775807", "=A1+9", "=D1+D1"]
    for _ in range(14):
        view, part = random.choice((0, 0, 1)), random.choice((0, 0, 0, 1))
        kind = random.randrange(4)
        if kind == 0:
            desk.say(f"mouse {view} {part} {random.randrange(3840)} {random.randrange(960)}")
        elif kind == 1:
            desk.say(f"key {view} {part} {random.choice((0, 65))} {random.choice(KEYS)}")
        else:
            desk.say(f"type {view} {part} {random.choice(texts)}")
    for _ in range(4):
        x, y = random.randrange(3000), random.randrange(900)
        place = f"{random.randrange(1, 40)} {random.randrange(1, 12)} {x} {y} {random.randrange(1, 2000)} {random.randrange(1, 600)}"
        desk.say(f"tile 0 {place} {random.randrange(2)}")
        desk.say(f"cut 0 {place} {random.randrange(2)}")
    desk.say("save")


def kit_files():
    desk = Desk()
    desk.say("save")
    patch_cases(desk)
    file_cases(desk)
    key_cases(desk)
    edit_cases(desk)
    damage_cases(desk)
    scene_cases(desk)
    for number in range(24):
        drawn_cases(desk, number)
    return desk.said, desk.answers


# ---- paint_readings

class Easel:
    """A canvas with its strokes, and what must be printed of each line."""

    def __init__(self):
        self.area, self.strokes, self.said, self.answers = None, [], [], []

    def note(self, text):
        self.said += ["", f"# {text}"]

    def say(self, line):
        self.said.append(line)
        self.answers.append(line)
        word, _, rest = line.partition(" ")
        self.answers += self.answer(word, rest)

    def answer(self, word, rest):
        if word == "glyph":
            return [line for number in rest.split() for line in self.glyph(int(number))]
        if word == "area":
            numbers = [int(n) for n in rest.split()]
            self.area, self.strokes = Area(3, *numbers, 0), []
            return []
        if word in ("fill", "text"):
            self.strokes.append((word, rest))
            return []
        rows = self.area.picture(self.sign())
        if word == "show":
            return [f"  {self.area.width} by {self.area.height}"] + ["  " + row for row in rows]
        return [f"  {sign} {sum(row.count(sign) for row in rows)}" for sign in "#+o.?"]

    def glyph(self, number):
        if 55296 <= number < 57344 or number > 1114111:
            return ["  no character"]
        return [f"  {number}"] + ["  " + "".join("#" if dot(number, x, y) else "." for x in range(6)) for y in range(8)]

    def sign(self):
        """The sign of a point: that of the last stroke that has it."""
        strokes = []
        for word, rest in reversed(self.strokes):
            words = rest.split(" ", 7)
            numbers = [int(n) for n in words[:7]]
            if word == "fill":
                colour = {(192, 192, 192): "+", (1, 2, 3): "o", (0, 0, 0): "#", (255, 255, 255): "."}
                strokes.append((None, numbers[:4], colour.get(tuple(numbers[4:]), "?")))
            else:
                strokes.append(((words[7] * numbers[0], numbers[1], numbers[2]), numbers[3:], "#"))

        def sign(x, y):
            for text, (left, top, width, height), colour in strokes:
                if left <= x < left + width and top <= y < top + height:
                    if text is None or text_dot(text[0], x - text[1], y - text[2]):
                        return colour
            return "."
        return sign


ALL = "0 0 4294967295 4294967295"


def canvas_cases(easel):
    easel.note("texts: one pixel a dot, every second dot, twips that no pixel divides, cut on all sides, begun left of "
               "the area and above it, at the far corner, four dots a pixel")
    for place, text in (("0 0 180 135", f"1 0 0 {ALL} A5"), ("0 0 360 270", f"1 0 0 {ALL} Ag\u00e95"),
                        ("0 0 85 110", f"1 3 2 {ALL} g5"), ("15 7 180 135", "1 30 15 45 30 80 75 5AW"),
                        ("1080 60 180 135", f"1 1000 0 {ALL} Wxyz"),
                        ("2147483647 2147483647 180 135", f"1 2147483640 2147483647 {ALL} Ay"),
                        ("0 0 720 540", f"1 7 11 {ALL} HHHHHHHH"), ("0 0 180 135", f"0 0 0 {ALL} A"),
                        ("0 0 180 135", f"1 4294967295 0 {ALL} A"), ("0 0 180 135", "1 0 0 0 0 0 4294967295 A")):
        easel.say(f"area 12 9 {place}")
        easel.say(f"text {text}")
        easel.say("show")
    easel.note("fills: edges of pixels, a twip behind them, twips that no pixel divides, begun left and above, no point, "
               "beyond the area")
    for place, rect in (("0 0 240 180", "20 20 40 20"), ("0 0 240 180", "21 19 40 2"), ("0 0 100 70", "8 7 9 60"),
                        ("100 50 240 180", "0 0 121 71"), ("0 0 240 180", "20 20 0 20"),
                        ("0 0 240 180", "219 159 4000000000 4000000000"), ("0 0 240 180", "240 0 10 10"),
                        ("0 0 240 180", "0 180 10 10"), ("0 0 5 4", "1 1 1 1")):
        easel.say(f"area 12 9 {place}")
        easel.say(f"fill {rect} 192 192 192")
        easel.say("show")
    easel.note("strokes in order; red, green and blue in their places")
    easel.say("area 12 9 0 0 180 135")
    for stroke in ("fill 0 0 180 60 192 192 192", f"text 1 0 0 {ALL} A5", "fill 60 45 60 90 192 192 192", "fill 0 90 90 45 1 2 3",
                   f"text 1 0 75 {ALL} --"):
        easel.say(stroke)
        easel.say("show")
    easel.say("count")
    easel.note("as many pixels as there may be, and a text that is longer than the area is wide")
    easel.say("area 2048 256 2147483647 2147483647 491520 491520")
    easel.say("fill 2147483647 2147483647 491520 491520 1 2 3")
    easel.say("count")
    for rest in (f"512 0 0 {ALL} A5", "512 15 3700 30 0 25000 3830 A5"):
        easel.say("area 2048 256 0 0 30720 3840")
        easel.say(f"text {rest}")
        easel.say("count")
    random.seed(12)
    for number in range(40):
        easel.note(f"drawn, {number}")
        easel.say(f"area {random.randrange(1, 30)} {random.randrange(1, 12)} {random.randrange(400)} {random.randrange(200)} "
                  f"{random.randrange(1, 600)} {random.randrange(1, 300)}")
        for _ in range(random.randrange(1, 5)):
            x, y = random.randrange(700), random.randrange(400)
            rect = f"{random.randrange(700)} {random.randrange(400)} {random.randrange(500)} {random.randrange(300)}"
            if random.randrange(2):
                easel.say(f"fill {rect} {random.choice(('192 192 192', '1 2 3', '0 0 0', '255 255 255', '9 8 7'))}")
            else:
                easel.say(f"text {random.randrange(3)} {x} {y} {rect} {random.choice(('Ag5', 'x', 'W~', 'é#', 'Qy %'))}")
        easel.say("show")


def paint_files():
    easel = Easel()
    easel.note("every glyph, and the box of all other characters")
    for first in range(32, 127, 19):
        easel.say("glyph " + " ".join(str(n) for n in range(first, first + 19)))
    easel.say("glyph 0 10 31 127 128 233 20013 65533 1114111 55296 1114112")
    canvas_cases(easel)
    return easel.said, easel.answers


def main():
    right = True
    for crate, files in (("kit_readings", kit_files()), ("paint_readings", paint_files())):
        for name, lines in zip(("stdin", "stdout"), files):
            path = os.path.join(CRATES, crate, name)
            text = "\n".join(lines) + "\n"
            if "--check" in sys.argv:
                with open(path, encoding="utf-8") as file:
                    right = right and file.read() == text
            else:
                with open(path, "w", encoding="utf-8") as file:
                    file.write(text)
    if not right:
        sys.exit("the files are others")


main()
