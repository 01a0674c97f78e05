#!/usr/bin/env python3
"""An independent model of `coolwsd replay patch` and `coolwsd replay sheet`: what docs/script.md,
docs/protocol.md, docs/document-machine.md, docs/patch-document.md and docs/sheet.md say, written anew in
Python without a look at the program. It reads a script from standard input, writes its transcript, and ends
with its status:

    tests/model/replay.py patch < tests/scripts/NAME.script > NAME.transcript
"""
import re
import sys

from font import dot
from sheet_engine import MAX_FILE, Book, is_raw

WHITE, BLACK, GREY = b"\xff\xff\xff\xff", b"\x00\x00\x00\xff", b"\xc0\xc0\xc0\xff"
MAX_LINE, MAX_MESSAGE, MAX_VIEWS, MAX_WINDOW = 70_000, 65_536, 64, 64
MAX_ASKED, MAX_VISIBLE, MAX_PIXELS, MAX_GROUP = 1024, 4096, 16_777_216, 8
MAX_KEPT, MAX_SAVES = 256, 64


# Messages: (command, {word: value}) or None for a text that is none

def number(text):
    return int(text) if re.fullmatch("[0-9]{1,10}", text) and int(text) < 2**31 else None


def numbers(text):
    found = [number(it) for it in text.split(",")]
    return found if len(found) <= 1024 and None not in found else None


def wids(text):
    found = [int(it) if re.fullmatch("[0-9]{1,20}", it) and int(it) < 2**64 else None for it in text.split(",")]
    return found if len(found) <= 1024 and None not in found else None


def one_of(*texts):
    return lambda text: text if text in texts else None


def url(text):
    return text if 1 <= len(text.encode()) <= 8192 else None


TILE = ["part", "width", "height", "tileposx", "tileposy", "tilewidth", "tileheight"]

# command -> (required words, optional words with their defaults)
COMMANDS = {
    "load": ({"url": url}, {}),
    "key": ({"type": one_of("input", "up"), "char": number, "key": number}, {}),
    "mouse": ({"type": one_of("buttondown", "buttonup", "move"), "x": number, "y": number},
              {"count": (number, 1), "buttons": (number, 1), "modifier": (number, 0)}),
    "tile": (dict.fromkeys(TILE, number), {"nviewid": (number, 0)}),
    "tilecombine": ({it: numbers if it.startswith("tilepos") else number for it in TILE}, {"nviewid": (number, 0)}),
    "canceltiles": ({}, {}),
    "clientvisiblearea": (dict.fromkeys(["x", "y", "width", "height"], number), {}),
    "clientzoom": (dict.fromkeys(["tilepixelwidth", "tilepixelheight", "tiletwipwidth", "tiletwipheight"], number),
                   {"nviewid": (number, 0)}),
    "setclientpart": ({"part": number}, {}),
    "tileprocessed": ({"wids": wids}, {}),
    "save": ({}, {"dontTerminateEdit": (one_of("0", "1"), "0"), "dontSaveIfUnmodified": (one_of("0", "1"), "0")}),
}


def message_words(text):
    """The text's words, else None where it is empty, too long or not UTF-8."""
    if not text.strip(b" ") or len(text) > MAX_MESSAGE:
        return None
    try:
        return [it for it in text.decode().split(" ") if it]
    except UnicodeDecodeError:
        return None


def read_message(words):
    command = words[0]
    if command == "coolclient":
        return command, {}
    if command == "uno":
        return (command, {}) if words[1:2] == [".uno:Save"] else None
    if command not in COMMANDS:
        return None
    required, optional = COMMANDS[command]
    given = {}
    for word in words[1:]:
        name, equals, value = word.partition("=")
        if equals and (name in required or name in optional):
            given.setdefault(name, []).append(value)
    values = {}
    for name, read in required.items():
        if name not in given or (value := read(given[name][0])) is None or len(given[name]) > 1:
            return None
        values[name] = value
    for name, (read, default) in optional.items():
        if name in given and (read(given[name][0]) is None or len(given[name]) > 1):
            return None
        values[name] = read(given[name][0]) if name in given else default
    if command == "tilecombine" and len(values["tileposx"]) != len(values["tileposy"]):
        return None
    return command, values


# Keys: (part, posy, posx, width, height, tilewidth, tileheight, nviewid), which sorts as keys do

def key_of(part, width, height, posx, posy, tilewidth, tileheight, nviewid):
    sizes = 1 <= width <= 256 and 1 <= height <= 256 and 15 <= tilewidth <= 61440 and 15 <= tileheight <= 61440
    if not sizes or posx % tilewidth or posy % tileheight:
        return None
    return part, posy, posx, width, height, tilewidth, tileheight, 1 if nviewid == 1 else 0


def meets(rect, other):
    (x, y, w, h), (a, b, c, d) = rect, other
    return w > 0 and h > 0 and c > 0 and d > 0 and x < a + c and a < x + w and y < b + d and b < y + h


def rect_of(key):
    return key[2], key[1], key[5], key[6]


# The documents

class Patch:
    name, parts = "patch", 1

    def __init__(self):
        self.colours, self.chosen = [0] * 256, {}

    def size(self, _part):
        return 3840, 3840

    def colour(self, _nviewid, part, x, y):
        if part != 0 or x >= 3840 or y >= 3840:
            return WHITE
        colour = self.colours[y // 240 * 16 + x // 240]
        return bytes([colour, colour, colour, 255])

    def input(self, view, _part, what):
        """Makes the input, and gives the damaged rectangles."""
        if what[0] == "mouse":
            _, x, y = what
            if x >= 3840 or y >= 3840:
                return []
            self.chosen[view] = y // 240 * 16 + x // 240
            return self.paint(view, (self.colours[self.chosen[view]] + 1) % 256)
        return self.paint(view, what[1] % 256) if what[1] else []

    def paint(self, view, colour):
        square = self.chosen.get(view, 0)
        if self.colours[square] == colour:
            return []
        self.colours[square] = colour
        return [(0, (square % 16 * 240, square // 16 * 240, 240, 240))]


class Sheet:
    name, parts = "sheet", 1
    MOVES = {1024: (1, 0), 1025: (-1, 0), 1026: (0, -1), 1027: (0, 1), 1280: (1, 0), 1282: (0, 1)}

    def __init__(self):
        self.book, self.cursors = Book(1), {}

    def size(self, _part):
        return 245_760, 983_040

    def colour(self, nviewid, part, x, y):
        if part >= self.parts or x >= 245_760 or y >= 983_040:
            return WHITE
        dx, dy = x % 960, y % 240
        if nviewid == 0 and (dx >= 945 or dy >= 225):
            return GREY
        text = self.book.shown((part, y // 240, x // 960))
        if dx >= 30 and 60 <= dy < 180 and (dx - 30) // 90 < len(text):
            if dot(text[(dx - 30) // 90], (dx - 30) % 90 // 15, (dy - 60) // 15):
                return BLACK
        return WHITE

    def input(self, view, part, what):
        _, row, col, fresh = self.cursors.get(view, (None, 0, 0, True))
        if self.cursors.get(view, (None,))[0] != part:
            row, col, fresh = 0, 0, True
        if what[0] == "mouse":
            if what[1] < 245_760 and what[2] < 983_040:
                self.cursors[view] = part, what[2] // 240, what[1] // 960, True
            return []
        _, char, code = what
        raw = self.book.raws.get((part, row, col), "")
        if code in self.MOVES or code in (1028, 1029):
            down, right = self.MOVES.get(code, (0, 0))
            row, col = min(max(row + down, 0), 4095), min(max(col + right, 0), 255)
            if code == 1028:
                col = 0
            if code == 1029:
                col = max((at[2] for at in self.book.raws if at[:2] == (part, row)), default=0)
            self.cursors[view] = part, row, col, True
            return []
        if code == 1283:
            raw, fresh = raw[:-1], False
        elif code == 1286:
            raw, fresh = "", True
        elif 32 <= char < 0x110000 and char != 127 and not 0xD800 <= char < 0xE000:
            raw, fresh = chr(char) if fresh else raw + chr(char), False
        else:
            return []
        return self.edit(view, (part, row, col), raw, fresh)

    def edit(self, view, at, raw, fresh):
        old = self.book.raws.get(at, "")
        line = lambda text: len(f"{at[0]} A{at[1] + 1} {text}\n".encode()) + (at[2] >= 26) if text else 0
        if not is_raw(raw) or len(self.book.text()) + line(raw) - line(old) > MAX_FILE:
            return []
        self.cursors[view] = *at, fresh
        changed = self.book.set(at, raw)
        spans = []
        for row, col in changed:
            if spans and spans[-1][0] == row and spans[-1][2] == col:
                spans[-1][2] = col + 1
            else:
                spans.append([row, col, col + 1])
        if len(spans) > 256:
            top, bottom = spans[0][0], spans[-1][0]
            left, right = min(it[1] for it in spans), max(it[2] for it in spans)
            return [(at[0], (left * 960, top * 240, (right - left) * 960, (bottom + 1 - top) * 240))]
        return [(at[0], (left * 960, row * 240, (right - left) * 960, 240)) for row, left, right in spans]


def picture(kit, key):
    part, posy, posx, width, height, tilewidth, tileheight, nviewid = key
    return b"".join(kit.colour(nviewid, part, posx + i * tilewidth // width, posy + j * tileheight // height)
                    for j in range(height) for i in range(width))


# A document and its views

class View:
    def __init__(self, number, link, can_write):
        self.number, self.link, self.can_write = number, link, can_write
        self.part, self.zoom, self.area = 0, (256, 256, 3840, 3840, 0), (0, 0, 0, 0)
        self.visible, self.asked = set(), set()
        self.screen = {}  # key -> [version, whether damage met it since]
        self.window, self.wid = [], 0

    def is_due(self, key):
        return key in self.asked or key in self.visible and (key not in self.screen or self.screen[key][1])

    def has_room(self):
        return len(self.window) < MAX_WINDOW

    def due(self):
        return sorted(key for key in self.visible | self.asked if self.is_due(key))

    def forget(self):
        self.screen = {key: it for key, it in self.screen.items() if key in self.visible or key in self.asked}


def visible(part, zoom, area, size):
    """The keys that are seen, else None where they are too many."""
    pixel_w, pixel_h, twip_w, twip_h, nviewid = zoom
    x, y, right, bottom = area[0], area[1], min(area[0] + area[2], size[0]), min(area[1] + area[3], size[1])
    if x >= right or y >= bottom:
        return set()
    columns = range(x // twip_w, (right - 1) // twip_w + 1)
    rows = range(y // twip_h, (bottom - 1) // twip_h + 1)
    count = len(columns) * len(rows)
    if count > MAX_VISIBLE or count * pixel_w * pixel_h > MAX_PIXELS:
        return None
    return {(part, row * twip_h, col * twip_w, pixel_w, pixel_h, twip_w, twip_h, nviewid) for row in rows for col in columns}


class Document:
    def __init__(self, kit, give):
        self.kit, self.give = kit, give
        self.views, self.next_view = [], 0
        self.journal, self.applied = [], 0
        self.kept = {}  # key -> [version, picture, whether damage met it since], the one used last at the end
        self.saves = []  # (view or None, how many inputs came before it, whether it needs no put where nothing is new)
        self.stored = 0  # how many inputs the content has that was stored last

    def join(self, link, can_write):
        """Whether the link became a view."""
        if len(self.views) == MAX_VIEWS:
            return False
        view = View(self.next_view, link, can_write)
        self.next_view += 1
        self.views.append(view)
        width, height = self.kit.size(0)
        self.say(view, f"status: type={self.kit.name} parts={self.kit.parts} current=0 width={width} height={height} "
                       f"viewid={view.number} readonly={0 if can_write else 1}")
        return True

    def say(self, view, text, pixels=None):
        self.give(view.link, text.encode() if pixels is None else text.encode() + b"\n" + pixels)

    def message(self, view, text):
        words = message_words(text)
        command = words[0] if words and re.fullmatch("[a-z]{1,32}", words[0]) else "unknown"
        read = words and read_message(words)
        kind = self.effect(view, *read) if read else "badmessage"
        if kind:
            self.say(view, f"error: cmd={command} kind={kind}")

    def effect(self, view, command, words):
        """Makes the message's effect, or gives the kind of error that refuses it."""
        if command == "coolclient":
            return self.say(view, 'coolserver {"Version":"profile-1","Protocol":"0.1"}')
        if command == "load":
            return "alreadyloaded"
        if command == "key" and words["type"] == "input":
            return self.input(view, ("key", words["char"], words["key"]))
        if command == "mouse" and words["type"] == "buttondown":
            return self.input(view, ("mouse", words["x"], words["y"]))
        if command == "tile":
            return self.ask(view, words, [(words["tileposx"], words["tileposy"])])
        if command == "tilecombine":
            return self.ask(view, words, list(zip(words["tileposx"], words["tileposy"])))
        if command == "canceltiles":
            view.asked &= view.visible
            view.forget()
        if command == "clientvisiblearea":
            return self.look(view, area=(words["x"], words["y"], words["width"], words["height"]))
        if command == "clientzoom":
            sizes = [words[it] for it in ("tilepixelwidth", "tilepixelheight", "tiletwipwidth", "tiletwipheight")]
            if key_of(0, sizes[0], sizes[1], 0, 0, sizes[2], sizes[3], 0) is None:
                return "badtile"
            return self.look(view, zoom=(*sizes, 1 if words["nviewid"] == 1 else 0))
        if command == "setclientpart":
            return self.look(view, part=words["part"]) if words["part"] < self.kit.parts else "badtile"
        if command in ("save", "uno"):
            return self.save(view, command == "save" and words["dontSaveIfUnmodified"] == "1")
        if command == "tileprocessed":
            view.window = [it for it in view.window if it not in words["wids"]]
        return None

    def input(self, view, what):
        if not view.can_write:
            return "readonly"
        self.journal.append((view.number, view.part, what))
        return None

    def save(self, view, skip):
        if not view.can_write:
            return "readonly"
        if sum(it[0] is view for it in self.saves) >= MAX_SAVES:
            return "savesfull"
        self.saves.append((view, len(self.journal), skip))
        return None

    def leave(self, view):
        """The view leaves; with the last one a final save waits, if inputs would be lost."""
        self.views.remove(view)
        count = len(self.journal)
        if not self.views and self.stored != count and all(it[1] != count for it in self.saves):
            self.saves.append((None, count, False))

    def ask(self, view, words, places):
        keys = [key_of(words["part"], words["width"], words["height"], x, y, words["tilewidth"], words["tileheight"],
                       words["nviewid"]) for x, y in places]
        if None in keys or words["part"] >= self.kit.parts:
            return "badtile"
        if len(view.asked | set(keys)) > MAX_ASKED:
            return "askedfull"
        view.asked |= set(keys)
        return None

    def look(self, view, part=None, zoom=None, area=None):
        part = view.part if part is None else part
        zoom, area = zoom or view.zoom, area or view.area
        keys = visible(part, zoom, area, self.kit.size(part))
        if keys is None:
            return "toolarge"
        view.part, view.zoom, view.area, view.visible = part, zoom, area, keys
        view.forget()
        return None

    def turn(self):
        """Whether there was something to do."""
        if ready := [it for it in self.saves if it[1] <= self.applied]:
            self.store(ready)
            return True
        if self.applied < len(self.journal):
            damage = self.kit.input(*self.journal[self.applied])
            self.applied += 1
            for part, rect in damage:
                self.harm(part, rect)
            for view in self.views:
                for part, (x, y, w, h) in damage:
                    self.say(view, f"invalidatetiles: part={part} x={x} y={y} width={w} height={h}")
            return True
        for view in self.views:
            if view.has_room() and (keys := view.due()):
                self.serve(view, keys[0])
                return True
        return False

    def harm(self, part, rect):
        for view in self.views:
            for key, entry in view.screen.items():
                entry[1] = entry[1] or key[0] == part and meets(rect_of(key), rect)
        for key, entry in self.kept.items():
            entry[2] = entry[2] or key[0] == part and meets(rect_of(key), rect)

    def store(self, ready):
        """Answers the saves for which nothing is new, and stores the document for the others."""
        self.saves = [it for it in self.saves if it not in ready]
        unmodified = [it for it in ready if it[2] and self.stored == self.applied]
        for put in (False, True):
            for save in ready:
                if (save not in unmodified) == put and save[0] in self.views:
                    self.say(save[0], f'unocommandresult: {{"commandName":".uno:Save","success":true,'
                                      f'"inputs":{self.applied},"put":{"true" if put else "false"}}}')
        if len(unmodified) < len(ready):
            self.stored = self.applied

    def is_kept(self, key):
        return key in self.kept and not self.kept[key][2]

    def keep(self, key, version, pixels):
        self.kept.pop(key, None)
        self.kept[key] = [version, pixels, False]

    def serve(self, view, first):
        if self.is_kept(first):
            version, pixels, _ = self.kept[first]
            self.keep(first, version, pixels)
            return self.send(view, first, version, pixels)
        keys = [first]
        while len(keys) < MAX_GROUP:
            right = (*first[:2], keys[-1][2] + first[5], *first[3:])
            if self.is_kept(right) or not any(it.is_due(right) for it in self.views):
                break
            keys.append(right)
        for key in keys:
            pixels = picture(self.kit, key)
            self.keep(key, self.applied, pixels)
            for other in self.views:
                if other.is_due(key) and other.has_room():
                    self.send(other, key, self.applied, pixels)
        while len(self.kept) > MAX_KEPT:
            del self.kept[next(iter(self.kept))]
        return None

    def send(self, view, key, version, pixels):
        view.wid += 1
        view.window.append(view.wid)
        view.asked.discard(key)
        view.screen[key] = [version, False]
        view.forget()
        part, posy, posx, width, height, tilewidth, tileheight, nviewid = key
        look = " nviewid=1" if nviewid else ""
        self.say(view, f"tile: part={part} width={width} height={height} tileposx={posx} tileposy={posy} "
                       f"tilewidth={tilewidth} tileheight={tileheight}{look} ver={version} wid={view.wid}", pixels)


# Scripts

class Refused(Exception):
    pass


class World:
    def __init__(self, kit, out):
        self.kit, self.out = kit, out
        self.document, self.file = None, None
        self.links = {}  # link -> "live" or "dropped"
        self.at = {}  # link -> its view, or None for the lobby
        self.events = []

    def give(self, link, frame):
        self.out(b"%d %d\n%s\n" % (link, len(frame), frame))

    def poll_turn(self):
        """Whether a turn of the poll did something."""
        took = bool(self.events)
        if took:
            self.handle(*self.events.pop(0))
        return bool(self.document and self.document.turn()) or took

    def handle(self, link, what, content=None):
        view = self.at.get(link)
        if what == "opened":
            self.at[link] = None
        elif what == "load":
            self.load(link, content)
        elif what == "left":
            if view:
                self.document.leave(view)
            del self.at[link]
        elif view:
            self.document.message(view, content)
        else:
            self.lobby(link, content)

    def load(self, link, can_write):
        if self.document is None:
            self.document = Document(self.kit(), self.give)
        if self.document.join(link, can_write):
            self.at[link] = self.document.views[-1]
        else:
            self.give(link, b"error: cmd=load kind=viewsfull")

    def lobby(self, link, text):
        words = message_words(text)
        command = words[0] if words and re.fullmatch("[a-z]{1,32}", words[0]) else "unknown"
        read = words and read_message(words)
        if read and command == "coolclient":
            return self.give(link, b'coolserver {"Version":"profile-1","Protocol":"0.1"}')
        kind = "notloaded" if read and command != "load" else "badmessage"
        return self.give(link, f"error: cmd={command} kind={kind}".encode())

    def settle(self):
        while True:
            while self.poll_turn():
                pass
            views = sorted(self.document.views, key=lambda it: it.link) if self.document else []
            for view in views:
                if view.window:
                    listed = ",".join(map(str, view.window))
                    self.events.append((view.link, "said", f"tileprocessed wids={listed}".encode()))
            if not self.events:
                return

    def live(self, word):
        link = line_number(word)
        if self.links.get(link) != "live":
            raise Refused
        return link

    def play(self, line):
        """Plays a line; True where it is `end`."""
        if not line or line.startswith(b"#"):
            return False
        word, blank, rest = line.partition(b" ")
        if line == b"settle":
            self.settle()
        elif line == b"end":
            return True
        elif not blank:
            raise Refused
        elif word == b"open":
            self.open(rest.split(b" "))
        elif word in (b"say", b"type"):
            link, blank, text = rest.partition(b" ")
            if not blank:
                raise Refused
            link = self.live(link)
            for said in [text] if word == b"say" else typed(text):
                self.events.append((link, "said", said))
        elif word == b"drop":
            link = self.live(rest)
            self.links[link] = "dropped"
            self.events.append((link, "left"))
        elif word == b"turn":
            words = rest.split(b" ")
            if len(words) != 2 or line_number(words[0]) != 0 or not 1 <= line_number(words[1]) <= 100_000:
                raise Refused
            for _ in range(line_number(words[1])):
                if not self.poll_turn():
                    break
        else:
            raise Refused
        return False

    def open(self, words):
        if len(words) != 3 or words[2] not in (b"ro", b"rw") or not re.fullmatch(rb"[A-Za-z0-9_-]{1,64}", words[1]):
            raise Refused
        link = line_number(words[0])
        if not 1 <= link <= 65_535 or link in self.links or self.file not in (None, words[1]):
            raise Refused
        self.file, self.links[link] = words[1], "live"
        self.events.append((link, "opened"))
        self.events.append((link, "said", b"coolclient 0.1"))
        self.events.append((link, "load", words[2] == b"rw"))


def line_number(word):
    if not re.fullmatch(rb"[0-9]+", word):
        raise Refused
    return int(word)


def typed(text):
    try:
        return [f"key type=input char={ord(it)} key=0".encode() for it in text.decode()]
    except UnicodeDecodeError:
        raise Refused from None


def replay(kit, script, out):
    """Writes the script's transcript, and gives its status."""
    world = World({"patch": Patch, "sheet": Sheet}[kit], out)
    lines = script.split(b"\n")
    if lines[-1] == b"":
        lines.pop()
    for count, line in enumerate(lines, 1):
        try:
            if len(line) > MAX_LINE:
                raise Refused
            if world.play(line):
                return 0
        except Refused:
            out(b"fault line %d\n" % count)
            return 3
    return 7


def main():
    if sys.argv[1:] not in (["patch"], ["sheet"]):
        sys.exit("replay.py patch|sheet < SCRIPT")
    sys.exit(replay(sys.argv[1], sys.stdin.buffer.read(), sys.stdout.buffer.write))


if __name__ == "__main__":
    main()
