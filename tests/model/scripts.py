#!/usr/bin/env python3
"""Writes golden scripts: for each NAME tests/scripts/NAME.script, drawn from that name alone, with what the model
of tests/model/replay.py answers to it in NAME.transcript and NAME.status, and the program's words in NAME.words.

    tests/model/scripts.py THEME-NUMBER..   such as views-1 sheet-12; any number makes a new script
    tests/model/scripts.py --again          answers anew all scripts that stand in tests/scripts

The themes are the methods of Drawn below.
"""
import os
import random
import sys

import replay

SCRIPTS = os.path.join(os.path.dirname(os.path.abspath(__file__)), "..", "scripts")
ZOOMS = [(8, 8, 240, 240), (8, 8, 480, 480), (4, 4, 240, 240), (8, 4, 960, 240), (4, 8, 120, 480), (6, 6, 360, 120)]


class Drawn:
    def __init__(self, name):
        self.draw = random.Random(f"script {name}")
        self.lines, self.live, self.writers, self.next = [], [], [], 1
        self.is_sheet = False
        self.across, self.down = 3840, 3840

    def add(self, *lines):
        self.lines += lines

    def say(self, link, text):
        self.add(f"say {link} {text}")

    def pick(self, *things):
        return self.draw.choice(things)

    def chance(self, part):
        return self.draw.random() < part

    def open(self, rights=None):
        link, rights = self.next, rights or self.pick("rw", "rw", "ro")
        self.next += self.draw.randint(1, 3)
        self.add(f"open {link} d {rights}")
        self.live.append(link)
        if rights == "rw":
            self.writers.append(link)
        return link

    def drop(self, link):
        self.live.remove(link)
        if link in self.writers:
            self.writers.remove(link)
        self.add(f"drop {link}")

    def zoom(self, link, zoom=None):
        w, h, tw, th = zoom or self.pick(*ZOOMS)
        self.say(link, f"clientzoom tilepixelwidth={w} tilepixelheight={h} tiletwipwidth={tw} tiletwipheight={th}")
        return w, h, tw, th

    def area(self, link, zoom, columns, rows):
        tw, th = zoom[2:]
        x, y = self.draw.randrange(0, self.across - tw), self.draw.randrange(0, self.down - th)
        self.say(link, f"clientvisiblearea x={x} y={y} width={columns * tw - self.draw.randint(0, tw - 1)} "
                       f"height={rows * th - self.draw.randint(0, th - 1)}")

    def tile(self, link, zoom=None):
        w, h, tw, th = zoom or self.pick(*ZOOMS)
        x, y = (self.draw.randrange(0, far // size) * size for far, size in ((self.across, tw), (self.down, th)))
        if self.chance(0.3):
            xs = ",".join(str(x + i * tw) for i in range(3))
            self.say(link, f"tilecombine part=0 width={w} height={h} tileposx={xs} tileposy={y},{y},{y} tilewidth={tw} tileheight={th}")
        else:
            self.say(link, f"tile part=0 width={w} height={h} tileposx={x} tileposy={y} tilewidth={tw} tileheight={th}")

    def act(self, link):
        """An input, on the patch document or on the sheet."""
        if self.chance(0.5):
            x, y = self.draw.randrange(self.across + 200), self.draw.randrange(self.down + 200)
            self.say(link, f"mouse type=buttondown x={x} y={y}{self.pick('', ' count=2', ' buttons=4 modifier=8192')}")
        elif self.is_sheet:
            self.type(link)
        else:
            self.say(link, f"key type=input char={self.pick(0, 1, 65, 255, 256, 300, 2147483647)} key={self.pick(0, 7)}")

    def type(self, link):
        if self.chance(0.3):
            code = self.pick(1024, 1025, 1026, 1027, 1028, 1029, 1280, 1282, 1283, 1286)
            self.say(link, f"key type=input char={self.pick(0, 0, 65)} key={code}")
        else:
            self.add(f"type {link} " + self.pick("1", "-12", "=A1+1", "=B2", "=A1/0", "=SUM(A1:C3)", "=COUNT(A1:B9)", "x y",
                                                 '="a"&1', "=IF(A2>1,A1,B1)", "\u20ac", "\u00e9t\u00e9 99", "=C3*-2"))

    def end(self):
        self.add(*self.pick(["settle", "end"], ["settle", "end"], ["turn 0 100", "settle", "end"]))

    # Themes

    def views(self):
        """Several views with zooms and areas of their own, inputs between turns, views that come and go."""
        self.add("# Views come, look, write and go.")
        first = self.open("rw")
        for _ in range(self.draw.randint(1, 4)):
            self.open()
        for link in self.live:
            zoom = self.zoom(link)
            self.area(link, zoom, self.draw.randint(1, 3), self.draw.randint(1, 2))
        for _ in range(self.draw.randint(8, 16)):
            kind = self.draw.randrange(8)
            if kind < 3:
                self.act(self.draw.choice(self.live))
            elif kind == 3:
                link = self.draw.choice(self.live)
                self.area(link, self.zoom(link), 2, 2)
            elif kind == 4:
                self.tile(self.draw.choice(self.live))
            elif kind == 5 and len(self.live) > 1:
                self.drop(self.draw.choice([it for it in self.live if it != first]))
            elif kind == 6:
                self.open()
            else:
                self.add(self.pick("settle", f"turn 0 {self.draw.randint(1, 9)}", "", "#"))
        self.end()

    def saves(self):
        """Views that write and save, also where nothing is new, where they may not, and once they are gone."""
        self.is_sheet = self.chance(0.3)
        self.add("# Saves of one document.")
        self.open("rw")
        for _ in range(self.draw.randint(1, 2)):
            self.open()
        if self.chance(0.5):
            self.area(self.live[0], self.zoom(self.live[0]), 2, 1)
        for _ in range(self.draw.randint(14, 24)):
            kind = self.draw.randrange(10)
            if not self.live or kind == 0:
                self.open()
            elif kind < 4:
                self.act(self.draw.choice(self.live))
            elif kind < 8:
                self.save(self.draw.choice(self.live))
            elif kind == 8:
                self.drop(self.draw.choice(self.live))
            else:
                self.add(self.pick("settle", f"turn 0 {self.draw.randint(1, 12)}"))
        for link in list(self.live):
            self.drop(link)
        self.add(self.pick("settle", "turn 0 9"))
        self.save(self.open("rw"), "save dontSaveIfUnmodified=1")
        self.end()

    def save(self, link, text=None):
        self.say(link, text or self.pick("save", "save", "uno .uno:Save", "save dontSaveIfUnmodified=1",
                                         "save dontTerminateEdit=1 dontSaveIfUnmodified=0",
                                         "save dontSaveIfUnmodified=2", "uno .uno:Undo"))

    def window(self):
        """A view that sees more than a window has room for, and acknowledges by and by."""
        self.add("# More tiles than a window has room for.")
        link = self.open("rw")
        zoom = (2, 2, 240, 240)
        self.zoom(link, zoom)
        self.say(link, f"clientvisiblearea x=0 y=0 width={self.pick(2400, 3000, 3840)} height={self.pick(1680, 1920)}")
        if self.chance(0.5):
            other = self.open("ro")
            self.zoom(other, zoom)
            self.say(other, "clientvisiblearea x=240 y=240 width=480 height=480")
        self.add(f"turn 0 {self.pick(40, 75, 200)}")
        for _ in range(self.draw.randint(3, 6)):
            kind = self.draw.randrange(4)
            if kind == 0:
                wids = ",".join(str(self.draw.randint(1, 90)) for _ in range(self.draw.randint(1, 12)))
                self.say(link, f"tileprocessed wids={wids}")
            elif kind == 1:
                self.act(link)
            elif kind == 2:
                self.tile(link, zoom)
            else:
                self.zoom(link, self.pick(zoom, (2, 2, 480, 480), (2, 2, 240, 480)))
            self.add(f"turn 0 {self.pick(1, 3, 20, 100)}")
        self.end()

    def asks(self):
        """Tiles that are asked for, again and by others, and cancelled before they come."""
        self.add("# Tiles asked for, and cancelled.")
        self.open("rw")
        self.open()
        zooms = [self.pick(*ZOOMS), self.pick(*ZOOMS)]
        if self.chance(0.6):
            self.zoom(self.live[0], zooms[0])
            self.area(self.live[0], zooms[0], 2, 1)
        for _ in range(self.draw.randint(10, 20)):
            link = self.draw.choice(self.live)
            kind = self.draw.randrange(7)
            if kind < 3:
                self.tile(link, self.draw.choice(zooms))
            elif kind == 3:
                self.say(link, "canceltiles")
            elif kind == 4 and self.writers:
                self.act(self.draw.choice(self.writers))
            else:
                self.add(f"turn 0 {self.draw.randint(1, 6)}")
        self.end()

    def messages(self):
        """Messages that are none, that are refused, or that have words to spare."""
        self.add("# Messages in all forms.")
        self.open("rw")
        self.open("ro")
        for link in self.live:
            self.zoom(link, ZOOMS[0])
        tile = "tile part=0 width=8 height=8 tileposx=0 tileposy=0 tilewidth=240 tileheight=240"
        zoom = "clientzoom tilepixelwidth=8 tilepixelheight=8 tiletwipwidth=240 tiletwipheight=240"
        texts = [
            "", " ", "   coolclient", "coolclient 0.1 a=b a=b", "coolclient=1", "Tile", "tile", "\ttile", "useractive", "zzz " * 9,
            "a" * 32, "a" * 33, "key", "key type=input char=65", "key type=input char=65 key=0 key=1", "key type=down char=65 key=0",
            "key type=up char=65 key=0", "key key=0 char=0065 type=input more", "key type=input char=2147483648 key=0",
            "key type=input char=-1 key=0", "key type=input char= key=0", "mouse type=buttondown x=10 y=10", "mouse type=move x=1 y=2",
            "mouse type=buttonup x=1 y=2 count=x", "mouse type=buttondown x=3840 y=0", "mouse x=500 y=10 type=buttondown count=0",
            "mouse type=buttondown x=10", "mouse type=buttondown x=10 y=00000000010", tile, tile + " ver=7 oldwid=3",
            tile.replace("part=0", "part=1"), tile.replace("width=8", "width=257", 1), tile.replace("width=8", "width=0", 1),
            tile.replace("tilewidth=240", "tilewidth=14"), tile.replace("tileposx=0", "tileposx=7"), tile.replace(" height=8", ""),
            tile.replace("tileposx=0", "tileposx=2147483760"), tile + " part=0", "tilecombine" + tile[4:],
            "tilecombine" + tile[4:].replace("tileposx=0", "tileposx=0,240"), "tilecombine" + tile[4:].replace("tileposx=0", "tileposx=0,"),
            "tilecombine" + tile[4:].replace("posx=0", "posx=240,0").replace("posy=0", "posy=0,0"), "canceltiles", "canceltiles x",
            "clientvisiblearea x=0 y=0 width=240 height=240", "clientvisiblearea x=3840 y=0 width=9 height=9",
            "clientvisiblearea x=0 y=0 width=0 height=9", "clientvisiblearea x=2147483647 y=1 width=2147483647 height=2", zoom,
            zoom.replace("240", "14", 1), zoom.replace("tilepixelheight=8", "tilepixelheight=0"), "setclientpart part=0",
            "setclientpart part=1", "setclientpart part=2147483647", "setclientpart", "tileprocessed wids=1", "tileprocessed wids=",
            "tileprocessed wids=1,,2", "tileprocessed wids=18446744073709551615", "tileprocessed wids=18446744073709551616",
            "tileprocessed wids=1,1,99", "load", "load url=x", "load url=", "load url=http://wopi.test/wopi/files/d?access_token=t-rw",
        ]
        for text in self.draw.sample(texts, 22):
            self.say(self.draw.choice(self.live), text)
            if self.chance(0.3):
                self.add(self.pick("settle", "turn 0 3"))
        self.end()

    def lines_refused(self):
        """A script that plays for a while and then has a line that is refused, or no end."""
        link = self.open("rw")
        self.zoom(link, ZOOMS[0])
        for _ in range(self.draw.randint(1, 5)):
            self.act(link)
            self.tile(link, ZOOMS[0])
            self.add(self.pick("turn 0 3", "settle", ""))
        far = link + 9
        self.add(self.pick(
            f"open {link} d rw", "open 0 d rw", "open 65536 d rw", f"open {far} d r", f"open {far} d! rw", f"open {far} d rw ",
            f"open {far} {'d' * 65} rw", f"open {far}", "say 9 coolclient", f"say {link}", "say", "say x coolclient",
            f"drop {link} ", f"drop {far}", f"drop {link}\ndrop {link}", f"drop {link}\nsay {link} canceltiles", "turn 0 0",
            "turn 0 100001", "turn 1 1", "turn 0", "turn 0 -1", "turn  0 1", "settle ", " settle", "Settle", "end ", "hop",
            f"type {link}", "type 9 a", "\tsettle", "settle\r", f"type {link} a\nsay {link} canceltiles\nhop", "# " + "c" * 70_000,
            f"say {link} canceltiles" + " " * 70_000, f"say +{link} canceltiles", ""))
        if self.chance(0.5):
            self.add("settle", "end")

    def lines_odd(self):
        """Lines that are right although they look odd."""
        link = self.open("rw")
        self.add("", "#", "# settle", "#end", f"say 000{link} mouse type=buttondown x=10 y=10", "turn 00 03", f"open {link + 5} d ro")
        self.say(link + 5, "")
        self.say(link + 5, " ")
        self.say(link, "canceltiles" + " " * self.pick(65_525, 65_526))
        self.say(link + 5, f"mouse type=buttondown x=10 y=10 {'x' * 70_000}"[:self.pick(65_536, 65_537)])
        self.add("settle", f"drop 0{link + 5}", f"type {link} ", f"type {link}  a\u20ac", "turn 0 100000")
        self.tile(link, ZOOMS[0])
        self.add("settle", "end", self.pick("hop", "settle", ""))

    def limits(self):
        """Asked tiles, seen tiles and views up to their limits, and one more."""
        kind = self.draw.randrange(3)
        link = self.open("rw")
        tile = "tilecombine part=0 width=1 height=1 tileposx={} tileposy={} tilewidth={} tileheight=15"
        if kind == 0:
            size = self.pick(15, 30)
            xs = ",".join(str(size * it) for it in range(1024))
            self.say(link, tile.format(xs, ",".join("0" * 1024), size))
            self.say(link, tile.format("15,0", "15,15", 15))
            self.say(link, tile.format(f"{size},{size}", "0,0", size))
            self.add("turn 0 9", f"say {link} " + tile.format("15,30", "15,15", 15), f"say {link} canceltiles", "settle", "end")
        elif kind == 1:
            for pixels, twips in ((1, 60), (1, 59), (64, 60), (64, 61), (65, 60), (256, 240), (256, 239), (1, 61440)):
                self.say(link, "clientvisiblearea x=0 y=0 width=0 height=0")
                self.say(link, f"clientzoom tilepixelwidth={pixels} tilepixelheight={pixels} tiletwipwidth={twips} tiletwipheight={twips}")
                self.say(link, f"clientvisiblearea x=0 y=0 width={self.pick(3840, 3841, 2147483647)} height=3840")
                self.say(link, "clientvisiblearea x=0 y=0 width=0 height=0")
            self.zoom(link, ZOOMS[0])
            self.say(link, "clientvisiblearea x=3839 y=3839 width=9 height=9")
            self.say(link, "clientzoom tilepixelwidth=1 tilepixelheight=1 tiletwipwidth=61440 tiletwipheight=61440")
            self.add("settle", "end")
        else:
            for other in range(2, 67):
                self.add(f"open {100 + other} d {self.pick('ro', 'rw')}")
            self.add("settle", "say 166 coolclient", "say 166 canceltiles", "say 165 canceltiles", "say 165 tile", "say 166 hop hop",
                     "say 165 ", f"drop {self.draw.randint(102, 160)}", "settle", "open 200 d rw", "settle")
            self.act(self.pick(link, 200))
            self.say(200, "tile part=0 width=4 height=4 tileposx=0 tileposy=0 tilewidth=240 tileheight=240")
            self.add("say 166 coolclient", "settle", "end")

    def zooms(self):
        """Zooms under which a view would see as many tiles and pixels as it may, and one more."""
        link = self.open("rw")
        whole = (1, 1, 61440, 61440)
        self.zoom(link, whole)
        self.say(link, f"clientvisiblearea x=0 y=0 width={self.pick(3840, 9999)} height=3840")
        for zoom in self.draw.sample([(1, 1, 60, 60), (1, 1, 60, 59), (1, 1, 59, 60), (2, 1, 15, 960), (2, 1, 15, 240), (2, 1, 15, 239),
                                      (64, 64, 60, 60), (64, 65, 60, 60), (65, 64, 60, 60), (128, 128, 120, 120), (128, 128, 119, 120),
                                      (256, 16, 60, 60), (256, 17, 60, 60), (1, 1, 15, 15), (256, 256, 239, 240)], 11):
            self.zoom(link, zoom)
            if self.chance(0.3):
                self.add("turn 0 5")
            self.zoom(link, whole)
        self.act(link)
        self.end()

    def sheet(self):
        """Writers in a sheet: cursors, formulas, circles, and the tiles of the cells that they change."""
        self.is_sheet, self.across, self.down = True, 3840, 1200
        self.add("# Cells are typed, and their tiles follow.")
        self.open("rw")
        for _ in range(self.draw.randint(0, 2)):
            self.open()
        for link in self.live:
            zoom = self.zoom(link, self.pick((16, 8, 960, 240), (8, 8, 120, 120), (8, 8, 480, 240), (12, 8, 180, 120)))
            self.area(link, zoom, 2, 2)
        for _ in range(self.draw.randint(12, 24)):
            link = self.draw.choice(self.writers)
            kind = self.draw.randrange(8)
            if kind < 2:
                self.say(link, f"mouse type=buttondown x={self.draw.randrange(4) * 960 + self.draw.randrange(960)} "
                               f"y={self.draw.randrange(4) * 240 + self.draw.randrange(240)}")
            elif kind < 6:
                self.type(link)
            elif kind == 6:
                self.tile(self.draw.choice(self.live), self.pick((8, 8, 120, 120), (12, 8, 180, 120), (16, 8, 960, 240)))
            else:
                self.add(self.pick("settle", f"turn 0 {self.draw.randint(1, 12)}"))
        self.end()

    def looks(self):
        """Tiles with grid lines and without, side by side, on either document."""
        self.is_sheet, self.across, self.down = self.chance(0.6), 3840, 1200
        for rights in ("rw", "ro"):
            self.zoom(self.open(rights), (8, 8, 960, 240))
        look = lambda: self.pick("", "", " nviewid=0", " nviewid=1", " nviewid=1", " nviewid=01", " nviewid=2", " nviewid=2147483647")
        bad = lambda: self.pick(" nviewid=", " nviewid=x", " nviewid=-1", " nviewid=1 nviewid=1", " nviewid=2147483648")
        for _ in range(self.draw.randint(12, 20)):
            link = self.draw.choice(self.live)
            kind = self.draw.randrange(7)
            if kind < 2:
                self.tile(link, self.pick((8, 8, 960, 240), (8, 8, 240, 120)))
                self.lines[-1] += look() if self.chance(0.9) else bad()
            elif kind == 2:
                zoom = self.zoom(link, self.pick((8, 8, 960, 240), (8, 8, 480, 240)))
                self.lines[-1] += look() if self.chance(0.9) else bad()
                self.area(link, zoom, 2, 2)
            elif kind < 5:
                self.act(self.live[0])
            else:
                self.add(self.pick("settle", "turn 0 2", f"say {link} canceltiles"))
        self.end()

    def edges(self):
        """A sheet at its edges: the last cell, long texts, keys that change nothing, many cells at once."""
        self.is_sheet = True
        link = self.open("rw")
        kind = self.draw.randrange(3)
        if kind == 0:
            self.say(link, "mouse type=buttondown x=245759 y=983039")
            self.add(f"type {link} " + self.pick("=IU4096+1", "end", "=A1"))
            for code in self.draw.sample([1024, 1025, 1026, 1027, 1028, 1029, 1280, 1282, 1283, 1286], 7):
                self.say(link, f"key type=input char=0 key={code}")
                self.add(f"type {link} {self.pick('1', 'z', '=1/0')}")
            self.say(link, "mouse type=buttondown x=245760 y=0")
            self.say(link, "mouse type=buttondown x=0 y=983040")
            self.say(link, "tile part=0 width=8 height=8 tileposx=244800 tileposy=982800 tilewidth=960 tileheight=240")
            self.say(link, "tile part=0 width=8 height=8 tileposx=245760 tileposy=0 tilewidth=960 tileheight=240")
        elif kind == 1:
            for char in (0, 31, 127, 55296, 57343, 1114112, 2147483647, 32, 126, 8364, 1114111):
                self.say(link, f"key type=input char={char} key={self.pick(0, 13, 1030)}")
            for code in (1283, 1283, 1286, 1283, 1280):
                self.say(link, f"key type=input char=65 key={code}")
            self.add(f"type {link} " + "x" * self.pick(1024, 1025), f"type {link} \u20ac", "settle")
            self.say(link, "key type=input char=0 key=1283")
            self.add(f"type {link} " + self.pick("y", "\u00e9"))
            self.say(link, "tile part=0 width=32 height=8 tileposx=0 tileposy=0 tilewidth=960 tileheight=240")
        else:
            for row in range(self.draw.randint(6, 9)):
                for col in range(3):
                    self.say(link, f"mouse type=buttondown x={960 * (2 * col + 1) + 5} y={480 * row + 5}")
                    self.add(f"type {link} =A1")
            self.say(link, "mouse type=buttondown x=1 y=1")
            self.add("settle", f"type {link} {self.pick('7', 'x', '=B1', '=1/0')}", "settle")
            self.say(link, "tile part=0 width=16 height=4 tileposx=960 tileposy=0 tilewidth=960 tileheight=240")
        self.add("settle", "end")


def write(name, script, words):
    """Writes a script with the model's answers."""
    said = []
    status = replay.replay(words.split()[1], script, said.append)
    place = os.path.join(SCRIPTS, name)
    for ending, content in ((".script", script), (".transcript", b"".join(said)), (".words", f"{words}\n".encode()),
                            (".status", b"%d\n" % status)):
        if content not in (b"0\n", b"replay patch\n") or ending in (".script", ".transcript"):
            with open(place + ending, "wb") as file:
                file.write(content)


def main():
    names = sys.argv[1:]
    os.makedirs(SCRIPTS, exist_ok=True)
    if names == ["--again"]:
        for file in sorted(os.listdir(SCRIPTS)):
            if file.endswith(".script"):
                name = file[:-len(".script")]
                words = os.path.join(SCRIPTS, f"{name}.words")
                kind = open(words).read().strip() if os.path.exists(words) else "replay patch"
                if kind in ("replay patch", "replay sheet"):
                    write(name, open(os.path.join(SCRIPTS, file), "rb").read(), kind)
        return
    for name in names:
        drawn = Drawn(name)
        getattr(drawn, name.rpartition("-")[0].replace("-", "_"))()
        write(name, ("\n".join(drawn.lines) + "\n").encode(), "replay sheet" if drawn.is_sheet else "replay patch")


if __name__ == "__main__":
    main()
