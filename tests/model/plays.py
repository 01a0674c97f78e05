#!/usr/bin/env python3
"""An independent model of the program broker_plays: what docs/document-machine.md and docs/protocol.md say of one
document, with the tiles that are kept and its saves. What is owed is computed from the accepted inputs each time.

    tests/model/plays.py < crates/broker_plays/stdin > crates/broker_plays/stdout
"""
import copy
import re
import sys

from replay import (MAX_ASKED, MAX_GROUP, MAX_VIEWS, Patch, Sheet, View, key_of, meets, message_words, picture,
                    read_message, rect_of, visible)

MAX_JOBS, MAX_KEPT, MAX_SAVES = 64, 256, 64
RAWS = {(0, 0, 0): "5", (0, 1, 0): "=A1+1", (1, 0, 0): "=1+2", (1, 0, 1): "7", (2, 0, 0): "x"}


def book():
    kit = Sheet()
    kit.book.parts = kit.parts = 3
    for at, raw in RAWS.items():
        kit.book.set(at, raw)
    return kit


def bytes_of(kit):
    return bytes(kit.colours) if kit.name == "patch" else kit.book.text()


def word(truth):
    return "true" if truth else "false"


class Job:
    def __init__(self, ticket, number, keys, kit):
        self.ticket, self.number, self.keys = ticket, number, keys
        self.pictures = [picture(kit, key) for key in keys]
        shown = bytes(kit.colours) if kit.name == "patch" else self.pictures
        self.scene = keys, shown


class Document:
    """A document, its views, its jobs and its saves. `frames` is all that it gave out and nobody took."""

    def __init__(self, kit):
        self.kit, self.views, self.next_view = kit, [], 0
        self.journal, self.applied, self.damages = [], 0, []
        self.jobs, self.ticket, self.kept = [], 1, []  # kept: [key, version, picture], the one used last first
        self.saves, self.stored, self.put, self.put_ticket, self.token = [], 0, None, 1, False
        self.frames = []

    def say(self, view, text, tile=None):
        self.frames.append((view.number, text, tile))

    # What is owed

    def touched(self, version, key):
        return any(part == key[0] and meets(rect_of(key), rect)
                   for damage in self.damages[version:self.applied] for part, rect in damage)

    def is_due(self, view, key):
        return key in view.asked or key in view.visible and (
            key not in view.screen or self.touched(view.screen[key], key))

    def current(self, key):
        for entry in self.kept:
            if entry[0] == key and not self.touched(entry[1], key):
                return entry
        return None

    def is_out(self, key):
        return any(key in job.keys for job in self.jobs)

    def next_pair(self):
        for view in self.views:
            for key in sorted(view.visible | view.asked) if view.has_room() else []:
                free = len(self.jobs) < MAX_JOBS and not self.is_out(key)
                if self.is_due(view, key) and (self.current(key) or free):
                    return view, key
        return None

    def is_ready(self):
        return self.put is None and any(not bound and mark <= self.applied for _, mark, _, bound in self.saves)

    def is_quiet(self):
        still = all(not view.window and not view.asked and not any(self.is_due(view, key) for key in view.visible)
                    for view in self.views)
        busy = self.is_ready() or self.put or self.jobs
        return still and not busy and self.applied == len(self.journal)

    def is_done(self):
        return not self.views and not self.saves and self.put is None

    # What views do

    def join(self, can_write):
        if len(self.views) == MAX_VIEWS:
            return None
        view = View(self.next_view, self.next_view, can_write)
        self.next_view += 1
        self.views.append(view)
        width, height = self.kit.size(0)
        self.say(view, f"status: type={self.kit.name} parts={self.kit.parts} current=0 width={width} height={height} "
                       f"viewid={view.number} readonly={0 if can_write else 1}")
        return view

    def view(self, number):
        return next((it for it in self.views if it.number == number), None)

    def leave(self, view):
        self.views.remove(view)
        count = len(self.journal)
        if not self.views and self.stored != count and all(mark != count for _, mark, _, _ in self.saves):
            self.saves.append([None, count, False, False])

    def message(self, view, text):
        words = message_words(text)
        command = words[0] if words and re.fullmatch("[a-z]{1,32}", words[0]) else "unknown"
        read = words and read_message(words)
        kind = self.effect(view, *read) if read else "badmessage"
        if kind:
            self.say(view, f"error: cmd={command} kind={kind}")

    def effect(self, view, command, words):
        if command == "coolclient":
            return self.say(view, 'coolserver {"Version":"profile-1","Protocol":"0.1"}')
        if command == "load":
            return "alreadyloaded"
        if command in ("save", "uno"):
            skip = command == "save" and words["dontSaveIfUnmodified"] == "1"
            return self.save(view, skip)
        if command == "key" and words["type"] == "input":
            return self.input(view, ("key", words["char"], words["key"]))
        if command == "mouse" and words["type"] == "buttondown":
            return self.input(view, ("mouse", words["x"], words["y"]))
        if command == "tile":
            return self.ask(view, words, [(words["tileposx"], words["tileposy"])])
        if command == "tilecombine":
            return self.ask(view, words, list(zip(words["tileposx"], words["tileposy"])))
        if command == "canceltiles":
            view.asked &= view.visible
            view.forget()
        if command == "clientvisiblearea":
            return self.look(view, area=(words["x"], words["y"], words["width"], words["height"]))
        if command == "clientzoom":
            sizes = [words[it] for it in ("tilepixelwidth", "tilepixelheight", "tiletwipwidth", "tiletwipheight")]
            if key_of(0, sizes[0], sizes[1], 0, 0, sizes[2], sizes[3], 0) is None:
                return "badtile"
            return self.look(view, zoom=(*sizes, 1 if words["nviewid"] == 1 else 0))
        if command == "setclientpart":
            return self.look(view, part=words["part"]) if words["part"] < self.kit.parts else "badtile"
        if command == "tileprocessed":
            view.window = [it for it in view.window if it not in words["wids"]]
        return None

    def save(self, view, skip):
        if not view.can_write:
            return "readonly"
        if sum(it[0] == view.number for it in self.saves) >= MAX_SAVES:
            return "savesfull"
        self.saves.append([view.number, len(self.journal), skip, False])
        return None

    def input(self, view, what):
        if not view.can_write:
            return "readonly"
        self.journal.append((view.number, view.part, what))
        return None

    def ask(self, view, words, places):
        keys = [key_of(words["part"], words["width"], words["height"], x, y, words["tilewidth"], words["tileheight"],
                       words["nviewid"]) for x, y in places]
        if None in keys or words["part"] >= self.kit.parts:
            return "badtile"
        if len(view.asked | set(keys)) > MAX_ASKED:
            return "askedfull"
        view.asked |= set(keys)
        return None

    def look(self, view, part=None, zoom=None, area=None):
        part = view.part if part is None else part
        zoom, area = zoom or view.zoom, area or view.area
        keys = visible(part, zoom, area, self.kit.size(part))
        if keys is None:
            return "toolarge"
        view.part, view.zoom, view.area, view.visible = part, zoom, area, keys
        view.forget()
        return None

    # Turns: what each gives out beside frames is a job, an errand, or nothing; False where there was nothing to do

    def turn(self):
        if self.is_ready():
            return self.serve_saves()
        if self.applied < len(self.journal):
            self.apply()
            return None
        pair = self.next_pair()
        if pair is None:
            return False
        view, key = pair
        entry = self.current(key)
        if entry is None:
            return self.cut(key)
        self.keep(*entry)
        self.send(view, *entry)
        return None

    def serve_saves(self):
        ready = [it for it in self.saves if not it[3] and it[1] <= self.applied]
        for save in ready:
            if save[2] and self.stored == self.applied:
                self.saves.remove(save)
                if self.view(save[0]):
                    self.say(self.view(save[0]), self.saved(self.applied, False))
            else:
                save[3] = True
        if not any(it[3] for it in self.saves):
            return None
        self.put = self.put_ticket, bytes_of(self.kit), self.applied
        self.put_ticket += 1
        return self.put

    def saved(self, number, put):
        return (f'unocommandresult: {{"commandName":".uno:Save","success":true,"inputs":{number},'
                f'"put":{word(put)}}}')

    def answer(self, ticket, content, fault=None):
        """The store answers by a receipt of the content, or by a fault."""
        if self.put is None or self.put[0] != ticket or fault is None and self.put[1] != content:
            return
        number = self.put[2]
        for save in [it for it in self.saves if it[3]]:
            self.saves.remove(save)
            if self.view(save[0]):
                failed = f"error: cmd=storage kind=savefailed code={fault}"
                self.say(self.view(save[0]), failed if fault else self.saved(number, True))
        self.put = None
        if fault is None:
            self.stored = number

    def apply(self):
        damage = self.kit.input(*self.journal[self.applied])
        self.damages.append(damage)
        self.applied += 1
        for view in self.views:
            for part, (x, y, w, h) in damage:
                self.say(view, f"invalidatetiles: part={part} x={x} y={y} width={w} height={h}")

    def cut(self, first):
        keys = [first]
        while len(keys) < MAX_GROUP:
            right = (*first[:2], keys[-1][2] + first[5], *first[3:])
            owed = any(self.is_due(it, right) for it in self.views)
            if not owed or self.current(right) or self.is_out(right):
                break
            keys.append(right)
        job = Job(self.ticket, self.applied, keys, copy.deepcopy(self.kit))
        self.ticket += 1
        self.jobs.append(job)
        return job

    def keep(self, key, version, shown):
        self.kept = [[key, version, shown]] + [it for it in self.kept if it[0] != key]

    def painted(self, ticket, scene):
        job = next((it for it in self.jobs if it.ticket == ticket and it.scene == scene), None)
        if job is None:
            return
        self.jobs.remove(job)
        for key, shown in zip(job.keys, job.pictures):
            for view in self.views:
                had = view.screen.get(key)
                newer = had is None or had < job.number or key in view.asked and had <= job.number
                if newer and view.has_room() and self.is_due(view, key):
                    self.send(view, key, job.number, shown)
        for key, shown in zip(job.keys, job.pictures):
            if not self.touched(job.number, key):
                self.keep(key, job.number, shown)
        self.kept = self.kept[:MAX_KEPT]

    def send(self, view, key, version, shown):
        view.wid += 1
        view.window.append(view.wid)
        if not self.touched(version, key):
            view.asked.discard(key)
        view.screen[key] = version
        view.forget()
        part, posy, posx, width, height, _, _, nviewid = key
        look = " nviewid=1" if nviewid else ""
        self.say(view, f"part {part} {width}x{height} at {posx},{posy}{look} ver={version} wid={view.wid}", (key, shown))


class Client:
    def __init__(self, number, can_write):
        self.number, self.can_write, self.part = number, can_write, 0
        self.zoom, self.area = (256, 256, 3840, 3840, 0), (0, 0, 0, 0)


class Stage:
    """A document with what its browsers know of it, and in lines all that it gave out."""

    def __init__(self, make):
        self.make, self.document = make, Document(make())
        self.clients, self.inputs, self.tiles = [], [], {}
        self.jobs, self.puts, self.text = [], [], ""

    def write(self, line):
        self.text += line + "\n"

    def show(self):
        for number, text, tile in self.document.frames:
            shade = ""
            if tile:
                self.tiles[number, tile[0]] = tile[1]
                shade = f" shade={tile[1][0]}" if self.document.kit.name == "patch" else ""
            self.write(f"{number}: {text}{shade}")
        self.document.frames = []

    def act(self, line):
        name, _, rest = line.partition(" ")
        numbers = [int(it) for it in rest.split(" ") if re.fullmatch("[0-9]+", it)]
        if name == "say":
            view, _, text = rest.partition(" ")
            self.say(int(view), text)
        elif name == "join":
            self.join(rest == "w")
        else:
            getattr(self, name)(*numbers)

    # Files and views

    def file(self, count, value):
        if count not in (0, 256):
            return self.write("bad file")
        kit = Patch()
        kit.colours = [value] * 256
        self.document = Document(kit)
        return self.write("loaded")

    def join(self, can_write):
        view = self.document.join(can_write)
        if view is None:
            return self.write("full")
        self.clients.append(Client(view.number, can_write))
        self.write(f"view {view.number}")
        return self.show()

    def crowd(self, count):
        for _ in range(count):
            self.join(True)

    def leave(self, number):
        view = self.document.view(number)
        if view is None:
            return self.write("no view")
        self.document.leave(view)
        self.clients = [it for it in self.clients if it.number != number]
        return self.forget(number)

    def forget(self, number):
        self.tiles = {at: it for at, it in self.tiles.items() if at[0] != number}

    def say(self, number, text):
        view = self.document.view(number)
        if view is None:
            return self.write("no view")
        self.document.message(view, text.encode())
        return self.show()

    def ask(self, count):
        for n in range(count):
            self.say(0, f"tile part=0 width=1 height=1 tileposx={n * 15} tileposy=0 tilewidth=15 tileheight=15")

    def client(self, number):
        return next((it for it in self.clients if it.number == number), Client(number, False))

    def zoom(self, view, w, h, across, down, look=0):
        self.client(view).zoom = (w, h, across, down, look)
        self.say(view, f"clientzoom tilepixelwidth={w} tilepixelheight={h} tiletwipwidth={across} "
                       f"tiletwipheight={down} nviewid={look}")

    def part(self, view, part):
        self.client(view).part = part
        self.forget(view)
        self.say(view, f"setclientpart part={part}")

    def look(self, view, x, y, w, h):
        self.client(view).area = (x, y, w, h)
        self.say(view, f"clientvisiblearea x={x} y={y} width={w} height={h}")

    def click(self, view, x, y):
        self.enter(view, ("mouse", x, y))
        self.say(view, f"mouse type=buttondown x={x} y={y}")

    def type(self, view, char):
        self.enter(view, ("key", char, 0))
        self.say(view, f"key type=input char={char} key=0")

    def enter(self, view, what):
        if self.client(view).can_write:
            self.inputs.append((view, self.client(view).part, what))

    # Turns, jobs and puts

    def turn(self):
        work = self.document.turn()
        if work is False:
            return self.write("idle")
        self.show()
        if isinstance(work, Job):
            self.jobs.append(work)
            self.write(f"job {work.ticket} of {len(work.keys)} key, number={work.number}")
        elif work:
            self.puts.append(work)
            self.write(f"put {work[0]} of {len(work[1])} bytes, number={work[2]} token=t")
        return None

    def give(self, ticket, scene):
        self.document.painted(ticket, scene)
        self.show()

    def paint(self):
        if not self.jobs:
            return self.write("no job")
        return self.give(self.jobs[-1].ticket, self.jobs[-1].scene)

    def paint_as(self, ticket):
        if not self.jobs:
            return self.write("no job")
        return self.give(ticket, self.jobs[-1].scene)

    def paint_old(self):
        if len(self.jobs) < 2:
            return self.write("no job")
        return self.give(self.jobs[-1].ticket, self.jobs[-2].scene)

    def paint_job(self, ticket):
        found = [it for it in self.jobs if it.ticket == ticket]
        if not found:
            return self.write("no job")
        return self.give(ticket, found[-1].scene)

    def paint_back(self):
        for job in reversed(self.jobs):
            self.give(job.ticket, job.scene)

    def serve(self, times):
        for _ in range(times):
            self.turn()
            self.paint()

    def rounds(self):
        for _ in range(100):
            work = self.document.turn()
            if work is False:
                return self.write("idle")
            self.show()
            if isinstance(work, Job):
                self.give(work.ticket, work.scene)
        return self.write("turns do not end")

    def answer(self, ticket=None, content=None, fault=None):
        if not self.puts:
            return self.write("no errand")
        last = self.puts[-1]
        self.document.answer(ticket or last[0], content or last[1], fault)
        return self.show()

    def put(self):
        self.answer()

    def put_as(self, ticket):
        self.answer(ticket=ticket)

    def put_else(self):
        self.answer(content=b"other")

    def fail(self, status):
        self.answer(fault=status)

    # What is told

    def stored(self):
        document = self.document
        unstored = document.stored != len(document.journal)
        done = document.is_done()
        self.write(f"done {word(done)}, lost {word(done and unstored)}, unstored {word(unstored)}")

    def tell(self):
        document = self.document
        self.write(f"{document.applied} of {len(document.journal)} applied, quiet {word(document.is_quiet())}")

    def window(self, number):
        view = self.document.view(number)
        if view is None:
            return self.write("no view")
        return self.write("".join(f"{it} " for it in view.window) + "open")

    def hush(self):
        self.text = ""

    def show_tile(self, pixels):
        letters = {b"\xff\xff\xff\xff": "W", b"\xc0\xc0\xc0\xff": "G", b"\x00\x00\x00\xff": "B"}
        self.write("".join(letters.get(pixels[at:at + 4], "?") for at in range(0, len(pixels), 4)))

    def shown(self, number, x, y):
        for (view, key), pixels in self.tiles.items():
            if view == number and (key[2], key[1]) == (x, y):
                return self.show_tile(pixels)
        return self.write("no such tile")

    def compare(self):
        for client in self.clients:
            view = self.document.view(client.number)
            if view and view.window:
                self.say(client.number, "tileprocessed wids=" + ",".join(map(str, view.window)))
        self.tell()
        kit = self.make()
        for it in self.inputs:
            kit.input(*it)
        seen = [(client.number, key) for client in self.clients
                for key in visible(client.part, client.zoom, client.area, kit.size(client.part))]
        right = sum(self.tiles.get(at) == picture(kit, at[1]) for at in seen)
        self.write(f"{right} of {len(seen)} tiles are right")


def main():
    stage = None
    for line in sys.stdin.read().splitlines():
        name, _, rest = line.partition(" ")
        if line.startswith("#"):
            print(line)
        elif name == "begin":
            stage = Stage({"patch": Patch, "sheet": book}[rest])
        elif name == "end":
            print(stage.text, end="")
        elif name == "show":
            stage.shown(*map(int, rest.split(" ")))
        else:
            stage.act(line)


main()
