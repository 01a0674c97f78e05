"""What the calls on messages, frames, words and numbers answer, by docs/protocol.md alone.

    python3 tests/model/messages.py cases > crates/message_readings/stdin
    python3 tests/model/messages.py answers < crates/message_readings/stdin > crates/message_readings/stdout

`cases` writes the lines that the program `message_readings` reads, `answers` what it has to print for them.
Nothing here is taken from the program: a case whose answer differs is a fault of the one or the other.
"""

import random
import re
import sys

# ---------------------------------------------------------------- numbers and words


def number(text, most=10, limit=2**31 - 1):
    """The number of a text of 1 to `most` decimal digits of at most `limit`, else None."""
    if not re.fullmatch(r"[0-9]{1,%d}" % most, text):
        return None
    return int(text) if int(text) <= limit else None


def long_number(text):
    return number(text, 20, 2**64 - 1)


def number_list(text, read=number):
    """1 to 1,024 numbers between single commas, else None."""
    numbers = [read(part) for part in text.split(",")]
    return numbers if len(numbers) <= 1024 and None not in numbers else None


def words_of(text):
    return [word for word in text.split(" ") if word]


def first_value(words, name):
    for word in words:
        front, equals, value = word.partition("=")
        if equals and front == name:
            return value
    return None


def count_named(words, name):
    return sum(1 for word in words if "=" in word and word.partition("=")[0] == name)


# ---------------------------------------------------------------- messages

SIDES = ["part", "width", "height", "tileposx", "tileposy", "tilewidth", "tileheight"]
TABLE = {
    "coolclient": [],
    "load": ["url"],
    "key": ["type", "char", "key"],
    "mouse": ["type", "x", "y", "count", "buttons", "modifier"],
    "tile": SIDES + ["nviewid"],
    "tilecombine": SIDES + ["nviewid"],
    "canceltiles": [],
    "clientvisiblearea": ["x", "y", "width", "height"],
    "clientzoom": ["tilepixelwidth", "tilepixelheight", "tiletwipwidth", "tiletwipheight", "nviewid"],
    "setclientpart": ["part"],
    "tileprocessed": ["wids"],
    "save": ["dontTerminateEdit", "dontSaveIfUnmodified"],
}
DEFAULTS = {
    ("mouse", "count"): "1",
    ("mouse", "buttons"): "1",
    ("mouse", "modifier"): "0",
    ("tile", "nviewid"): "0",
    ("tilecombine", "nviewid"): "0",
    ("clientzoom", "nviewid"): "0",
    ("save", "dontTerminateEdit"): "0",
    ("save", "dontSaveIfUnmodified"): "0",
}
# how a fault names a word
NAMES = {
    "url": "Url", "type": "Type", "char": "Char", "key": "Key", "x": "X", "y": "Y", "count": "Count",
    "buttons": "Buttons", "modifier": "Modifier", "part": "Part", "width": "Width", "height": "Height",
    "tileposx": "TilePosX", "tileposy": "TilePosY", "tilewidth": "TileWidth", "tileheight": "TileHeight",
    "tilepixelwidth": "TilePixelWidth", "tilepixelheight": "TilePixelHeight",
    "tiletwipwidth": "TileTwipWidth", "tiletwipheight": "TileTwipHeight", "nviewid": "NViewId",
    "wids": "Wids", "dontTerminateEdit": "KeepEdit", "dontSaveIfUnmodified": "SkipUnmodified",
    "command": "Command",
}  # fmt: skip


def value_of(command, word, text, values):
    """The value of a word's text, or None where it is out of form."""
    if word == "url":
        return text if 1 <= len(text.encode()) <= 8192 else None
    if word == "type":
        kinds = ["input", "up"] if command == "key" else ["buttondown", "buttonup", "move"]
        return text if text in kinds else None
    if word.startswith("dont"):
        return {"0": False, "1": True}.get(text)
    if word == "wids":
        return number_list(text, long_number)
    if word == "nviewid":
        read = number(text)
        return None if read is None else int(read == 1)
    if command == "tilecombine" and word in ("tileposx", "tileposy"):
        read = number_list(text)
        if word == "tileposy" and read is not None and len(read) != len(values["tileposx"].split(",")):
            return None
        return read
    return number(text)


def read_message(raw):
    """A pair: None and the command with its values, or the first fault and None."""
    if raw.strip(b" ") == b"":
        return "Empty", None
    if len(raw) > 65536:
        return "TooLong", None
    try:
        text = raw.decode("utf-8")
    except UnicodeDecodeError:
        return "NotUtf8", None
    command, *others = words_of(text)
    if command == "uno":
        if not others:
            return "MissingWord(Command)", None
        return (None, ("uno", {})) if others[0] == ".uno:Save" else ("BadWord(Command)", None)
    if command not in TABLE:
        return "UnknownCommand", None
    texts = {}
    for word in TABLE[command]:
        texts[word] = first_value(others, word)
        if texts[word] is None:
            texts[word] = DEFAULTS.get((command, word))
        if texts[word] is None:
            return f"MissingWord({NAMES[word]})", None
    values = {}
    for word in TABLE[command]:
        values[word] = value_of(command, word, texts[word], texts)
        if values[word] is None:
            return f"BadWord({NAMES[word]})", None
    for word in TABLE[command]:
        if count_named(others, word) > 1:
            return f"RepeatedWord({NAMES[word]})", None
    return None, (command, values)


def error_command(raw):
    """The command that an error frame names for the text."""
    if len(raw) > 65536:
        return "unknown"
    try:
        raw.decode("utf-8")
    except UnicodeDecodeError:
        return "unknown"
    word = raw.lstrip(b" ").split(b" ")[0]
    return word.decode() if re.fullmatch(rb"[a-z]{1,32}", word) else "unknown"


def written(command, values):
    if command == "uno":
        return "uno .uno:Save"
    parts = [command]
    for word in TABLE[command]:
        value = values[word]
        if isinstance(value, list):
            value = ",".join(map(str, value))
        elif isinstance(value, bool):
            value = int(value)
        parts.append(f"{word}={value}")
    return " ".join(parts)


# how a value is printed

KINDS = {
    "input": "Input", "up": "Up", "buttondown": "ButtonDown", "buttonup": "ButtonUp", "move": "Move",
}  # fmt: skip


def quoted(text):
    for plain, escaped in (("\\", "\\\\"), ('"', '\\"'), ("\t", "\\t")):
        text = text.replace(plain, escaped)
    return f'"{text}"'


def record(name, fields):
    return name + " { " + ", ".join(f"{field}: {value}" for field, value in fields) + " }"


def a_list(numbers):
    return record("ListOf", [("items", "[" + ", ".join(map(str, numbers)) + "]")])


def printed(command, v):
    if command == "coolclient":
        return "CoolClient"
    if command == "canceltiles":
        return "CancelTiles"
    if command == "uno":
        return "UnoSave"
    if command == "load":
        return record("Load", [("url", record("TextOf", [("text", quoted(v["url"]))]))])
    if command == "key":
        return record("Key", [("kind", KINDS[v["type"]]), ("chr", v["char"]), ("code", v["key"])])
    if command == "mouse":
        kind = [("kind", KINDS[v["type"]])]
        return record("Mouse", kind + [(w, v[w]) for w in ("x", "y", "count", "buttons", "modifier")])
    if command == "tile":
        return "Tile(" + record("TileWords", [(w, v[w]) for w in TABLE["tile"]]) + ")"
    if command == "tilecombine":
        fields = [(w, a_list(v[w]) if w.startswith("tilepos") else v[w]) for w in TABLE["tile"]]
        return "TileCombine(" + record("CombineWords", fields) + ")"
    if command == "clientvisiblearea":
        return "VisibleArea(" + record("Rect", list(zip("xywh", v.values()))) + ")"
    if command == "clientzoom":
        names = ["pixel_w", "pixel_h", "twip_w", "twip_h", "nviewid"]
        return record("Zoom", list(zip(names, v.values())))
    if command == "setclientpart":
        return record("SetPart", [("part", v["part"])])
    if command == "tileprocessed":
        return record("TileProcessed", [("wids", a_list(v["wids"]))])
    flags = [str(flag).lower() for flag in v.values()]
    return record("Save", list(zip(["keep_edit", "skip_unmodified"], flags)))


# ---------------------------------------------------------------- keys


def is_key(part, width, height, posx, posy, tilewidth, tileheight, nviewid):
    def side(pixels, twips, position):
        sizes = 1 <= pixels <= 256 and 15 <= twips <= 61440
        return sizes and position <= 2**31 - 1 and position % twips == 0

    return side(width, tilewidth, posx) and side(height, tileheight, posy)


def printed_key(part, width, height, posx, posy, tilewidth, tileheight, nviewid):
    return record(
        "TileKey",
        [
            ("part", part),
            ("posy", posy),
            ("posx", posx),
            ("width", width),
            ("height", height),
            ("tilewidth", tilewidth),
            ("tileheight", tileheight),
            ("nviewid", nviewid),
        ],
    )


def asked_keys(command, v, parts=2):
    """The keys that a message asks for in a document of so many parts; None where one is none of them."""
    if command not in ("tile", "tilecombine"):
        return []
    across, down = v["tileposx"], v["tileposy"]
    places = [(across, down)] if command == "tile" else list(zip(across, down))
    keys = []
    for posx, posy in places:
        key = (v["part"], v["width"], v["height"], posx, posy, v["tilewidth"], v["tileheight"], v["nviewid"])
        if not is_key(*key) or v["part"] >= parts:
            return None
        keys.append(key)
    return keys


def answer_message(raw):
    command = error_command(raw)
    fault, message = read_message(raw)
    if fault:
        return [f"  {command} {fault}"]
    lines = [f"  {command} {printed(*message)}", f"  {written(*message)}"]
    keys = asked_keys(*message)
    if keys is None:
        return lines + ["  no keys"]
    return lines + ["  " + printed_key(*key) for key in keys]


# ---------------------------------------------------------------- frames

ERRORS = """BadMessage NotLoaded AlreadyLoaded BadUrl LoadFailed DocsFull BookFull MailFull DocGone BadFile
ViewsFull ReadOnly InputsFull SavesFull BadTile TooLarge AskedFull SaveFailed""".split()
CODED = ("LoadFailed", "SaveFailed")
N = r"(0|[1-9][0-9]*)"  # a number without leading zeros
SERVER = 'coolserver {"Version":"profile-1","Protocol":"0.1"}'
STATUS = rf"status: type=(patch|sheet) parts={N} current=0 width={N} height={N} viewid={N} readonly=([01])"
INVALIDATE = rf"invalidatetiles: part={N} x={N} y={N} width={N} height={N}"
SAVED = rf'unocommandresult: {{"commandName":".uno:Save","success":true,"inputs":{N},"put":(true|false)}}'
ERROR = rf"error: cmd=([a-z]{{1,32}}) kind=([a-z]+)( code={N})?"
TILE = (
    rf"tile: part={N} width={N} height={N} tileposx={N} tileposy={N} tilewidth={N} tileheight={N}"
    rf"( nviewid=1)? ver={N} wid={N}"
)


def read_line(text):
    """The frame that a line of text is, as it is printed, else None."""
    if text == SERVER:
        return "Server"
    if found := re.fullmatch(STATUS, text):
        kit, parts, width, height, view, readonly = found.groups()
        parts, width, height, view = map(int, (parts, width, height, view))
        if parts >= 2**32 or width >= 2**31 or height >= 2**31 or view >= 2**32:
            return None
        fields = [
            ("kit", kit.capitalize()),
            ("parts", parts),
            ("size", record("Size", [("w", width), ("h", height)])),
            ("view", f"ViewId({view})"),
            ("readonly", {"0": "false", "1": "true"}[readonly]),
        ]
        return record("Status", fields)
    if found := re.fullmatch(INVALIDATE, text):
        part, x, y, w, h = map(int, found.groups())
        if part >= 2**32 or x + w >= 2**32 or y + h >= 2**32:
            return None
        rect = record("Rect", [("x", x), ("y", y), ("w", w), ("h", h)])
        return record("Invalidate", [("part", part), ("rect", rect)])
    if found := re.fullmatch(SAVED, text):
        inputs, put = int(found[1]), found[2]
        return record("SaveDone", [("inputs", inputs), ("put", put)]) if inputs < 2**64 else None
    if found := re.fullmatch(ERROR, text):
        cmd, name, behind, code = found.groups()
        kinds = [kind for kind in ERRORS if kind.lower() == name]
        if not kinds or (behind is not None) != (kinds[0] in CODED):
            return None
        if behind is not None and int(code) >= 65536:
            return None
        fields = [
            ("cmd", record("TextOf", [("text", quoted(cmd))])),
            ("kind", kinds[0]),
            ("code", "None" if behind is None else f"Some({int(code)})"),
        ]
        return record("Error", fields)
    return None


def answer_frame(raw):
    line, newline, picture = raw.partition(b"\n")
    if newline and (found := re.fullmatch(TILE, line.decode("latin-1"))):
        part, width, height, posx, posy, tilewidth, tileheight = map(int, found.groups()[:7])
        nviewid, ver, wid = int(found[8] is not None), int(found[9]), int(found[10])
        key = (part, width, height, posx, posy, tilewidth, tileheight, nviewid)
        if part < 2**32 and ver < 2**64 and wid < 2**64 and is_key(*key):
            if len(picture) != 4 * width * height:
                return ["  WrongLength"]
            count = len(picture)
            return ["  written the same: true", f"  {printed_key(*key)} {ver} Wid({wid}) {count} bytes"]
    frame = None if newline else read_line(raw.decode("latin-1"))
    return ["  NotAFrame"] if frame is None else ["  written the same: true", f"  {frame}"]


# ---------------------------------------------------------------- the other forms


def an_option(value):
    return "None" if value is None else f"Some({value})"


def as_text(raw):
    try:
        return "  " + raw.decode("utf-8")
    except UnicodeDecodeError:
        return "  [" + ", ".join(str(byte) for byte in raw) + "]"


def answer_list(text):
    lines = [f"  {len(text.split(','))} parts"]
    for read in (number, long_number):
        if (numbers := number_list(text, read)) is not None:
            lines.append("  " + ",".join(map(str, numbers)))
    return lines


def answer_words(text):
    words = words_of(text)
    value = first_value(words, "a")
    shown = ", ".join(quoted(word) for word in words)
    option = "None" if value is None else f"Some({quoted(value)})"
    return [f"  [{shown}] {count_named(words, 'a')} {option}"]


def answer_cut(text):
    front, equals, behind = text.partition("=")
    if not equals:
        return ["  None"]
    return [f"  Some(({quoted(front)}, {quoted(behind)}))", "  " + front, "  " + behind]


def percent_decoded(text):
    raw = text.encode()
    return re.sub(rb"%([0-9a-fA-F]{2})", lambda found: bytes([int(found[1], 16)]), raw)


def answer(line):
    form, _, text = line.partition(" ")
    if form == "message":
        return answer_message(text.encode())
    if form == "padded":
        count, _, front = text.partition(" ")
        return answer_message(front.encode() + b" " * int(count))
    if form == "bytes":
        return answer_message(bytes.fromhex(text))
    if form == "line":
        return answer_frame(text.encode())
    if form == "picture":
        count, _, front = text.partition(" ")
        return answer_frame(front.encode() + b"\n" + b"\n" * int(count))
    if form == "frame":
        return answer_frame(bytes.fromhex(text))
    if form == "number":
        return [f"  {an_option(number(text))} {an_option(long_number(text))}"]
    if form == "list":
        return answer_list(text)
    if form == "words":
        return answer_words(text)
    if form == "cut":
        return answer_cut(text)
    if form == "percent":
        return [as_text(percent_decoded(text))]
    if form == "command":
        return ["  " + str(re.fullmatch("[a-z]{1,32}", text) is not None).lower()]
    if form == "file":
        return [f"  {text} true" if re.fullmatch("[A-Za-z0-9_-]{1,64}", text) else "  no file id"]
    if form == "token":
        return [f"  {text} true" if re.fullmatch("[!-~]{1,2048}", text) else "  no token"]
    if form == "memory":
        return ["  out of memory"]
    return []


# ---------------------------------------------------------------- the cases

GOOD = {
    "url": ["http://h/wopi/files/a?access_token=t=1", "x", "=", 'a"b', "http%3A%2F%2Fh", "\u00e9\u20ac"],
    "char": ["97", "0", "2147483647"],
    "key": ["0", "0000000013", "1281"],
    "wids": ["1", "18446744073709551615,00000000000000000001", "99,1,1"],
    "dontTerminateEdit": ["0", "1"],
    "dontSaveIfUnmodified": ["1", "0"],
    "nviewid": ["0", "1", "2", "01", "0000000001", "00", "10", "2147483647"],
}
BAD = {
    "url": [""],
    "type": ["", "Input", "down", "buttonDown", "moves", "input,up"],
    "wids": ["", "18446744073709551616", "000000000000000000001", "1,", ",1", "1,,2", "-1", "1;2"],
    "dontTerminateEdit": ["", "00", "2", "true", "01"],
    "dontSaveIfUnmodified": ["", "+1", "yes"],
}
BAD_NUMBERS = ["", "+1", "-1", "2147483648", "00000000001", "1x", "0x1", "1.0", "1,2", "\t1", "\u0661"]
BASE = {
    "coolclient": "coolclient",
    "load": "load url=x",
    "key": "key type=input char=65 key=0",
    "mouse": "mouse type=buttondown x=10 y=10 count=1 buttons=1 modifier=0",
    "tile": "tile part=0 width=8 height=8 tileposx=0 tileposy=240 tilewidth=240 tileheight=240 nviewid=1",
    "tilecombine": "tilecombine part=1 width=8 height=8 tileposx=0,240 tileposy=480,0 tilewidth=240"
    " tileheight=240 nviewid=0",
    "canceltiles": "canceltiles",
    "clientvisiblearea": "clientvisiblearea x=1 y=2 width=3 height=4",
    "clientzoom": "clientzoom tilepixelwidth=1 tilepixelheight=2 tiletwipwidth=3 tiletwipheight=4 nviewid=0",
    "setclientpart": "setclientpart part=7",
    "tileprocessed": "tileprocessed wids=1,18446744073709551615",
    "save": "save dontTerminateEdit=1 dontSaveIfUnmodified=0",
    "uno": "uno .uno:Save",
}
K = "tile part=0 width=8 height=8 tileposx=0 tileposy=0 tilewidth=240 tileheight=240"
LINE = "tile: part=0 width=8 height=8 tileposx=0 tileposy=0 tilewidth=240 tileheight=240"


def message_cases():
    yield from BASE.values()
    yield from [
        "",
        " ",
        "  ",
        "\t",
        "coolclient 0.1 anything",
        "Coolclient",
        "coolclient\t",
        "save dontTerminateEdit=00",
        " tile part=0 width=8 height=9 tileposx=240 tileposy=480 tilewidth=241 tileheight=242 ver=1",
        "tile part=0 width=8 height=9 tileposx=1 tileposy=2 tilewidth=3 tileheight=4",
        "tilecombine part=0 width=8 height=8 tileposx=0,240 tileposy=5,6 tilewidth=3 tileheight=4",
        "load url=http://h/wopi/files/a?access_token=t",
        "key type=up char=97 key=0",
        "mouse type=buttonup x=1 y=2 count=3 buttons=4 modifier=5",
        "useractive  now",
        "   useractive  now",
        "canceltiles part=x part=x = ==",
        "load  x url=http://h/wopi/files/a?access_token=t=1 ",
        "load url=" + "u" * 8192,
        "load url=" + "u" * 8193,
        "load url=" + "\u20ac" * 2730 + "zz",
        "load url=" + "\u20ac" * 2731,
        "key key=0000000013 char=2147483647 type=input",
        "mouse y=20 x=01 type=move",
        "mouse x=1 x=2 type=move",
        "mouse x=1 x=2 type=move y=x",
        "mouse x=1 x=? type=move y=2",
        "mouse X=1 x type=move y=2",
        "mouse x=?  x=1 type=move y=2",
        " " + K.replace("240", "241") + " ver=1",
        K,
        K + " nviewid=0 nviewid=0",
        K + " nviewid",
        K + " nViewId=1",
        K.replace("part=0", "part=1"),
        K.replace("part=0", "part=2"),
        K.replace("tileposx=0", "tileposx=7"),
        K.replace("tileposx=0", "tileposx=2147483520"),
        K.replace("tileposx=0", "tileposx=2147483647"),
        K.replace("tileposy=0", "tileposy=2147483760"),
        K.replace("width=8", "width=0", 1),
        K.replace("width=8", "width=256", 1),
        K.replace("width=8", "width=257", 1),
        K.replace("height=8", "height=257"),
        K.replace("240", "14"),
        K.replace("240", "15"),
        K.replace("240", "61440"),
        K.replace("240", "61441"),
        K.replace(" width=8", ""),
        "tile part=+1",
        "tile part=+1 width=8 height=8 tileposx=0 tileposy=0 tilewidth=240 tileheight=240",
        "tile part=0 height=8 tileposx=0 tileposy=0 tilewidth=240 tileheight=240",
        "clientzoom tilepixelwidth=8 tilepixelheight=8 tiletwipwidth=240 tiletwipheight=240",
        "clientzoom tilepixelwidth=8 tilepixelheight=8 tiletwipwidth=240 tiletwipheight=240 nviewid=1",
        "clientvisiblearea x=2147483647 y=2147483647 width=2147483647 height=2147483647",
        "mouse type=buttondown x=10 y=10",
        "tileprocessed wids=" + ",".join(["7"] * 1024),
        "tileprocessed wids=" + ",".join(["7"] * 1025),
        "save",
        "save dontSaveIfUnmodified=1",
        "save dontTerminateEdit=1 dontTerminateEdit=0",
        "uno",
        "uno ",
        "uno .uno:Undo",
        "uno x=y .uno:Save",
        "uno .uno:Save part=x part=x",
        "uno .uno:save",
        "abcdefghijklmnopqrstuvwxyzabcdef",
        "abcdefghijklmnopqrstuvwxyzabcdefg",
        "Tile part=0",
        "tile\tpart=0",
        "t\u00e9le part=0",
        "canceltiles \u00e9",
    ]
    combine = "tilecombine part=0 width=8 height=8 tileposx={} tileposy={} tilewidth=240 tileheight=240"
    for across, down in [
        ("0,240", "5,6"),
        ("0,240", "240,0"),
        ("0,240,0", "240,0,240"),
        ("0,240", "0"),
        ("0", "0,240"),
        ("0,7", "0,240"),
        ("0,240", "0,250"),
        ("", ""),
        ("0", ""),
        ("0,", "0,"),
        ("0,2147483648", "0,0"),
        ("1,2", "3,4"),
    ]:
        yield combine.format(across, down)
        yield combine.format(across, down) + " nviewid=1"
    yield combine.format(",".join(["240"] * 1024), ",".join(["0"] * 1023 + ["7"]))
    yield combine.format(",".join(["240"] * 1025), ",".join(["0"] * 1025))
    for command, base in BASE.items():
        fields = TABLE.get(command, [])
        for word in fields:
            present = first_value(words_of(base), word)
            spelled = f"{word}={present}"
            yield base.replace(" " + spelled, "", 1)  # left out
            yield base + " " + spelled  # twice
            yield base.replace(" " + spelled, f" {word}=? {spelled}", 1)  # bad before good
            is_list = command == "tilecombine" and word.startswith("tilepos")
            bad = BAD.get(word, BAD_NUMBERS if not is_list else [t for t in BAD_NUMBERS if t != "1,2"])
            for value in bad + GOOD.get(word, []):
                yield base.replace(" " + spelled, f" {word}={value}", 1)
        for word, other in zip(fields, fields[1:]):
            # two faults of one sort: the first in the table's order is named
            both = [w for w in words_of(base) if w.partition("=")[0] not in (word, other)]
            yield " ".join(both)
            yield " ".join(both + [f"{other}=?", f"{word}=?"])
            values = [f"{w}={first_value(words_of(base), w)}" for w in (other, word)]
            yield " ".join(both + values * 2)
    rng = random.Random(7)
    for _ in range(60):
        base = rng.choice(list(BASE.values()))
        command, *words = words_of(base)
        rng.shuffle(words)
        blanks = " " * rng.randint(1, 3)
        yield " " * rng.randint(0, 2) + blanks.join([command] + words) + " " * rng.randint(0, 2)


def byte_cases():
    yield b"canceltiles \xff"
    yield b"tile \xff"
    yield b"\xff"
    yield b"  \xc3\xa9"
    yield b"canceltiles \xc3\xa9"
    yield b"canceltiles \xc3"
    yield b"canceltiles \xed\xa0\x80"
    yield b"canceltiles \xf4\x90\x80\x80"
    yield b"canceltiles \xc0\x80"
    yield b"canceltiles\x00"
    yield b"canceltiles\n"
    yield b"canceltiles \n"
    yield b"\ncanceltiles"
    yield b"canceltiles\r\n"
    yield b"canceltiles\xa0"
    yield b"load url=\x01"[:9] + b"a\xffb"


def padded_cases():
    for count in (0, 1, 65535, 65536, 65537):
        yield count, ""
    for count in (0, 1, 65525, 65526, 70000):
        yield count, "canceltiles"
    yield 65534, "\u00e9"
    yield 65535, "\u00e9"
    yield 65526, "Canceltiles"


def line_cases():
    yield SERVER
    yield SERVER + " "
    yield SERVER[:-1]
    yield "error: cmd=storage kind=savefailed code=409"
    yield "error: cmd=storage kind=savefailed code=65536"
    yield "error: cmd=storage kind=savefailed"
    yield "error: cmd=tile kind=badtile code=1"
    yield "error: cmd=Tile kind=badtile"
    yield "invalidatetiles: part=0 x=0 y=0 width=240 height=240 "
    yield "invalidatetiles: part=0 x=4294967295 y=0 width=1 height=1"
    yield LINE + " ver=1 wid=1"
    yield "coolserver"
    yield ""
    yield "tile"
    yield "x"
    numbers = ["0", "1", "3840", "2147483647", "2147483648", "4294967295", "4294967296", "00", "01", "+1", "-1", ""]
    for n in numbers:
        yield f"status: type=patch parts={n} current=0 width=3840 height=3840 viewid=0 readonly=0"
        yield f"status: type=sheet parts=1 current=0 width={n} height=3840 viewid=0 readonly=1"
        yield f"status: type=sheet parts=1 current=0 width=3840 height={n} viewid=0 readonly=1"
        yield f"status: type=sheet parts=1 current=0 width=3840 height=3840 viewid={n} readonly=1"
        yield f"invalidatetiles: part={n} x=0 y=0 width=240 height=240"
        yield f"invalidatetiles: part=0 x={n} y=0 width=240 height=240"
        yield f"invalidatetiles: part=0 x=0 y=0 width={n} height=240"
        yield f"invalidatetiles: part=0 x=0 y=1 width=0 height={n}"
    for put in ("true", "false", "True", "1", ""):
        for n in ("0", "1", "18446744073709551615", "18446744073709551616", "01", ""):
            head = 'unocommandresult: {"commandName":".uno:Save","success":true'
            yield f'{head},"inputs":{n},"put":{put}}}'
    for tail in ("readonly=2", "readonly=", "readonly=00", "readonly=0 ", "Readonly=0"):
        yield f"status: type=patch parts=1 current=0 width=1 height=1 viewid=0 {tail}"
    yield "status: type=text parts=1 current=0 width=1 height=1 viewid=0 readonly=0"
    yield "status: type=patch parts=1 current=1 width=1 height=1 viewid=0 readonly=0"
    yield "status:  type=patch parts=1 current=0 width=1 height=1 viewid=0 readonly=0"
    for kind in ERRORS:
        for code in ("", " code=0", " code=404", " code=65535", " code=65536", " code=01", " code="):
            yield f"error: cmd=tile kind={kind.lower()}{code}"
    for cmd in ("", "Tile", "tile1", "a", "a" * 32, "a" * 33, "unknown", "storage", "t le", "\u00e9"):
        yield f"error: cmd={cmd} kind=badmessage"
    yield "error: cmd=tile kind=badmessages"
    yield "error: cmd=tile kind="
    yield "error: cmd=tile kind=badmessage "
    yield "error:cmd=tile kind=badmessage"
    yield "Error: cmd=tile kind=badmessage"
    yield LINE + " ver=0 wid=1"


def picture_cases():
    for look in ("", " nviewid=1"):
        for count in (0, 1, 255, 256, 257):
            yield count, LINE + look + " ver=0 wid=1"
    for look in (" nviewid=0", " nviewid=2", " nviewid=01", " nviewid=10", " nviewid=", "  nviewid=1", " nviewid=1 nviewid=1"):
        yield 256, LINE + look + " ver=0 wid=1"
        yield 255, LINE + look + " ver=0 wid=1"
    yield 0, LINE + " ver=1 wid=1"
    yield 0, LINE.replace("tileposx=0", "tileposx=7") + " ver=1 wid=1"
    yield 256, LINE + " ver=0 wid=1 nviewid=1"
    yield 256, LINE + " ver=0 nviewid=1 wid=1"
    yield 256, "tile: nviewid=1" + LINE[5:] + " ver=0 wid=1"
    for ver, wid in [
        ("18446744073709551615", "18446744073709551615"),
        ("18446744073709551616", "1"),
        ("1", "18446744073709551616"),
        ("01", "1"),
        ("1", "01"),
        ("", "1"),
        ("1", ""),
        ("-1", "1"),
    ]:
        yield 256, f"{LINE} ver={ver} wid={wid}"
        yield 256, f"{LINE} nviewid=1 ver={ver} wid={wid}"
    sized = "tile: part={} width={} height={} tileposx={} tileposy={} tilewidth={} tileheight={} ver=9 wid=3"
    for part, w, h, x, y, tw, th in [
        (0, 256, 256, 0, 0, 3840, 3840),
        (4294967295, 1, 1, 0, 0, 15, 15),
        (4294967296, 1, 1, 0, 0, 15, 15),
        (0, 257, 1, 0, 0, 15, 15),
        (0, 1, 257, 0, 0, 15, 15),
        (0, 0, 1, 0, 0, 15, 15),
        (0, 1, 0, 0, 0, 15, 15),
        (0, 1, 1, 7, 0, 15, 15),
        (0, 1, 1, 0, 7, 15, 15),
        (0, 1, 1, 0, 0, 14, 15),
        (0, 1, 1, 0, 0, 15, 14),
        (0, 1, 1, 0, 0, 61440, 61440),
        (0, 1, 1, 0, 0, 61441, 15),
        (0, 1, 1, 0, 0, 15, 61441),
        (0, 1, 1, 2147483640, 2147483640, 15, 15),
        (0, 1, 1, 2147483655, 0, 15, 15),
        (0, 2, 3, 480, 240, 240, 120),
    ]:
        yield 4 * w * h, sized.format(part, w, h, x, y, tw, th)
        yield 4 * w * h + 1, sized.format(part, w, h, x, y, tw, th)
    yield 256, LINE + " ver=0 wid=1 "
    yield 256, " " + LINE + " ver=0 wid=1"
    yield 256, LINE.replace("width=8", "width=08", 1) + " ver=0 wid=1"
    yield 256, LINE.replace("height=8", "height=+8", 1) + " ver=0 wid=1"
    yield 256, LINE.replace("tile:", "tiles:") + " ver=0 wid=1"
    yield 256, LINE.replace(" width=8 height=8", " height=8 width=8", 1) + " ver=0 wid=1"


def frame_cases():
    click = (LINE + " ver=1 wid=1\n").encode() + bytes([1, 1, 1, 255]) * 64
    yield click
    yield click[:-1]
    yield click + b"\0"
    other = (LINE + " nviewid=1 ver=1 wid=1\n").encode() + bytes([1, 1, 1, 255]) * 64
    yield other
    yield other[:-1]
    yield b"tile"
    yield b"\xff"
    yield b"\0"
    yield b"\n"
    yield b"tile: part=0\n"
    yield b"error: cmd=\xff kind=badmessage"
    yield SERVER.encode() + b"\n"
    yield b"error: cmd=tile kind=badmessage\n"


def small_cases():
    for text in BAD_NUMBERS + ["0", "7", "0000000007", "2147483647", "4294967296", "18446744073709551615",
                               "18446744073709551616", "00000000000000000001", "000000000000000000001",
                               " 1", "1 ", "99999999999999999999", "9" * 40]:  # fmt: skip
        yield "number", text
    for text in ["", "0", "007", "0,2147483647", "0,2147483648", "18446744073709551615,3", "1,", ",1", "1,,2",
                 "1, 2", "2147483648", "+1", "1;2", ",", "18446744073709551616"]:  # fmt: skip
        yield "list", text
    yield "list", ",".join(["1"] * 1024)
    yield "list", ",".join(["1"] * 1025)
    for text in ["  a=1 b\t a=2=3  ", "", " ", "a", "a=", "=a", "a=b=c", "A=1 a=2", "aa=1", "a = 1", "b a=\u00e9 a"]:
        yield "words", text
    for text in ["say=1 ", "end", "=", "==", "a=", "=b", "a=b=c", "\u00e9=\u20ac", ""]:
        yield "cut", text
    for text in ["a%2fb%zz%", "", "%", "%4", "%41", "%4a%4A", "%%41", "%ff", "%c3%a9", "a+b", "%25%32", "\u00e9"]:
        yield "percent", text
    for text in ["", "a", "tile", "Tile", "til3", "a" * 32, "a" * 33, "`", "{", "z", "a b", "\u00e9"]:
        yield "command", text
    letters = "abcdefghijklmnopqrstuvwxyzabcdef"
    for text in ["tile part=0", "   useractive  now", "     ", "Tile part=0", "tile\tpart=0", letters, letters + "g"]:
        yield "command", text
    for text in ["", "Report_2-b", "a.b", "a b", "a/b", "A", "9" * 64, "9" * 64 + "x", "\u00e9", "_", "-", "@", "[", "`", "{"]:
        yield "file", text
    for text in ["", "t~0!", "a b", "!" * 2048, "!" * 2049, "\u00e9", "~", "\t", "t-rw"]:
        yield "token", text
    yield "memory", ""


def cases():
    for text in message_cases():
        yield "message " + text
    for raw in byte_cases():
        yield "bytes " + raw.hex()
    for count, text in padded_cases():
        yield f"padded {count} {text}"
    for text in line_cases():
        yield "line " + text
    for count, text in picture_cases():
        yield f"picture {count} {text}"
    for raw in frame_cases():
        yield "frame " + raw.hex()
    for form, text in small_cases():
        yield f"{form} {text}"


def main():
    # a case stands once
    if sys.argv[1:] == ["cases"]:
        for line in dict.fromkeys(cases()):
            print(line)
        return
    for line in sys.stdin:
        line = line.removesuffix("\n")
        print(line)
        for found in answer(line):
            print(found)


main()
