#!/usr/bin/env python3
"""An independent model of the sheet's engine: names of cells, plain texts, formulas, books and files, as
docs/sheet-engine.md says them. It shares nothing with the program: the grammar is read character by character,
values are found by plain recursion, and a file is cut and judged line by line.

    tests/model/sheet_engine.py < crates/sheet_readings/stdin > crates/sheet_readings/stdout

answers the cases of the program sheet_readings, a line each. tests/model/sheet_cases.py writes such cases.
"""
import re
import sys
from urllib.parse import unquote_to_bytes

sys.setrecursionlimit(100000)

LEAST, MOST = -2**63, 2**63 - 1
ROWS, COLUMNS, MAX_FILE, MAX_RAW, MAX_DEPTH = 4096, 256, 2_097_152, 1024, 64


class Fault(str):
    """An error as a value: its name."""


NUM, DIV0, VALUE, CIRC = Fault("#NUM!"), Fault("#DIV/0!"), Fault("#VALUE!"), Fault("#CIRC!")


# Names of cells and plain texts

def column_name(col):
    return chr(65 + col) if col < 26 else chr(64 + col // 26) + chr(65 + col % 26)


COLUMN_NUMBERS = {column_name(col): col for col in range(COLUMNS)}


def read_ref(text):
    """The row and column that the text names, else None."""
    found = re.fullmatch(r"([A-Za-z]{1,2})([1-9][0-9]{0,3})", text)
    if not found:
        return None
    col = COLUMN_NUMBERS.get(found[1].upper())
    row = int(found[2]) - 1
    return (row, col) if col is not None and row < ROWS else None


def read_plain(raw):
    """The value of a raw text that holds no formula."""
    if raw == "":
        return None
    if re.fullmatch(r"-?[0-9]{1,19}", raw) and LEAST <= int(raw) <= MOST:
        return int(raw)
    return raw


# Formulas: ("number", n), ("text", s), ("cell", place), ("minus", e), ("op", sign, e, e), ("compare", sign, e, e),
# ("call", name, arguments) with ("range", place, place) or an expression, ("if", e, e, e)

class NoFormula(Exception):
    pass


class Reader:
    def __init__(self, text):
        self.text, self.at = text, 0

    def blanks(self):
        while self.text[self.at:self.at + 1] == " ":
            self.at += 1

    def take(self, *signs):
        """Takes the first of the signs that stands here, with the blanks around it; the longer ones come first."""
        self.blanks()
        for sign in signs:
            if self.text.startswith(sign, self.at):
                self.at += len(sign)
                self.blanks()
                return sign
        return None

    def want(self, sign):
        if not self.take(sign):
            raise NoFormula

    def pattern(self, pattern):
        found = re.compile(pattern).match(self.text, self.at)
        if found:
            self.at = found.end()
        return found and found[0]

    def compared(self, depth):
        left = self.summed(depth)
        sign = self.take("<>", "<=", ">=", "=", "<", ">")
        return ("compare", sign, left, self.summed(depth)) if sign else left

    def summed(self, depth):
        left = self.multiplied(depth)
        while sign := self.take("+", "-"):
            left = ("op", sign, left, self.multiplied(depth))
        return left

    def multiplied(self, depth):
        left = self.fact(depth)
        while sign := self.take("*", "/"):
            left = ("op", sign, left, self.fact(depth))
        return left

    def deeper(self, depth):
        if depth == MAX_DEPTH:
            raise NoFormula
        return depth + 1

    def fact(self, depth):
        if self.take("-"):
            return ("minus", self.fact(self.deeper(depth)))
        if self.take("("):
            inner = self.compared(self.deeper(depth))
            self.want(")")
            return inner
        self.blanks()
        if (digits := self.pattern("[0-9]+")) is not None:
            if len(digits) > 19 or int(digits) > MOST:
                raise NoFormula
            return ("number", int(digits))
        if (quoted := self.pattern('"(?:[^"]|"")*"')) is not None:
            return ("text", quoted[1:-1].replace('""', '"'))
        word = self.pattern("[A-Za-z]+")
        if word is None:
            raise NoFormula
        if (digits := self.pattern("[0-9]+")) is not None:
            place = read_ref(word + digits)
            if place is None:
                raise NoFormula
            return ("cell", place)
        return self.call(word.upper(), depth)

    def call(self, name, depth):
        if name not in ("SUM", "MIN", "MAX", "COUNT", "IF"):
            raise NoFormula
        self.want("(")
        depth = self.deeper(depth)
        if name == "IF":
            condition = self.compared(depth)
            self.want(",")
            first = self.compared(depth)
            self.want(",")
            second = self.compared(depth)
            self.want(")")
            return ("if", condition, first, second)
        arguments = [self.argument(depth)]
        while self.take(","):
            arguments.append(self.argument(depth))
        self.want(")")
        return ("call", name, arguments)

    def argument(self, depth):
        start = self.at
        self.blanks()
        corners = []
        for sign in (":", None):
            word = self.pattern("[A-Za-z]{1,2}[0-9]+")
            place = word and read_ref(word)
            if not place or sign and not self.take(sign):
                break
            corners.append(place)
        if len(corners) == 2:
            return ("range", *corners)
        self.at = start
        return self.compared(depth)


def read_formula(raw):
    """The expression of a raw text, else None."""
    if not raw.startswith("="):
        return None
    reader = Reader(raw[1:])
    try:
        expression = reader.compared(0)
    except NoFormula:
        return None
    reader.blanks()
    return expression if reader.at == len(reader.text) else None


def between(first, last):
    """The cells of a range, row by row."""
    rows, cols = sorted((first[0], last[0])), sorted((first[1], last[1]))
    return [(row, col) for row in range(rows[0], rows[1] + 1) for col in range(cols[0], cols[1] + 1)]


def names(expression):
    """The cells that the expression names, in branches not taken too."""
    kind, *rest = expression
    if kind == "cell":
        return {rest[0]}
    if kind == "range":
        return set(between(*rest))
    found = set()
    for part in rest:
        for inner in part if isinstance(part, list) else [part]:
            if isinstance(inner, tuple):
                found |= names(inner)
    return found


def within(number):
    return number if LEAST <= number <= MOST else NUM


def operand(value):
    """What a sign of numbers takes: a number, or the error that it gives."""
    if value is None:
        return 0
    if isinstance(value, str):
        return value if isinstance(value, Fault) else VALUE
    return value


def divided(left, right):
    if right == 0:
        return DIV0
    size = abs(left) // abs(right)
    return within(size if (left < 0) == (right < 0) else -size)


def less(left, right):
    """Whether a value that is no error is less than another."""
    if isinstance(left, str) or isinstance(right, str):
        left, right = ("" if it is None else it for it in (left, right))
        if isinstance(left, str) and isinstance(right, str):
            return left.encode() < right.encode()
        return not isinstance(left, str)
    return (left or 0) < (right or 0)


def compare(sign, left, right):
    for side in (left, right):
        if isinstance(side, Fault):
            return side
    below, above = less(left, right), less(right, left)
    holds = {"=": not below and not above, "<>": below or above, "<": below, ">": above, "<=": not above, ">=": not below}
    return int(holds[sign])


def value_of(expression, look):
    """The value of an expression: None for Empty, an int, a str, or a Fault."""
    kind, *rest = expression
    if kind in ("number", "text"):
        return rest[0]
    if kind == "cell":
        return look(rest[0])
    if kind == "minus":
        inner = operand(value_of(rest[0], look))
        return inner if isinstance(inner, Fault) else within(-inner)
    if kind == "op":
        sign, left, right = rest[0], operand(value_of(rest[1], look)), operand(value_of(rest[2], look))
        for side in (left, right):
            if isinstance(side, Fault):
                return side
        if sign == "/":
            return divided(left, right)
        return within({"+": left + right, "-": left - right, "*": left * right}[sign])
    if kind == "compare":
        return compare(rest[0], value_of(rest[1], look), value_of(rest[2], look))
    if kind == "if":
        condition, first, second = (value_of(it, look) for it in rest)
        if isinstance(condition, str):
            return condition if isinstance(condition, Fault) else VALUE
        return first if condition else second
    name, arguments = rest
    values = []
    for argument in arguments:
        if argument[0] == "range":
            values += [look(place) for place in between(argument[1], argument[2])]
        else:
            values.append(value_of(argument, look))
    numbers = [it for it in values if isinstance(it, int)]
    if name == "COUNT":
        return len(numbers)
    for it in values:
        if isinstance(it, Fault):
            return it
    if name == "SUM":
        return within(sum(numbers))
    return (min if name == "MIN" else max)(numbers) if numbers else 0


# Books

class Book:
    def __init__(self, parts):
        self.parts = parts
        self.raws = {}  # (part, row, col) -> raw text
        self.kept = {}  # part -> (the part's raws, what its cells show)

    def shows(self, part):
        """What the cells of a part with a raw text show, found from scratch."""
        raws = {place[1:]: raw for place, raw in self.raws.items() if place[0] == part}
        if part in self.kept and self.kept[part][0] == raws:
            return self.kept[part][1]
        formulas = {}
        for place, raw in raws.items():
            expression = read_formula(raw)
            if expression is not None:
                formulas[place] = expression
        reads = {place: [it for it in names(expression) if it in formulas] for place, expression in formulas.items()}
        # a cell is circular where a circle of reads is reached from it: take away, again and again, the cells whose
        # formula cells were all taken away
        left, changed = dict(reads), True
        while changed:
            free = [place for place, cells in left.items() if not any(it in left for it in cells)]
            changed = bool(free)
            for place in free:
                del left[place]
        values = {place: CIRC for place in left}

        def look(place):
            if place not in formulas:
                return read_plain(raws.get(place, ""))
            if place not in values:
                values[place] = value_of(formulas[place], look)
            return values[place]

        shown = {}
        for place, raw in raws.items():
            if place in formulas:
                value = look(place)
                shown[place] = "0" if value is None else str(value)
            else:
                shown[place] = raw
        self.kept[part] = (raws, shown)
        return shown

    def shown(self, at):
        return self.shows(at[0]).get(at[1:], "")

    def set(self, at, raw):
        """Sets a raw text, and gives the places of the part that show another text."""
        before = self.shows(at[0])
        if raw:
            self.raws[at] = raw
        else:
            self.raws.pop(at, None)
        after = self.shows(at[0])
        return [it for it in sorted(before.keys() | after.keys()) if before.get(it, "") != after.get(it, "")]

    def readers(self, at):
        """The places of its part whose formula names the cell."""
        formulas = {it: read_formula(raw) for it, raw in self.raws.items() if it[0] == at[0]}
        return sorted(it[1:] for it, expression in formulas.items() if expression and at[1:] in names(expression))

    def text(self):
        lines = ["coolsheet 1", f"parts {self.parts}"]
        for (part, row, col), raw in sorted(self.raws.items()):
            lines.append(f"{part} {column_name(col)}{row + 1} {raw}")
        return ("\n".join(lines) + "\n").encode()


def is_raw(raw):
    return len(raw.encode()) <= MAX_RAW and not any(ord(it) < 32 or ord(it) == 127 for it in raw)


def utf8(line):
    try:
        return line.decode()
    except UnicodeDecodeError:
        return None


def cell_line(line, parts):
    """The cell and the raw text of a line of a file, else None."""
    words = (utf8(line) or "").split(" ", 2)
    if len(words) < 3 or not re.fullmatch("0|[1-9][0-9]*", words[0]) or int(words[0]) >= parts:
        return None
    place = read_ref(words[1])
    if place is None or words[1] != words[1].upper() or words[2] == "" or not is_raw(words[2]):
        return None
    return (int(words[0]), *place), words[2]


def read_book(file):
    """The book that the bytes say, or the name of the first fault."""
    if len(file) > MAX_FILE:
        return "TooLarge"
    if not file:
        return Book(1)
    lines = file.split(b"\n")
    ended, rest = lines[:-1], lines[-1]
    if (ended + [rest])[0] != b"coolsheet 1":
        return "NoHeader"
    if not ended:
        return "BadLine(1)"
    if len(ended) < 2:
        return "BadLine(2)"
    found = re.fullmatch(rb"parts ([1-9][0-9]?)", ended[1])
    if not found or int(found[1]) > 16:
        return "BadLine(2)"
    book, before = Book(int(found[1])), None
    for number, line in enumerate(ended[2:], 3):
        cell = cell_line(line, book.parts)
        if cell is None:
            return f"BadLine({number})"
        if before is not None and cell[0] <= before:
            return f"OutOfOrder({number})"
        before = cell[0]
        book.raws[cell[0]] = cell[1]
    if rest:
        return f"BadLine({len(ended) + 1})"
    return book


# The cases of the program sheet_readings

def number_31(text):
    return int(text) if re.fullmatch("[0-9]{1,10}", text) and int(text) < 2**31 else 2**32 - 1


def cell_of(text):
    """The cell of `<part> <name>` and the text behind it, else None."""
    words = text.split(" ", 2)
    if len(words) < 2 or (place := read_ref(words[1])) is None:
        return None
    return (number_31(words[0]), *place), words[2] if len(words) > 2 else ""


class Desk:
    def __init__(self, out):
        self.out = out
        self.book = Book(1)

    def say(self, text):
        self.out.write(f"  {text}\n".encode())

    def written(self):
        text = self.book.text()
        if len(text) > MAX_FILE:
            return self.say("too long")
        self.say(f"{len(text)} bytes")
        self.out.write(text)

    def formula(self, raw, row):
        expression = read_formula(raw)
        if expression is None:
            return self.say("none")
        value = value_of(expression, lambda place: 7 if place[0] == row else None)
        if isinstance(value, Fault):
            said = str(value)
        elif value is None:
            said = "empty"
        else:
            said = f"text [{value}]" if isinstance(value, str) else f"number {value}"
        self.say(" ".join([said, *(f"{row},{col}" for row, col in sorted(names(expression)))]))

    def answer(self, line):
        word, _, rest = line.partition(" ")
        if word == "name":
            place = read_ref(rest)
            self.say("none" if place is None else f"{place[0]},{place[1]}")
        elif word == "plain":
            value = read_plain(rest)
            self.say("empty" if value is None else "text" if isinstance(value, str) else f"number {value}")
        elif word in ("formula", "seven"):
            self.formula(rest, 0 if word == "seven" else ROWS)
        elif word == "nested":
            depth, _, signs = rest.partition(" ")
            opening, _, closing = signs.partition(" ")
            depth = min(number_31(depth), 100)
            self.formula("=" + opening * depth + "1" + closing * depth, ROWS)
        elif word == "texts":
            self.texts([cell_of(it) for it in (rest.split("|", 3) + [""] * 3)[:4]])
        elif word == "book":
            if not 1 <= number_31(rest) <= 16:
                return self.say("no book")
            self.book = Book(number_31(rest))
            self.say(f"{self.book.parts} parts, {len(self.book.text())} bytes")
        elif word in ("set", "show", "readers"):
            self.of_book(word, cell_of(rest))
        elif word == "written":
            self.written()
        elif word == "draft":
            parts, *cells = rest.split("|")
            if not 1 <= number_31(parts) <= 16:
                return self.say("no draft")
            self.book = Book(number_31(parts))
            for cell in map(cell_of, cells[:64]):
                if cell and cell[0][0] < self.book.parts and is_raw(cell[1]):
                    self.book.set(*cell)
            self.written()
        elif word == "file":
            self.read(unquote_to_bytes(rest))
        elif word == "sized":
            file = b"coolsheet 1\nparts 1\n0 A1 " + b"x" * min(number_31(rest), 3_000_000) + b"\n"
            self.say(f"of {len(file)} bytes")
            book = read_book(file)
            if isinstance(book, str):
                return self.say(book)
            self.book = book
        else:
            self.say("no such case")

    def texts(self, four):
        cells = {}
        four = [it if it and it[0][0] < 16 else None for it in four]
        look = lambda it: self.say(f"[{cells.get(it[0], '')}]" if it else "no cell")
        for number, it in enumerate(four):
            if it and not is_raw(it[1]):
                self.say("no raw text")
            else:
                if it:
                    cells[it[0]] = it[1]
                look(it)
            if number % 2:
                look(four[number - 1])
        look(four[0])
        look(four[1])

    def of_book(self, word, cell):
        if cell is None or word != "set" and cell[0][0] >= self.book.parts:
            return self.say("no cell")
        at, raw = cell
        if word == "show":
            return self.say(f"[{self.book.shown(at)}] [{self.book.raws.get(at, '')}]")
        if word == "readers":
            places = self.book.readers(at)
            return self.say(" ".join([str(len(places)), *(f"{row},{col}" for row, col in places)]))
        if at[0] >= self.book.parts or not is_raw(raw):
            return self.say("no cell or no raw text")
        for place in self.book.set(at, raw):
            self.say(f"{at[0]}/{place[0]},{place[1]} [{self.book.shown((at[0], *place))}]")
        length = len(self.book.text())
        self.say(f"{length} {length}")

    def read(self, file):
        book = read_book(file)
        if isinstance(book, str):
            return self.say(book)
        self.book = book
        self.say(f"{book.parts} parts")
        self.written()


def main():
    desk = Desk(sys.stdout.buffer)
    for line in sys.stdin.buffer.read().decode().split("\n"):
        if line and not line.startswith("#"):
            desk.out.write(f"{line}\n".encode())
            desk.answer(line)


if __name__ == "__main__":
    main()
