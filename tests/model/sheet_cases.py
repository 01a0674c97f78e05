#!/usr/bin/env python3
"""Cases for the program sheet_readings, from a number: sheet_cases.py NUMBER writes them to standard output.

They are random but hostile: names at the edges, numbers at 64 bits, formulas that are nearly none, blanks
everywhere, circles, edits behind edits, and files with one thing wrong. tests/model/sheet_engine.py answers them:

    tests/model/sheet_cases.py 7 > cases; tests/model/sheet_engine.py < cases > wanted
"""
import random
import sys
from urllib.parse import quote_from_bytes

EDGES = ["0", "1", "7", "9223372036854775807", "9223372036854775808", "0000000000000000001", "00000000000000000001"]
PLAINS = ["", "-", "-0", "+1", "1 ", " 1", "1.5", "-9223372036854775808", "-9223372036854775809", "x", "\u20ac", "--1"]


def name(draw, near):
    letters = draw.choice(["A", "b", "Z", "AA", "iV", "IW", "ZZ", "AAA", ""] if near else ["A", "B", "C", "a", "b"])
    digits = draw.choice(["1", "2", "9", "10", "4096", "4097", "0", "01", "", "99999"] if near else ["1", "2", "3", "4"])
    return letters + digits


def formula(draw, depth, near):
    """A text that is a formula, or nearly one."""
    blank = lambda: draw.choice(["", "", "", "", " ", "  "])
    inner = lambda: formula(draw, depth - 1, near)
    if near and draw.random() < 0.03:
        return draw.choice(["", ",", "(", ")", "1 2", "A1:B2", "<", "\"", "SUM", "\t", "+1", "=", "A 1", "IF(1,2)"])
    kinds = ["number", "cell", "cell", "text"] + (["op", "op", "minus", "call", "compare", "if", "bracket"] if depth else [])
    kind = draw.choice(kinds)
    if kind == "number":
        made = draw.choice(EDGES if near else ["0", "1", "2", "30", "9223372036854775807"])
    elif kind == "cell":
        made = name(draw, near and draw.random() < 0.3)
    elif kind == "text":
        made = draw.choice(['""', '"a"', '"b"', '"a""b"', '"\u00e9 "', '"ab"'])
    elif kind == "op":
        made = inner() + blank() + draw.choice("+-*/") + blank() + inner()
    elif kind == "minus":
        made = "-" + blank() + inner()
    elif kind == "compare":
        made = "(" + inner() + blank() + draw.choice(["=", "<>", "<", ">", "<=", ">="]) + blank() + inner() + ")"
    elif kind == "if":
        made = draw.choice(["IF", "if", "iF"]) + blank() + "(" + ",".join(inner() for _ in range(3)) + ")"
    elif kind == "bracket":
        made = "(" + inner() + ")"
    else:
        arguments = [name(draw, False) + blank() + ":" + blank() + name(draw, False) if draw.random() < 0.5 else inner()
                     for _ in range(draw.randint(1, 3))]
        made = draw.choice(["SUM", "min", "Max", "COUNT", "count"]) + "(" + ",".join(arguments) + ")"
    return blank() + made + blank()


def file(draw):
    """The bytes of a file in which at most one thing is wrong."""
    parts = draw.choice([1, 1, 2, 3, 10, 16])
    cells = {(draw.randrange(parts), draw.choice([0, 1, 9, 4095]), draw.choice([0, 1, 25, 26, 255])): draw.choice(
        ["x", " x ", "=A1", "=1+", "7", "\u20ac", "a b"]) for _ in range(draw.randint(0, 5))}
    columns = {0: "A", 1: "B", 25: "Z", 26: "AA", 255: "IV"}
    lines = [b"coolsheet 1", b"parts %d" % parts]
    lines += [f"{part} {columns[col]}{row + 1} {raw}".encode() for (part, row, col), raw in sorted(cells.items())]
    fault = draw.randrange(12)
    at = draw.randrange(len(lines))
    if fault == 0 and len(lines) > 3:
        lines[-1], lines[-2] = lines[-2], lines[-1]
    elif fault == 1 and len(lines) > 2:
        lines.append(lines[-1])
    elif fault == 2:
        lines[at] = lines[at].replace(b" ", b"  ", 1)
    elif fault == 3:
        lines[at] = lines[at] + draw.choice([b"\r", b" ", b"\x7f", b"\xc3", b"\xe2\x82"])
    elif fault == 4:
        lines[at] = lines[at].lower()
    elif fault == 5:
        lines[at] = b""
    elif fault == 6:
        del lines[at]
    elif fault == 7:
        lines[at] = draw.choice([b" ", b"0", b"+"]) + lines[at]
    whole = b"\n".join(lines) + b"\n"
    return whole[:draw.randrange(len(whole))] if fault == 8 else whole[:-1] if fault == 9 else whole


def main():
    number = sys.argv[1] if len(sys.argv) > 1 else "1"
    draw = random.Random(f"sheet {number}")
    say = lambda text: sys.stdout.buffer.write(f"{text}\n".encode())
    say(f"# The cases that tests/model/sheet_cases.py {number} draws.")
    for _ in range(30):
        say(f"name {name(draw, True)}")
    for _ in range(20):
        say(f"plain {draw.choice(['', '-'])}{draw.choice(EDGES + PLAINS)}")
    for _ in range(100):
        say(f"{draw.choice(['formula', 'seven'])} {draw.choice(['=', '=', '=', '=', '=', ' =', ''])}{formula(draw, 3, True)}")
    for _ in range(8):
        say(f"book {draw.choice([1, 1, 2])}")
        for _ in range(draw.randint(8, 20)):
            raw = draw.choice(["", "5", "-3", "x", "9223372036854775807"]) if draw.random() < 0.4 else "=" + formula(draw, 2, False)
            say(f"set 0 {name(draw, False)} {raw}")
        say("written")
    for _ in range(80):
        say(f"file {quote_from_bytes(file(draw), safe=' =+')}")


if __name__ == "__main__":
    main()
