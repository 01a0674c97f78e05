#!/usr/bin/env python3
"""Plants faults in the data of tests and looks whether they are noticed, by the programs that `rt ci` left.

Of each program for tests that has data (crates/NAME/stdin and stdout) letters and digits of single lines of `stdin`
are changed, one at a time, until what the program then writes differs from `stdout`. Of each golden script a letter or
digit of the script is changed, or else its words, or else a line `end` is put before its first line, until the
transcript or the status differs. A program or a script of which no such change is noticed is a failure: its data would
tell nothing.

    tests/planted.py           all
    tests/planted.py NAME..    these programs and scripts

The changes are drawn from the names, so each run tries the same. The last line is 'N passed, N failed'.
"""
import os
import random
import subprocess
import sys

TOP = os.path.dirname(os.path.dirname(os.path.abspath(__file__)))
SCRIPTS = os.path.join(TOP, "tests", "scripts")
TRIES = 60


def content(path, otherwise=b""):
    """The bytes of a file, or these where there is none."""
    try:
        with open(path, "rb") as file:
            return file.read()
    except FileNotFoundError:
        return otherwise


def answer(command, data):
    """What the program writes on this standard input, and its status."""
    done = subprocess.run(command, input=data, stdout=subprocess.PIPE, stderr=subprocess.DEVNULL, timeout=60)
    return done.stdout, done.returncode


def changed(draw, data):
    """The bytes with one letter or digit of one line changed, outside comments; None where there is none."""
    places, start = [], 0
    for line in data.split(b"\n"):
        if not line.startswith(b"#"):
            places += [start + at for at, byte in enumerate(line) if chr(byte).isascii() and chr(byte).isalnum()]
        start += len(line) + 1
    if not places:
        return None
    place = draw.choice(places)
    kinds = [b"0123456789", b"abcdefghijklmnopqrstuvwxyz", b"ABCDEFGHIJKLMNOPQRSTUVWXYZ"]
    kind = next(each for each in kinds if data[place] in each)
    other = draw.choice([byte for byte in kind if byte != data[place]])
    return data[:place] + bytes([other]) + data[place + 1:]


def is_noticed(name, command, data, wanted):
    """Whether one of the changes makes another answer than the wanted one."""
    draw = random.Random(name)
    for _ in range(TRIES):
        planted = changed(draw, data)
        if planted is None:
            return False
        if answer(command, planted) != wanted:
            return True
    return False


def watch_program(name):
    """Whether faults in the data of the program for tests are noticed; None where `rt ci` left no program."""
    crate = os.path.join(TOP, "crates", name)
    program = os.path.join(crate, "out", name)
    if not os.access(program, os.X_OK):
        return None
    words = content(os.path.join(crate, "args")).decode().split()
    wanted = content(os.path.join(crate, "stdout")), 0
    return is_noticed(name, [program] + words, content(os.path.join(crate, "stdin")), wanted)


def watch_script(name):
    """The same of a golden script, whose words can be the fault too."""
    program = os.path.join(TOP, "crates", "coolwsd", "out", "coolwsd")
    if not os.access(program, os.X_OK):
        return None
    base = os.path.join(SCRIPTS, name)
    words = content(base + ".words", b"replay patch").decode().split()
    wanted = content(base + ".transcript"), int(content(base + ".status", b"0"))
    script = content(base + ".script")
    if is_noticed(name, [program] + words, script, wanted):
        return True
    others = ["replay", "sheet"] if words == ["replay", "patch"] else ["replay", "patch"]
    return answer([program] + others, script) != wanted or answer([program] + words, b"end\n" + script) != wanted


def main(names):
    crates = sorted(os.listdir(os.path.join(TOP, "crates")))
    programs = [name for name in crates if os.path.exists(os.path.join(TOP, "crates", name, "stdout"))
                and content(os.path.join(TOP, "crates", name, "stdin"))]
    scripts = sorted(name[:-len(".script")] for name in os.listdir(SCRIPTS) if name.endswith(".script"))
    passed, failed, missing = 0, 0, []
    for name, watch in [(name, watch_program) for name in programs] + [(name, watch_script) for name in scripts]:
        if names and name not in names:
            continue
        noticed = watch(name)
        if noticed is None:
            missing.append(name)
        elif noticed:
            passed += 1
        else:
            failed += 1
            print(f"{name}: no planted fault is noticed")
    if missing:
        print(f"skipped: faults planted in the data of {len(missing)} tests whose program rt ci didn't leave")
    print(f"{passed} passed, {failed} failed")
    return failed != 0


if __name__ == "__main__":
    sys.exit(main(sys.argv[1:]))
