#!/usr/bin/env python3
"""What must come of crates/cache_readings/stdin, from the pages on tiles alone: keys are numbered along
their runs, and the bytes of each part are found pixel by pixel.

    tests/model/groups.py < crates/cache_readings/stdin > crates/cache_readings/stdout
"""
import sys


def is_key(key):
    part, width, height, x, y, across, down, look = key
    sides = ((width, across, x), (height, down, y))
    return all(
        1 <= pixels <= 256 and 15 <= twips <= 61440 and place <= 2147483647 and place % twips == 0
        for pixels, twips, place in sides
    )


def order(key):
    part, width, height, x, y, across, down, look = key
    return (part, y, x, width, height, across, down, look)


def groups(keys):
    keys = sorted(set(keys), key=order)
    found, run = [], 0
    for at, key in enumerate(keys):
        before = keys[at - 1] if at else None
        beside = before is not None and key == before[:3] + (before[3] + before[5],) + before[4:]
        run = run + 1 if beside else 0
        if run % 8 == 0:
            found.append([])
        found[-1].append(key)
    return found


def show_groups(numbers):
    keys = [tuple(numbers[i : i + 8]) for i in range(0, len(numbers) // 8 * 8, 8)]
    keys = [key[:7] + (1 if key[7] == 1 else 0,) for key in keys if is_key(key)]
    for group in groups(keys):
        part, width, height, x, y, across, down, look = group[0]
        wide, long = sum(k[1] for k in group), sum(k[5] for k in group)
        print(f"  {len(group)}: {part} {wide} {height} {x} {y} {long} {down} {look}")


def show_cut(numbers):
    if len(numbers) != 3:
        return
    width, height, count = numbers
    count = min(count, 64)
    if not is_key((0, width, height, 0, 480, 240, 240, 0)):
        return
    while count > 0:
        keys = min(count, 8)
        count -= keys
        line = keys * width
        for key in range(keys):
            total, place = 0, 0
            for row in range(height):
                for column in range(width):
                    for byte in range(4):
                        value = (4 * (row * line + key * width + column) + byte) % 251
                        place += 1
                        total += place * value
            print(f"  {width} {height} {total % 2**32}")


for line in sys.stdin.read().splitlines():
    print(line)
    form, *words = line.split(" ")
    numbers = [int(w) for w in words if w.isdigit() and int(w) < 2**32]
    if form == "combine":
        show_groups(numbers)
    if form == "cut":
        show_cut(numbers)
