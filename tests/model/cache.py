#!/usr/bin/env python3
"""What must come of crates/tile_readings/stdin, from docs/claims/tile_cache.md and its definitions.

    tests/model/cache.py < crates/tile_readings/stdin > crates/tile_readings/stdout
"""
import sys

LIMIT = 2147483647


class Cache:
    def __init__(self):
        self.tiles = []  # [key, number, ticket, place, is_met], the most recently used first
        self.jobs = {}  # ticket: [number, [[key, is_met], ..]]
        self.next = 1

    def current(self, key):
        found = [tile for tile in self.tiles if tile[0] == key and not tile[4]]
        return found[0] if found else None

    def is_out(self, key):
        return any(key == own for _, keys in self.jobs.values() for own, _ in keys)

    def use(self, tile):
        self.tiles = [tile] + [other for other in self.tiles if other[0] != tile[0]]


def meets(part, x, y, w, h, key):
    """Whether the rectangle has a point of the key: the key fills 15 columns and the rows 0 to 14."""
    left = key % 1000 * 15
    columns = range(max(x, left), min(x + w, left + 15))
    rows = range(max(y, 0), min(y + h, 15))
    return key // 1000 == part and len(columns) > 0 and len(rows) > 0


def groups(keys):
    found = []
    for key in sorted(set(keys)):
        beside = found and key == found[-1][-1] + 1 and key % 1000 != 0
        if beside and len(found[-1]) < 8:
            found[-1].append(key)
        else:
            found.append([key])
    return found


def job(cache, numbers):
    for keys in groups(numbers[1:]):
        if any(cache.current(key) or cache.is_out(key) for key in keys):
            print("  not free")
            continue
        cache.jobs[cache.next] = [numbers[0] if numbers else 0, [[key, False] for key in keys]]
        print(f"  ticket {cache.next}")
        cache.next += 1


def finish(cache, ticket):
    if ticket not in cache.jobs:
        print("  stranger")
        return
    number, keys = cache.jobs.pop(ticket)
    for place, (key, is_met) in enumerate(keys):
        if not is_met:
            cache.use([key, number, ticket, place, False])
    cache.tiles = cache.tiles[:256]
    print("".join("  older" if is_met else "  kept" for _, is_met in keys))


def damage(cache, numbers):
    if len(numbers) != 6:
        print("  no damage")
        return
    part, x, y, w, h, n = numbers
    if max(x, y, w, h) > 1_000_000:
        print("  no rectangle")
        return
    for tile in cache.tiles:
        tile[4] = tile[4] or (tile[1] < n and meets(part, x, y, w, h, tile[0]))
    for number, keys in cache.jobs.values():
        for own in keys:
            own[1] = own[1] or (number < n and meets(part, x, y, w, h, own[0]))


def act(cache, word, numbers):
    first = numbers[0] if numbers else 0
    if word == "job":
        job(cache, numbers)
    elif word == "finish":
        finish(cache, first)
    elif word == "damage":
        damage(cache, numbers)
    elif word == "current":
        tile = cache.current(first)
        if tile:
            cache.use(tile)
            print(f"  {tile[1]}: {tile[2] % 256} {tile[3]} 0 255")
        else:
            print("  none")
    elif word == "is":
        print("  true" if cache.current(first) else "  false")
    elif word == "out":
        print("  true" if cache.is_out(first) else "  false")
    elif word == "jobs":
        print(f"  {len(cache.jobs)}")


cache = Cache()
for line in sys.stdin.read().splitlines():
    print(line)
    if line == "begin":
        cache = Cache()
        continue
    word, *words = line.split(" ")
    act(cache, word, [int(w) for w in words if w.isdigit() and len(w) <= 10 and int(w) <= LIMIT])
