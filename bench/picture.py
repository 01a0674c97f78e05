#!/usr/bin/env python3
"""Makes a picture (PNG) of what a view of a transcript was last sent: its tiles, each at its place.

    ./run replay sheet < examples/picture.script | bench/picture.py docs/sheet.png [LINK]

The tiles must have one size in pixels and twips. Where a tile was sent twice, the later one shows.
"""
import re
import struct
import sys
import zlib


def records(transcript):
    """The link and the bytes of each frame."""
    at = 0
    while at < len(transcript):
        end = transcript.index(b"\n", at)
        words = transcript[at:end].split()
        if len(words) != 2 or not words[0].isdigit():
            return
        length = int(words[1])
        yield int(words[0]), transcript[end + 1:end + 1 + length]
        at = end + length + 2


def tiles(transcript, link):
    """The pixels of the view's tiles by their place, counted in tiles, and the size of a tile."""
    found, size = {}, None
    for to, frame in records(transcript):
        line, _, pixels = frame.partition(b"\n")
        if to == link and line.startswith(b"tile: "):
            said = {name: int(value) for name, value in re.findall(r"(\w+)=(\d+)", line.decode())}
            size = said["width"], said["height"]
            found[said["tileposy"] // said["tileheight"], said["tileposx"] // said["tilewidth"]] = pixels
    return found, size


def png(width, height, rgba):
    """The bytes of a PNG of these pixels."""
    chunk = lambda kind, data: struct.pack(">I", len(data)) + kind + data + struct.pack(">I", zlib.crc32(kind + data))
    rows = b"".join(b"\0" + rgba[y * width * 4:(y + 1) * width * 4] for y in range(height))
    head = struct.pack(">IIBBBBB", width, height, 8, 6, 0, 0, 0)
    return b"\x89PNG\r\n\x1a\n" + chunk(b"IHDR", head) + chunk(b"IDAT", zlib.compress(rows, 9)) + chunk(b"IEND", b"")


def main():
    if len(sys.argv) not in (2, 3):
        sys.exit("picture.py FILE.png [LINK] < TRANSCRIPT")
    found, size = tiles(sys.stdin.buffer.read(), int(sys.argv[2]) if len(sys.argv) == 3 else 1)
    if not found:
        sys.exit("picture.py: the view was sent no tile")
    top, left = min(row for row, _ in found), min(col for _, col in found)
    rows, columns = max(row for row, _ in found) - top + 1, max(col for _, col in found) - left + 1
    width, height = columns * size[0], rows * size[1]
    rgba = bytearray(b"\xff" * (4 * width * height))
    for (row, col), pixels in found.items():
        for line in range(size[1]):
            at = 4 * (((row - top) * size[1] + line) * width + (col - left) * size[0])
            rgba[at:at + 4 * size[0]] = pixels[4 * line * size[0]:4 * (line + 1) * size[0]]
    with open(sys.argv[1], "wb") as file:
        file.write(png(width, height, bytes(rgba)))


if __name__ == "__main__":
    main()
