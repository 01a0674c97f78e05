#!/usr/bin/env python3
"""What the words of `serve` and `host` say: a model of its own, written from docs/claims/server_words.md.

    tests/model/commands.py < crates/command_readings/stdin > crates/command_readings/stdout
"""

import sys


def number(limit, text):
    """Decimal digits without a sign or a leading zero, with a value of at most `limit`."""
    digits = 1 <= len(text) <= 20 and all(c in "0123456789" for c in text)
    if not digits or (len(text) > 1 and text[0] == "0") or int(text) > limit:
        return None
    return int(text)


def values(words, needed, optional):
    """The value of each option, or None where the words are no such command's."""
    said, left = {}, list(words)
    while left:
        name, has_value, value = left.pop(0).partition("=")
        if name == "--" and not has_value:
            if left:
                return None
            continue
        if name[2:] not in needed + optional or name[:2] != "--" or name[2:] in said:
            return None
        if not has_value:
            if not left or left[0].startswith("-"):
                return None
            value = left.pop(0)
        said[name[2:]] = value
    return said if all(name in said for name in needed) else None


def address(text):
    """The name before the last colon, and the port behind it."""
    host, colon, port = text.rpartition(":")
    visible = host and all(33 <= byte <= 126 for byte in host.encode())
    digits = 1 <= len(port) <= 5 and all(c in "0123456789" for c in port)
    return (host, int(port)) if colon and visible and digits and int(port) <= 65_535 else None


def serve(words):
    said = values(words, ["port", "wopi"], ["polls", "workers", "sessions", "kit"])
    if said is None:
        return None
    port, wopi = number(65_535, said["port"]), address(said["wopi"])
    polls = number(8, said.get("polls", "2"))
    workers = number(16, said.get("workers", "2"))
    sessions = number(2**32 - 1, said.get("sessions", "0"))
    kit = said.get("kit", "sheet")
    if None in (port, wopi, polls, workers, sessions) or polls == 0 or kit not in ("sheet", "patch"):
        return None
    return [
        f"  port {port}",
        f"  host {wopi[0]} port {wopi[1]} of {said['wopi']}",
        f"  polls {polls} workers {workers}",
        f"  sessions {sessions} kit {kit}",
    ]


def host(words):
    said = values(words, ["port", "folder"], ["requests"])
    if said is None:
        return None
    port, requests = number(65_535, said["port"]), number(2**32 - 1, said.get("requests", "0"))
    if None in (port, requests):
        return None
    return [f"  port {port} folder {said['folder']}", f"  requests {requests}"]


def main():
    for line in sys.stdin.read().splitlines():
        command, *words = line.split(" ")
        said = serve(words) if command == "serve" else host(words)
        print("\n".join([line] + (["  refused"] if said is None else said)))


main()
