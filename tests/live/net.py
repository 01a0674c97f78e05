"""Clients of `net_echo`, over sockets. The frames are written and read here, from the protocol alone."""
import base64
import hashlib
import os
import socket
import struct
import subprocess
import sys
import time

GUID = b"258EAFA5-E914-47DA-95CA-C5AB0DC85B11"
failed = []


def check(what, got, wanted):
    if got != wanted:
        failed.append(what)
        print(f"live net: FAILED: {what}: wanted {wanted!r}, got {got!r}")


def free_port():
    with socket.socket() as listener:
        listener.bind(("127.0.0.1", 0))
        return listener.getsockname()[1]


def connect(port):
    for _ in range(200):
        try:
            client = socket.create_connection(("127.0.0.1", port), timeout=20)
            client.settimeout(20)
            return client
        except ConnectionRefusedError:
            time.sleep(0.05)
    raise SystemExit("live net: the program doesn't listen")


def request(key, method="GET", version="13", upgrade="websocket"):
    return (
        f"{method} /cool HTTP/1.1\r\nHost: localhost\r\nUpgrade: {upgrade}\r\nConnection: keep-alive, Upgrade\r\n"
        f"Sec-WebSocket-Version: {version}\r\nSec-WebSocket-Key: {key}\r\n\r\n"
    ).encode()


def head(client):
    got = b""
    while not got.endswith(b"\r\n\r\n"):
        piece = client.recv(1)
        if not piece:
            break
        got += piece
    return got


def opened(port, pieces=None):
    client = connect(port)
    key = base64.b64encode(os.urandom(16)).decode()
    sent = request(key)
    step = pieces or len(sent)
    for at in range(0, len(sent), step):
        client.sendall(sent[at : at + step])
        if pieces:
            time.sleep(0.01)
    accept = base64.b64encode(hashlib.sha1(key.encode() + GUID).digest())
    answer = head(client)
    check("the status of a handshake", answer.split(b"\r\n")[0], b"HTTP/1.1 101 Switching Protocols")
    check("the accepted key", b"Sec-WebSocket-Accept: " + accept in answer.split(b"\r\n"), True)
    return client


def frame(first, payload, masked=True):
    size = len(payload)
    bit = 0x80 if masked else 0
    if size < 126:
        line = struct.pack("!BB", first, bit | size)
    elif size < 65536:
        line = struct.pack("!BBH", first, bit | 126, size)
    else:
        line = struct.pack("!BBQ", first, bit | 127, size)
    if not masked:
        return line + payload
    mask = os.urandom(4)
    spread = (mask * (size // 4 + 1))[:size]
    hidden = (int.from_bytes(payload, "big") ^ int.from_bytes(spread, "big")).to_bytes(size, "big")
    return line + mask + hidden


def exactly(client, size):
    got = bytearray()
    while len(got) < size:
        piece = client.recv(min(65536, size - len(got)))
        if not piece:
            return None
        got += piece
    return bytes(got)


def hear(client):
    """The next frame: its first byte and its payload; None at the end."""
    try:
        line = exactly(client, 2)
        if line is None:
            return None
        size = line[1] & 127
        if size == 126:
            size = struct.unpack("!H", exactly(client, 2))[0]
        elif size == 127:
            size = struct.unpack("!Q", exactly(client, 8))[0]
        return line[0], exactly(client, size)
    except ConnectionResetError:
        return None


def is_ended(client):
    while True:
        heard = hear(client)
        if heard is None:
            return True
        if heard[0] != 0x88:
            return False


def echoes(client, text):
    client.sendall(frame(0x81, text))
    return hear(client)


def refused(port, sent, status):
    client = connect(port)
    client.sendall(sent)
    check(f"the status {status}", head(client).split(b" ")[1:2], [status])
    client.close()


def handshakes(port):
    key = base64.b64encode(bytes(16)).decode()
    refused(port, request(key, method="POST"), b"405")
    refused(port, request(key, version="8"), b"426")
    refused(port, request(key, upgrade="h2c"), b"426")
    refused(port, request("short"), b"400")
    refused(port, b"\x16\x03\x01 hello\r\n\r\n", b"400")
    refused(port, b"GET / HTTP/1.1\r\n" + b"A: " + b"b" * 17000, b"431")
    client = opened(port, pieces=40)
    check("a handshake in pieces", echoes(client, b"one"), (0x81, b"one"))
    early = connect(port)
    early.sendall(request(key) + frame(0x81, b"early"))
    head(early)
    check("a message behind the request", hear(early), (0x81, b"early"))
    early.close()
    return client


def messages(client):
    check("an empty message", echoes(client, b""), (0x81, b""))
    check("a message of 126 bytes", echoes(client, b"a" * 126), (0x81, b"a" * 126))
    check("a message of 65,536 bytes", echoes(client, b"b" * 65536), (0x81, b"b" * 65536))
    check("the largest message", echoes(client, b"c" * 1048576), (0x81, b"c" * 1048576))
    client.sendall(frame(0x82, b"tile: \xff"))
    check("a tile is sent as bytes", hear(client), (0x82, b"tile: \xff"))
    client.sendall(frame(0x82, b"status: x"))
    check("another frame is sent as text", hear(client), (0x81, b"status: x"))
    client.sendall(frame(0x89, b"ping"))
    check("a ping is answered", hear(client), (0x8A, b"ping"))
    client.sendall(frame(0x01, b"fr") + frame(0x89, b"p") + frame(0x00, b"ag") + frame(0x80, b"ments"))
    check("a ping between fragments", hear(client), (0x8A, b"p"))
    check("fragments", hear(client), (0x81, b"fragments"))
    check("a link that moves", echoes(client, b"move"), (0x81, b"moved"))
    check("a link that moved", echoes(client, b"again"), (0x81, b"again"))
    client.sendall(frame(0x88, struct.pack("!H", 1000)))
    check("a close handshake", hear(client), (0x88, struct.pack("!H", 1000)))
    check("the end behind it", hear(client), None)


def hostile(port):
    breaks = {
        "a message over the limit": frame(0x82, b"d" * 1048577),
        "a message of 2 MiB": frame(0x82, b"d" * 2097152),
        "a frame without a mask": frame(0x81, b"bare", masked=False),
        "text that isn't UTF-8": frame(0x81, b"\xff\xfe"),
        "a fragment of nothing": frame(0x80, b"lost"),
        "an unknown kind": frame(0x83, b""),
        "a long ping": frame(0x89, b"e" * 126),
    }
    for what, sent in breaks.items():
        client = opened(port)
        try:
            client.sendall(sent)
        except (BrokenPipeError, ConnectionResetError):
            pass
        check(f"{what} ends the link", is_ended(client), True)
        client.close()


def late_reader(port):
    slow, other = opened(port), opened(port)
    slow.sendall(frame(0x81, b"flood"))
    time.sleep(0.5)
    check("another link beside a late reader", echoes(other, b"here"), (0x81, b"here"))
    sizes = [len(hear(slow)[1]) for _ in range(64)]
    check("all that waited for a late reader", sizes, [262144] * 64)
    check("a late reader goes on", echoes(slow, b"now"), (0x81, b"now"))
    never = opened(port)
    never.sendall(frame(0x81, b"flood") + frame(0x81, b"flood") + frame(0x81, b"flood"))
    time.sleep(0.5)
    check("another link beside one that never reads", echoes(other, b"still"), (0x81, b"still"))
    for client in (slow, other, never):
        client.close()


def silent(port):
    quiet, half = connect(port), connect(port)
    half.sendall(b"GET / HTTP/1.1\r\nHost: x\r\n")
    beginning = time.monotonic()
    check("a silent peer is cut off", quiet.recv(1), b"")
    check("half a handshake is cut off", half.recv(1), b"")
    took = time.monotonic() - beginning
    check("ten seconds, and not much more on a busy machine", 9.5 < took < 20 or took, True)


def main():
    port = free_port()
    program = subprocess.Popen([sys.argv[1], str(port), "0", "100000000"], stdout=subprocess.DEVNULL)
    try:
        client = handshakes(port)
        messages(client)
        hostile(port)
        late_reader(port)
        silent(port)
        client = opened(port)
        check("the program goes on", echoes(client, b"end"), (0x81, b"end"))
    finally:
        program.kill()
        program.wait()
    if failed:
        sys.exit(1)
    print("live net: passed")


main()
