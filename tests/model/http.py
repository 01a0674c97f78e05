#!/usr/bin/env python3
"""An independent model of the HTTP that crates/http_readings drives.

    python3 tests/model/http.py cases >crates/http_readings/stdin
    python3 tests/model/http.py <crates/http_readings/stdin >crates/http_readings/stdout

It reads a message byte by byte by the grammar of RFC 9112 as docs/storage.md narrows it, and shares
nothing with the crates but the form of the lines.
"""
import re
import sys

HEAD, BODY, LINE, LINES, FRAMING = 16384, 67108864, 16384, 64, 67108864
TOKEN = set(b"!#$%&'*+-.^_`|~0123456789ABCDEFGHIJKLMNOPQRSTUVWXYZabcdefghijklmnopqrstuvwxyz")
VALUE = {9} | set(range(32, 127)) | set(range(128, 256))
HEX = set(b'0123456789abcdefABCDEF')


def unescape(text):
    out, parts = bytearray(), text.encode().split(b'\\')
    out += parts[0]
    for part in parts[1:]:
        if part[:1] == b'x':
            out.append(int(part[1:3], 16))
            out += part[3:]
        elif part[:1] == b'*':
            count, rest = part[1:].split(b'.', 1)
            out += rest[:1] * int(count) + rest[1:]
        else:
            out += {b'r': b'\r', b'n': b'\n', b'b': b'\\', b's': b' '}[part[:1]] + part[1:]
    return bytes(out)


def escape(data):
    def one(byte):
        named = {13: '\\r', 10: '\\n', 92: '\\b', 32: '\\s'}
        return named.get(byte) or (chr(byte) if 33 <= byte <= 126 else '\\x%02x' % byte)
    if len(data) > 400:
        return ''.join(map(one, data[:40])) + '.. %d bytes' % len(data)
    return ''.join(map(one, data))


class Fault(Exception):
    pass


class Reader:
    """The bytes of a wire that then ends."""

    def __init__(self, data):
        self.data, self.at = data, 0

    def peek(self, fault='CutOff'):
        if self.at >= len(self.data):
            raise Fault(fault)
        return self.data[self.at]

    def take(self):
        byte = self.peek()
        self.at += 1
        return byte


class Head(Reader):
    """A head, whose 16,385th byte is not looked at."""

    def peek(self):
        if self.at == HEAD:
            raise Fault('HeadTooLong')
        return super().peek()

    def wants(self, allowed):
        byte = self.take()
        if byte not in allowed:
            raise Fault('BadHead')
        return byte

    def some(self, allowed, least):
        out = bytearray()
        while len(out) < least or self.peek() in allowed:
            out.append(self.wants(allowed))
        return bytes(out)

    def line_end(self):
        if self.wants(b'\r\n') == 13:
            self.wants(b'\n')

    def blanks(self):
        while self.peek() in b'\r\n':
            self.line_end()

    def word(self, word):
        for byte in word:
            self.wants([byte])

    def lines(self):
        lines = []
        while self.peek() not in b'\r\n':
            name = self.some(TOKEN, 1)
            self.word(b':')
            value = self.some(VALUE, 0)
            self.line_end()
            lines.append((name.lower(), value.strip(b' \t')))
            if len(lines) > LINES:
                raise Fault('BadHead')
        self.line_end()
        return lines

    def request(self):
        self.blanks()
        method = self.some(TOKEN, 1)
        self.word(b' ')
        target = self.some(range(33, 127), 1)
        self.word(b' HTTP/1.')
        self.wants(b'01')
        self.line_end()
        return method, target, self.lines()

    def response(self):
        self.blanks()
        self.word(b'HTTP/1.')
        self.wants(b'01')
        self.word(b' ')
        status = int(bytes(self.wants(b'0123456789') for _ in range(3)))
        if self.peek() == 32:
            self.some(VALUE, 0)
        self.line_end()
        return status, self.lines()


def framing(lines, nothing):
    lengths = [value for name, value in lines if name == b'content-length']
    codings = [value for name, value in lines if name == b'transfer-encoding']
    if not all(re.fullmatch(rb'[0-9]{1,19}', value) for value in lengths):
        raise Fault('BadHead')
    if len(set(map(int, lengths))) > 1 or (lengths and codings) or len(codings) > 1:
        raise Fault('BadHead')
    if codings and codings[0].lower() != b'chunked':
        raise Fault('BadHead')
    return int(lengths[0]) if lengths else 'chunked' if codings else nothing


class Chunks(Reader):
    """A body in chunks."""

    def __init__(self, data):
        super().__init__(data)
        self.line, self.framing = LINE, FRAMING

    def frame(self):
        """A byte that is no content."""
        self.peek()
        if self.framing == 0:
            raise Fault('BadChunk')
        self.framing -= 1
        return self.take()

    def step(self):
        self.peek()
        if self.line == 0:
            raise Fault('BadChunk')
        self.line -= 1
        return self.frame()

    def plain(self):
        """An extension's bytes up to its line's end, as far as the limits go."""
        most = min(self.line, self.framing)
        found = re.compile(rb'[^\r\n]*').match(self.data, self.at, self.at + most)
        size = found.end() - self.at
        self.at, self.line, self.framing = found.end(), self.line - size, self.framing - size

    def size_line(self, room):
        size, digits = 0, 0
        while True:
            byte = self.step()
            if byte in HEX:
                size, digits = 16 * size + int(chr(byte), 16), digits + 1
                if size > room:
                    raise Fault('BodyTooLong')
                continue
            break
        if not digits:
            raise Fault('BadChunk')
        while byte in b' \t':
            byte = self.step()
        if byte == 59:
            self.plain()
            byte = self.step()
        if byte != 13 or self.step() != 10:
            raise Fault('BadChunk')
        return size

    def trailers(self):
        self.line = LINE
        while True:
            byte = self.step()
            if byte not in TOKEN:
                break
            while byte in TOKEN:
                byte = self.step()
            if byte != 58:
                raise Fault('BadChunk')
            byte = self.step()
            while byte in VALUE:
                byte = self.step()
            if byte == 13:
                byte = self.step()
            if byte != 10:
                raise Fault('BadChunk')
        if byte == 13:
            byte = self.step()
        if byte != 10:
            raise Fault('BadChunk')

    def body(self):
        out = bytearray()
        while True:
            self.line = LINE
            size = self.size_line(BODY - len(out))
            if size == 0:
                self.trailers()
                return bytes(out)
            piece = self.data[self.at:self.at + size]
            self.at += len(piece)
            out += piece
            if len(piece) < size:
                raise Fault('CutOff')
            for wanted in b'\r\n':
                if self.frame() != wanted:
                    raise Fault('BadChunk')


def body(how, rest):
    if how == 'chunked':
        return Chunks(rest).body()
    if how == 'open':
        how = len(rest)
    if how > BODY:
        raise Fault('BodyTooLong')
    if len(rest) < how:
        raise Fault('CutOff')
    return rest[:how]


def text(lines, name):
    for found, value in lines:
        if found == name:
            shown = all(32 <= byte <= 126 for byte in value)
            return "'%s'" % escape(value if shown else b'')
    return '-'


def said(kind, data):
    head = Head(data)
    try:
        if kind == 'request':
            method, target, lines = head.request()
            got = body(framing(lines, 0), data[head.at:])
            method = {b'GET': 'Get', b'POST': 'Post'}.get(method, 'Other')
            old = 'old' if any(name == b'x-wopi-oldlock' for name, _ in lines) else 'new'
            lock, over = text(lines, b'x-wopi-lock'), text(lines, b'x-wopi-override')
            return "%s %s %s %s %s '%s'" % (method, escape(target), lock, over, old, escape(got))
        status, lines = head.response()
        how = framing(lines, 'open')
        bodiless = 100 <= status <= 199 or status in (204, 304)
        got = body(0 if bodiless else how, data[head.at:])
        return "%d %s '%s'" % (status, text(lines, b'x-wopi-lock'), escape(got))
    except Fault as fault:
        return str(fault)


def again(kind, sent):
    return escape(sent) + '\n  ' + said(kind, sent + b'GET / HTTP/1.1\r\n\r\n')


def ask(words):
    method, host, target, lock, over, old, content = words
    content = unescape(content)
    head = b'%s %s HTTP/1.1\r\n' % (method.encode(), unescape(target))
    head += b'Host: %s\r\nConnection: close\r\n' % unescape(host)
    if method == 'POST':
        head += b'Content-Length: %d\r\n' % len(content)
    if lock != '-':
        head += b'X-WOPI-Lock: %s\r\n' % unescape(lock)
    if over != '-':
        head += b'X-WOPI-Override: %s\r\n' % unescape(over)
    if old == 'old':
        head += b'X-WOPI-OldLock: \r\n'
    return again('request', head + b'\r\n' + content)


def tell(words):
    status, lock, content = words
    status, content = int(status), unescape(content)
    bodiless = 100 <= status <= 199 or status in (204, 304)
    if bodiless and content:
        return 'no body is due'
    head = b'HTTP/1.1 %03d \r\nConnection: close\r\n' % status
    if not bodiless:
        head += b'Content-Length: %d\r\n' % len(content)
    if lock != '-':
        head += b'X-WOPI-Lock: %s\r\n' % unescape(lock)
    return again('response', head + b'\r\n' + content)


def answer(line):
    word, rest = line.split(' ', 1)
    if word in ('request', 'response'):
        return said(word, unescape(rest))
    if word == 'long':
        kind, count, tail = rest.split(' ', 2)
        head = {'request': b'POST / HTTP/1.1', 'response': b'HTTP/1.1 200 OK'}[kind]
        chunk = b'1;' + b'x' * 16378 + b'\r\nc\r\n'
        return said(kind, head + b'\r\nTransfer-Encoding: chunked\r\n\r\n' + chunk * int(count) + unescape(tail))
    if word == 'fronts':
        kind, rest = rest.split(' ', 1)
        data = unescape(rest)
        cut = sum(said(kind, data[:end]) == 'CutOff' for end in range(len(data)))
        return '%d of %d cut off' % (cut, len(data))
    return ask(rest.split(' ')) if word == 'ask' else tell(rest.split(' '))


def cases():
    """Each case of a family on a line of its own."""
    put = (r'POST /wopi/files/d/contents?access_token=t-rw HTTP/1.1\r\nHost: h\r\nContent-Length: 3'
           r'\r\nX-WOPI-Lock: cool-d\r\nX-WOPI-Override: PUT\r\n\r\n')
    post, get, ok = r'POST / HTTP/1.1\r\n', r'GET /a HTTP/1.1\r\n', r'HTTP/1.1 200 OK\r\n'
    chunked = r'Transfer-Encoding: chunked\r\n\r\n'
    yield '# Whole requests, with and without more behind them'
    for case in (get + r'Host: h\r\n\r\nmore', r'\r\nPOST /a HTTP/1.0\ncontent-LENGTH: 02\nContent-Length: 2\n\nhey',
                 r'\nGET /a HTTP/1.0\n\n', get + r'\r\nX', get + r'\r\n', put + 'abc', put + 'abcdef',
                 r'PUT /a HTTP/1.1\r\n\r\n', r'get /a HTTP/1.1\r\n\r\n', r'G!#$%&\x27*+-.^_`|~9 * HTTP/1.1\r\n\r\n',
                 r'OPTIONS * HTTP/1.0\r\n\r\n', r'GET http://h/a?b#c HTTP/1.1\r\n\r\n', r'\r\n\n\r\nGET / HTTP/1.1\r\n\r\n',
                 get + r'A:\r\nB: \x09 x \x09\r\nC:d\n\r\n', get + r'A: \xff\xe9\r\n\n'):
        yield 'request ' + case
    yield '# What the lines of a head say'
    for case in (r'x-wopi-lock:  one two \r\nX-WOPI-Lock: b\r\nX-Wopi-Override: PU\xffT\r\nX-WOPI-OLDLOCK:\r\n',
                 r'X-WOPI-Lock: a\x09b\r\n', r'X-WOPI-Lock:\r\n', r'X-WOPI-Lock: \x22\bz~\r\n', r'X-WOPI-OldLock: x\r\n',
                 r'X-WOPI-Override: LOCK\r\nX-WOPI-Override: UNLOCK\r\n', r'X-WOPI-Lockk: a\r\n', r'X-WOPI-Lock: \xc3\xa9\r\n'):
        yield 'request ' + post + case + r'\r\nrest'
        yield 'response ' + ok + case + r'\r\nrest'
    yield '# Lengths and codings'
    for case in ('Content-Length: 05', 'Content-Length: 0', r'content-length:5\r\nCONTENT-LENGTH: 05',
                 r'Content-Length: 5\r\nContent-Length: 6', r'Content-Length: 5\r\nContent-Length: 5', 'Content-Length: +5',
                 'Content-Length: -5', 'Content-Length:', 'Content-Length: 5, 5', 'Content-Length: 5;', 'Content-Length: 0x5',
                 'Content-Length: 9999999999999999999', 'Content-Length: 0000000000000000005',
                 'Content-Length: 00000000000000000005', 'Content-Length: 67108864', 'Content-Length: 67108865',
                 'Content-Length: 5 5', 'Content-Length : 5', r'Content-Length: 5\r\nContent-Length: x',
                 r'Content-Length: 5\r\nTransfer-Encoding: chunked', r'Transfer-Encoding: chunked\r\nContent-Length: 5',
                 'Transfer-Encoding: gzip', 'Transfer-Encoding: gzip, chunked', 'Transfer-Encoding: chunked, chunked',
                 'Transfer-Encoding: identity', 'Transfer-Encoding:', 'Transfer-Encoding: chunked;', 'Transfer-Encoding: xchunked',
                 r'Transfer-Encoding: chunked\r\nTransfer-Encoding: chunked', r'Transfer-Encoding: chunked\r\nTransfer-Encoding: gzip',
                 r'Transfer-Encoding: gzip\r\nTransfer-Encoding: chunked',
                 r'Transfer-Encoding: chunked\r\nA: b\r\ntransfer-encoding: CHUNKED'):
        yield 'request ' + post + case + r'\r\n\r\nhello and more'
        yield 'response ' + ok + case + r'\r\n\r\nhello and more'
    for case in ('chunked', 'Chunked', 'CHUNKED', 'cHuNkEd', r' \x09 chunked \x09'):
        yield 'request ' + post + 'Transfer-Encoding: ' + case + r'\r\n\r\n5\r\nhello\r\n0\r\n\r\nmore'
        yield 'response ' + ok + 'TRANSFER-ENCODING: ' + case + r'\r\n\r\n5\r\nhello\r\n0\r\n\r\nmore'
    yield '# Bytes that begin no head, and heads that are cut off'
    for case in (r'GET /\xff', r'GET /\x7f', r'GET /\x00', r'GET /\xc3\xa9 HTTP/1.1\r\n\r\n', r'GET /\x09a HTTP/1.1\r\n\r\n', 'GET  /a',
                 r'GET /a  HTTP/1.1\r\n', r'GET /a HTTP/1.2\r\n', 'GET /a HTTP/2.0', 'GET /a HTTP/2', 'GET /a http', r'GET /a\r\n',
                 r'GET\r\n', ' GET /a', r'\rX', r'G\xe9', r'GET /a HTTP/1.1\rX', get + ':', get + ' a: b', get + r'a b: c', get + 'a\\x00',
                 get + r'a: b\x00', get + r'a: b\x7f', get + r'a: b\rc', get + r'\rX', get + r'a: b\r\n c\r\n\r\n', get + '(a): b',
                 get + r'a\r\n', '', 'GE', r'\r\n\r', 'GET', 'GET ', 'GET /a', 'GET /a ', 'GET /a HTTP/1', get, get + r'\r', get + 'a',
                 get + 'a:', get + r'a: b\r\n', post + r'Content-Length: 5\r\nContent-Length: 6\r\n\r',
                 post + r'Content-Length: 2\r\nTransfer-Encoding: chunked\r\n', post + r'Content-Length: 2\r\n\r\nh'):
        yield 'request ' + case
    yield '# The limits of a head'
    for count in (63, 64, 65):
        lines = r'a: b\r\n' * count
        for end in (r'\r\n', '', r'a: b\r', 'a'):
            yield 'request ' + get + lines + end
            yield 'response ' + ok + lines + end
    start = len(unescape(get))
    for size in (16384, 16385):
        yield 'request ' + get + r'A: \*%d.x\r\n\r\n' % (size - start - 7)
        yield 'request ' + get + r'A: \*%d.x' % (size - start - 3)
        yield 'request ' + post + r'A: \*%d.x\r\nContent-Length: 3\r\n\r\nabc' % (size - len(unescape(post)) - 26)
        yield 'request ' + r'GET /\*%d.a' % (size - 5)
        yield 'request ' + r'\*%d.A' % size
        yield 'response ' + ok + r'A: \*%d.x\r\n\r\n' % (size - len(unescape(ok)) - 7)
        yield 'response ' + r'HTTP/1.1 200 \*%d.x' % (size - 13)
    yield '# Responses'
    for case in (ok + r'\r\nall of it', r'HTTP/1.1 200\r\nContent-Length: 3\r\n\r\nall of it', r'HTTP/1.0 200\r\n\r\n',
                 r'HTTP/1.1 204 No\r\nContent-Length: 3\r\n\r\nall', r'HTTP/1.1 204 No\r\nContent-Length: x\r\n\r\n',
                 r'HTTP/1.1 100 Go\r\n\r\nHTTP/1.1 200 OK\r\n\r\n', r'HTTP/1.1 304 X\r\nTransfer-Encoding: chunked\r\n\r\nZ',
                 r'HTTP/1.1 304 No\r\nContent-Length: 9\r\n\r\n', ok + r'Content-Length: 3\r\n\r\nal', 'HTTP/1.1 2000 OK',
                 r'HTTP/1.1 409 \xe9\r\nContent-Length: 0\r\n\r\n', 'HTTP/1.1 20', 'HTTP/2 200', r'HTTP/1.1 2x0', r'HTTP/1.1  200',
                 r'HTTP/1.1 200 \x00', r'HTTP/1.1 200 OK\rX', r'\r\nHTTP/1.1 200 \r\n\r\nx', r'HTTP/1.1 000 \r\n\r\nx', r'HTTP/1.1 999 \r\n\r\nx',
                 r'HTTP/1.1 199 \r\n\r\nx', r'HTTP/1.1 205 \r\n\r\nx', r'HTTP/1.1 409 No\r\nX-WOPI-Lock: a b\r\nX-WOPI-Lock: c\r\n\r\n',
                 r'HTTP/1.1 200\n\nx', 'http/1.1 200', ''):
        yield 'response ' + case
    yield '# Bodies in chunks'
    for case in (r'1\r\nx\r\n0\r\n\r\n', r'5\r\nhello\r\n0\r\n\r\nmore', r'0003 ;a="b"\r\nhel\r\n2\r\nlo\r\n00;x\r\nA: b\nC:\r\n\n5\r\n',
                 r'A\r\n0123456789\r\n0\r\n\r\n', r'a\r\n0123456789\r\n0\r\n\n', r'5\r\nhello\r\n0\r\n\r', r'4000000\r\nx', '4000001',
                 r'1\r\nx\r\n4000000', r'1\r\nx\r\n3ffffff\r\n', 'ffffffffffffffffffffffff', r'5\nhello\r\n0\r\n\r\n', r'\r\n', 'ZZ', 'G', ';', '-1', '0x5',
                 r'5\r\nhellox', r'5\r\nhello\rx', r'5\r\nhello\n', r'5\rx', r'5 \r\nhello\r\n0\r\n\r\n', r'5\x09 \x09\r\nhello\r\n0\r\n\r\n',
                 r'5 x', r'5;\r\nhello\r\n0\r\n\r\n', r'5;a\nb', r'5;\x00\xff\r\nhello\r\n0\r\n\r\n', r'0\r\n A: b\r\n\r\n', r'0\r\nA b: c\r\n\r\n',
                 r'0\r\nA: b\r\n\r\n', r'0\r\nA:\xff\r\n\r\n', r'0\r\nA: \x00', r'0\r\n: b', r'0\r\nA', r'0\r\nA:', r'0\r\nA: b\rX', r'0\r\n\rX', r'0\r\n', '0', '',
                 r'000000000000000000000000000005\r\nhello\r\n0\r\n\r\n', r'0;\*16379.x\r\n\r\n', r'0;\*16380.x\r\n\r\n', r'0;\*16381.x\r\n\r\n',
                 r'\*16382.0\r\n\r\n', r'\*16383.0\r\n\r\n', r'0\r\nA:\*16378.x\r\n\r\n', r'0\r\nA:\*16379.x\r\n\r\n', r'0\r\nA:\*16380.x\r\n\r\n', r'0\r\n\*16384.A', r'0\r\n\*16385.A'):
        yield 'request ' + post + chunked + case
        yield 'response ' + ok + chunked + case
    yield '# Heads alone, and messages that stop early'
    yield from (
        r'request POST / HTTP/1.1\r\nContent-Length: 05\r\n\r\n',
        r'request POST / HTTP/1.1\r\ncontent-length:5\r\nCONTENT-LENGTH: 05\r\n\r\n',
        r'request POST / HTTP/1.1\r\nContent-Length: 5\r\nContent-Length: 6\r\n\r\n',
        r'request POST / HTTP/1.1\r\nContent-Length: +5\r\n\r\n',
        r'request POST / HTTP/1.1\r\nContent-Length:\r\n\r\n',
        r'request POST / HTTP/1.1\r\nContent-Length: 9999999999999999999\r\n\r\n',
        r'request POST / HTTP/1.1\r\nContent-Length: 00000000000000000001\r\n\r\n',
        r'request POST / HTTP/1.1\r\nTransfer-Encoding: gzip, chunked\r\n\r\n',
        r'request POST / HTTP/1.1\r\nTransfer-Encoding: chunked\r\nContent-Length: 1\r\n\r\n',
        r'request POST / HTTP/1.1\r\nContent-Length: 1\r\nTransfer-Encoding: chunked\r\n\r\n',
        r'response HTTP/1.1 200 OK\r\n\r\n',
        r'response HTTP/1.1 100 Continue\r\n\r\n',
        r'response HTTP/1.1 2000\r\n',
        r'response HTTP/2 200\r\n',
        r'request POST /a HTTP/1.1\r\nTransfer-Encoding: chunked\r\n\r\n1\r\nx\r\n0\r\n\r\n',
        r'request POST /a HTTP/1.1\r\nContent-Length: 2\r\n\r\nh',
        r'request POST /a HTTP/1.1\r\nContent-Length: 2\r\n',
        r'request POST /a HTTP/1.1\r\nContent-Length: 2\r\nContent-Length: 3\r\n\r\n',
        r'request POST /a HTTP/1.1\r\nContent-Length: 2\r\nTransfer-Encoding: chunked\r\n\r\n',
        r'request POST /a HTTP/1.1\r\nContent-Length: +2\r\n\r\nhey',
        r'request POST /a HTTP/1.1\r\nTransfer-Encoding: gzip\r\n\r\n',
        r'request POST /a HTTP/1.1\r\nContent-Length: 67108865\r\n\r\n',
        r'request POST /a HTTP/1.1\r\nTransfer-Encoding: chunked\r\n\r\nG',
        r'request POST / HTTP/1.1\r\nContent-Length: 5\r\n\r\nhell',
        r'response HTTP/1.1 200 OK\r\n\r\nhello',
    )
    yield '# All framing of a body in chunks: 67,108,864 bytes of size lines, line ends and trailers'
    for case in (r'0;\*16378.x\r\n\r\nmore', r'0\r\nA:\*16376.x\r\n\r\n', r'1;\*16379.x\r\nc\r', r'1;\*16379.x\r\nc\r\n',
                 r'1;\*16371.x\r\nc\r\n3fff001', r'1;\*16372.x\r\nc\r\n3fff001'):
        yield 'long request 4095 ' + case
    yield r'long response 4095 0;\*16378.x\r\n\r\n'
    yield 'long response 4096 0'
    yield 'response ' + ok + chunked + r'1\r\nx\r\n' * 1000 + r'0\r\n\r\n'
    yield '# Each proper front of a message is cut off'
    for case in ('request ' + put + 'abc', 'request ' + get + r'Host: h\r\n\r\n', 'request ' + post + chunked + r'5;x=y\r\nhello\r\n0\r\nA: b\r\n\r\n',
                 'response ' + r'HTTP/1.1 200 OK\r\nContent-Length: 5\r\n\r\nhello', 'response ' + ok + chunked + r'5\r\nhello\r\n0\r\n\r\n',
                 r'response HTTP/1.1 304 \r\n\r\n'):
        yield 'fronts ' + case
    yield '# What is written, and read again'
    for case in ('GET h /a - - new ', 'GET b /a - - new ', r'GET h:80 /wopi/files/d?access_token=t - - new ', 'POST h /a - - new ', 'POST a:80 /wopi/files/d/contents?access_token=t cool-d PUT old abc',
                 r'POST h /wopi/files/d?access_token=t cool-d LOCK new ', r'POST h /a a\sb x\s\sy new \r\n\r\n\x00\xff', r'POST h /a \s LOCK new ', 'POST h /a  PUT new x',
                 r'POST h /a \*1024.~ PUT new \*70000.z', 'GET h /~ - GET_LOCK old ', 'POST [::1]:9980 /a - UNLOCK new \\*1000.\\x41'.replace('\\x41', 'A'),
                 r'POST h /\*16000.a x PUT new abc', r'POST h /\*16384.a x PUT new abc', 'OTHER h /a - - new '):
        yield 'ask ' + case
    for case in ('200 - ', '200 - abc', '409  ', '409 x ', r'409 a\sb ', '409  abc', '409 - abc', '204 - ', '204 - x', '304 x ', '100 - ', '199 x ', '500 - ', '501 - no', '999 x \\*5000.y', '404 - ', '401 - '):
        yield 'tell ' + case


if __name__ == '__main__':
    sys.stdout.reconfigure(newline='\n')
    if sys.argv[1:] == ['cases']:
        for case in cases():
            print(case)
    else:
        for line in sys.stdin.read().split('\n')[:-1]:
            print(line)
            if line and not line.startswith('#'):
                print('  ' + answer(line))
