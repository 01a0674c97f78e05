#!/usr/bin/env bash
# Runs `coolwsd host` over a folder and real sockets: with curl a file is asked about, read, locked, put and unlocked;
# the program is killed in the middle of puts; peers that say nothing, too little or nonsense, or that hang up, get
# their answer or none, and the next request is answered.
# The program is the first of those in COOLWSD, paths that blanks divide, else the one that `rt ci` left in
# crates/coolwsd/out. Without curl or python3 it is skipped. It takes about 32 seconds, of which 26 wait for limits.
set -u
top="$(cd "$(dirname "$0")/../.." && pwd)"
for needed in curl python3; do
    if ! command -v "$needed" > /dev/null; then
        echo "live host: skipped, $needed is missing"
        exit 77
    fi
done
read -r program _ <<< "${COOLWSD:-$top/crates/coolwsd/out/coolwsd}"
if [ ! -x "$program" ]; then
    echo "live host: there is no program ${program##*/}: run rt ci first"
    exit 1
fi
work="$(mktemp -d)" || exit 1
host=""
trap '' PIPE
trap '[ -n "$host" ] && kill "$host" 2> /dev/null; rm -rf "$work"' EXIT
port="$(python3 -c 'import socket; s = socket.socket(); s.bind(("127.0.0.1", 0)); print(s.getsockname()[1])')"
at="http://127.0.0.1:$port/wopi/files"
failed=0

fail() { echo "live host: FAILED: $1"; failed=1; }
is() { [ "$2" = "$3" ] || fail "$1: wanted '$3', got '$2'"; }
# The status of a request; its body stands in $work/body, its lines in $work/lines.
status() { curl -s -o "$work/body" -D "$work/lines" -w '%{http_code}' --max-time 60 "$@"; }
get() { status "$at/$1?access_token=t-rw"; }
post() { local file="$1" over="$2"; shift 2; status -X POST -H "X-WOPI-Override: $over" "$@" "$at/$file?access_token=t-rw"; }
# The lock that the last response told, in brackets.
told_lock() { tr -d '\r' < "$work/lines" | sed -n 's/^[Xx]-[Ww][Oo][Pp][Ii]-[Ll]ock: *\(.*\)/[\1]/p'; }

# Starts the host with these words, and waits until it listens.
start() {
    "$program" host --port "$port" --folder "$work/files" "$@" 2> "$work/errors" &
    host=$!
    for _ in $(seq 200); do
        (exec 3<> "/dev/tcp/127.0.0.1/$port") 2> /dev/null && return
        sleep 0.05
    done
    fail "the host doesn't listen"
}
stop() { kill "$host" 2> /dev/null; wait "$host" 2> /dev/null; host=""; }
served() { is "$1, then a request" "$(get text)" 200; }

mkdir "$work/files"
printf 'hello' > "$work/files/text"
: > "$work/files/empty"
ln -s /etc/hostname "$work/files/link"
mkdir "$work/files/folder"
head -c 67108865 /dev/zero > "$work/files/large"
start

# What a client of any standard host does: it asks about the file, reads it, locks it, puts it, unlocks it.
is "CheckFileInfo" "$(get text)" 200
is "its members" "$(cat "$work/body")" \
    '{"BaseFileName":"text","OwnerId":"owner","Size":5,"UserCanWrite":true,"UserId":"rw","Version":"0"}'
is "GetFile" "$(get text/contents)" 200
is "its bytes" "$(cat "$work/body")" hello
is "PutFile without a lock" "$(post text/contents PUT --data-binary changed)" 409
is "the lock it is told" "$(told_lock)" "[]"
is "Lock" "$(post text LOCK -H 'X-WOPI-Lock: me')" 200
is "GetLock" "$(post text GET_LOCK)" 200
is "its lock" "$(told_lock)" "[me]"
is "Lock by another" "$(post text LOCK -H 'X-WOPI-Lock: you')" 409
is "the lock it is told" "$(told_lock)" "[me]"
is "RefreshLock" "$(post text REFRESH_LOCK -H 'X-WOPI-Lock: me')" 200
is "PutFile by another" "$(post text/contents PUT -H 'X-WOPI-Lock: you' --data-binary other)" 409
is "PutFile" "$(post text/contents PUT -H 'X-WOPI-Lock: me' --data-binary changed)" 200
is "the file in the folder" "$(cat "$work/files/text")" changed
is "what lies beside it" "$(ls "$work/files" | tr '\n' ' ')" "empty folder large link text "
is "CheckFileInfo after it" "$(get text)" 200
is "its members" "$(cat "$work/body")" \
    '{"BaseFileName":"text","OwnerId":"owner","Size":7,"UserCanWrite":true,"UserId":"rw","Version":"1"}'
is "Unlock by another" "$(post text UNLOCK -H 'X-WOPI-Lock: you')" 409
is "Unlock" "$(post text UNLOCK -H 'X-WOPI-Lock: me')" 200
is "GetLock after it" "$(post text GET_LOCK)" 200
is "its lock" "$(told_lock)" "[]"
is "Unlock again" "$(post text UNLOCK -H 'X-WOPI-Lock: me')" 409

# What is refused.
is "a file that isn't there" "$(get other)" 404
is "a name that is no file id" "$(get ..%2ftext)" 404
is "an unknown token" "$(status "$at/text?access_token=t-no")" 401
is "a lock by who may only read" "$(status -X POST -H 'X-WOPI-Override: LOCK' -H 'X-WOPI-Lock: me' "$at/text?access_token=t-ro")" 401
is "an operation that isn't there" "$(post text DELETE)" 501
is "a link" "$(get link/contents)" 500
is "a folder" "$(get folder/contents)" 500
is "a file above the limit" "$(get large/contents)" 500
for n in $(seq 100); do is "request $n of a hundred" "$(get text)" 200; done

# A body at the limit, and one above it.
head -c 67108864 /dev/zero > "$work/most"
is "64 MiB" "$(post empty/contents PUT -H 'Expect:' --data-binary "@$work/most")" 200
is "their bytes" "$(cmp "$work/most" "$work/files/empty" && echo same)" same
is "a byte more" "$(post text/contents PUT -H 'Expect:' --data-binary "@$work/files/large")" 000
served "a byte more than 64 MiB"

# Peers that say nothing, too little or nonsense. The fixed requests get nothing; drawn ones, cut and damaged at a few
# bytes, get nothing or a response. After each hundred a request is answered.
cat > "$work/peers.py" <<'PEERS'
import random, socket, struct, sys, time
port = int(sys.argv[1])
draws = random.Random(17)

def ask(data, shut=True, seconds=30):
    with socket.create_connection(("127.0.0.1", port), timeout=seconds) as wire:
        answer = b""
        try:
            wire.sendall(data)
            if shut:
                wire.shutdown(socket.SHUT_WR)
            while piece := wire.recv(65536):
                answer += piece
        except TimeoutError:
            raise
        except OSError:  # the host has hung up
            pass
        return answer

def served(what):
    answer = ask(b"GET /wopi/files/text?access_token=t-rw HTTP/1.1\r\nHost: a\r\n\r\n")
    if not answer.startswith(b"HTTP/1.1 200 "):
        print(f"{what}, then a request: got {answer[:60]!r}")
        sys.exit(1)

def nothing(what, answer):
    if answer:
        print(f"{what}: wanted nothing, got {answer[:60]!r}")
        sys.exit(1)

begin = time.monotonic()
nothing("a silent peer", ask(b"", shut=False))
served("a silent peer")
if time.monotonic() - begin > 15:
    print("a silent peer holds the host for more than 15 seconds")
    sys.exit(1)

begin = time.monotonic()
with socket.create_connection(("127.0.0.1", port)) as wire:
    try:
        while time.monotonic() - begin < 60:
            wire.sendall(b"G")
            time.sleep(1)
    except OSError:  # the host has hung up
        pass
if time.monotonic() - begin > 45:
    print("a peer of a byte a second holds the host for more than 45 seconds")
    sys.exit(1)
served("a byte a second")

put = (b"POST /wopi/files/text/contents?access_token=t-rw HTTP/1.1\r\nHost: a\r\nX-WOPI-Override: PUT\r\n"
       b"X-WOPI-Lock: me\r\nContent-Length: 9\r\n\r\nabcdefghi")
for count in range(1, len(put)):
    nothing(f"the first {count} bytes of a put", ask(put[:count]))
served("the fronts of a put")

# Peers that hang up: at once, in the middle of a request, behind one before its answer, and in the middle of an
# answer of 64 MiB; by a close, or by a reset, which loses what is still on its way.
def hang_up(data, reads, reset):
    wire = socket.create_connection(("127.0.0.1", port), timeout=30)
    try:
        wire.sendall(data)
        for _ in range(reads):
            wire.recv(1000)
    except TimeoutError:
        raise
    except OSError:  # the host has hung up
        pass
    if reset:
        wire.setsockopt(socket.SOL_SOCKET, socket.SO_LINGER, struct.pack("ii", 1, 0))
    wire.close()

long_answer = b"GET /wopi/files/empty/contents?access_token=t-rw HTTP/1.1\r\nHost: a\r\n\r\n"
for reset in (False, True):
    for data, reads in ((b"", 0), (put[:50], 0), (put[:-4], 0), (put, 0), (put, 1), (long_answer, 0), (long_answer, 9)):
        for _ in range(3):
            hang_up(data, reads, reset)
        served(f"peers that hang up behind {len(data)} bytes and {reads} pieces of an answer")

fixed = [
    b"NONSENSE\r\n\r\n", b"GET /a HTTP/2.0\r\n\r\n", b"GET /\xff HTTP/1.1\r\n\r\n", b"\x16\x03\x01\x02\r\n\r\n",
    b"\r\n\r\n\r\n\r\n\0\r\n\r\n", b"GET /a HTTP/1.1\r\nNo colon\r\n\r\n", b"GET /a b HTTP/1.1\r\n\r\n",
    b"POST /a HTTP/1.1\r\nContent-Length: 1\r\nContent-Length: 2\r\n\r\nab",
    b"POST /a HTTP/1.1\r\nContent-Length: -1\r\n\r\n", b"POST /a HTTP/1.1\r\nContent-Length: +1\r\n\r\na",
    b"POST /a HTTP/1.1\r\nContent-Length: 99999999999\r\n\r\n",
    b"POST /a HTTP/1.1\r\nTransfer-Encoding: gzip\r\n\r\n",
    b"POST /a HTTP/1.1\r\nTransfer-Encoding: chunked\r\nContent-Length: 1\r\n\r\n0\r\n\r\n",
    b"POST /a HTTP/1.1\r\nTransfer-Encoding: chunked\r\n\r\nZZ\r\n",
    b"POST /a HTTP/1.1\r\nTransfer-Encoding: chunked\r\n\r\nffffffffffffffff\r\n",
    b"GET /a HTTP/1.1\r\n" + b"A: b\r\n" * 65 + b"\r\n", b"GET /" + b"a" * 20000 + b" HTTP/1.1\r\n\r\n",
]
for n in range(1000):
    nothing(f"hostile request {n}", ask(fixed[n % len(fixed)]))
    if n % 100 == 99:
        served(f"{n + 1} hostile requests")

whole = [
    put, b"GET /wopi/files/text?access_token=t-ro HTTP/1.1\r\nHost: a\r\n\r\n",
    b"POST /wopi/files/empty?access_token=t-ro HTTP/1.1\r\nX-WOPI-Override: LOCK\r\nX-WOPI-Lock: x\r\n\r\n",
    b"POST /wopi/files/none/contents HTTP/1.1\r\nTransfer-Encoding: chunked\r\n\r\n3\r\nabc\r\n0\r\n\r\n",
]
for n in range(1000):
    data = bytearray(draws.choice(whole))
    for _ in range(draws.randint(1, 4)):
        data[draws.randrange(len(data))] = draws.randrange(256)
    answer = ask(bytes(data[:draws.randint(1, len(data))] if n % 3 == 0 else data))
    if answer and not answer.startswith(b"HTTP/1.1 "):
        print(f"drawn request {n}, {bytes(data)!r}: got {answer[:60]!r}")
        sys.exit(1)
    if n % 100 == 99:
        served(f"{n + 1} drawn requests")
PEERS
timeout 100 python3 "$work/peers.py" "$port" > "$work/said" 2>&1 || fail "$(tail -n 3 "$work/said")"
served "peers that say nothing, too little or nonsense"
kill -0 "$host" || fail "the host ended"

# The program is killed at any moment of a put: the file has the old content or the new one, whole.
head -c 3000000 /dev/zero | tr '\0' a > "$work/one"
head -c 2000000 /dev/zero | tr '\0' b > "$work/two"
cp "$work/one" "$work/files/text"
for n in $(seq 12); do
    post text LOCK -H 'X-WOPI-Lock: me' > /dev/null
    content="$work/one"
    [ $((n % 2)) = 0 ] && content="$work/two"
    curl -s -o /dev/null -X POST -H 'X-WOPI-Override: PUT' -H 'X-WOPI-Lock: me' -H 'Expect:' \
        --data-binary "@$content" "$at/text/contents?access_token=t-rw" &
    sleep "0.00$((n * 8 % 10))"
    kill -9 "$host"
    wait 2> /dev/null
    cmp -s "$work/files/text" "$work/one" || cmp -s "$work/files/text" "$work/two" || fail "kill $n leaves a torn file"
    start
done
served "twelve kills"
stop

# Its exit statuses.
start --requests 4
for n in 1 2 3; do get text > /dev/null; done
wait "$host"
is "the status after four wires" "$?" 0
host=""
"$program" host --port 70000 --folder "$work/files" 2> "$work/errors"
is "the status of a port out of bounds" "$?" 2
is "its text" "$(cat "$work/errors")" "number out of bounds"
"$program" host --port 1 2> "$work/errors"
is "the status without a folder" "$?" 2
grep -q -- '--folder' "$work/errors" || fail "the text without a folder"
"$program" host --port "$port" --folder "$work/none" 2> "$work/errors"
is "the status of a folder that isn't there" "$?" 8
start
"$program" host --port "$port" --folder "$work/files" 2> "$work/errors"
is "the status of a second process on the port" "$?" 8
stop

[ "$failed" = 0 ] && echo "live host: passed"
exit "$failed"
