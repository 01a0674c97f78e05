#!/usr/bin/env bash
# Requests a second that `coolwsd host` answers, against `python3 -m http.server` on the same files: a client asks for the
# content of one file again and again, one connection a request. The first argument is how many requests (2000 if none is
# given), the second the program (./run's if none is given).
set -eu
rounds="${1:-2000}"
top="$(cd "$(dirname "$0")/.." && pwd)"
program="${2:-}"
if [ -z "$program" ]; then
    "$top/run" host 2> /dev/null || true
    program="$top/crates/coolwsd/out/coolwsd"
fi
work="$(mktemp -d)"
trap 'kill $(jobs -p) 2> /dev/null; rm -rf "$work"' EXIT
port=$((20000 + RANDOM % 20000))
for kib in 4 256 4096; do head -c $((kib * 1024)) /dev/urandom > "$work/f$kib"; done
"$program" host --port "$port" --folder "$work" &
python3 -m http.server --bind 127.0.0.1 --directory "$work" $((port + 1)) > /dev/null 2>&1 &
sleep 1
python3 - "$port" "$rounds" <<'CLIENT'
import http.client, sys, time
port, rounds = int(sys.argv[1]), int(sys.argv[2])
def speed(port, target, rounds):
    begin = time.time()
    for _ in range(rounds):
        link = http.client.HTTPConnection("127.0.0.1", port)
        link.request("GET", target)
        answer = link.getresponse()
        assert answer.status == 200
        answer.read()
        link.close()
    return rounds / (time.time() - begin)
print("| File | `coolwsd host` | `python3 -m http.server` |\n|---|---|---|")
for kib in (4, 256, 4096):
    some = max(20, rounds // max(1, kib // 64))
    ours = speed(port, f"/wopi/files/f{kib}/contents?access_token=t-ro", some)
    theirs = speed(port + 1, f"/f{kib}", some)
    print(f"| {kib} KiB | {ours:.0f} | {theirs:.0f} |")
CLIENT
