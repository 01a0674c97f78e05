#!/usr/bin/env bash
# Runs `net_echo`, the net over real sockets, against clients of its own: handshakes whole, in pieces, half and wrong;
# messages whole, in fragments, masked and not; pings; a link that moves; a reader that comes late; a close handshake.
# The program is the first of those in NET_ECHO, paths that blanks divide, else the one that `rt ci` left in
# crates/net_echo/out. Without python3 it is skipped. It takes about 15 seconds, of which 11 wait for a limit.
set -u
top="$(cd "$(dirname "$0")/../.." && pwd)"
if ! command -v python3 > /dev/null; then
    echo "live net: skipped, python3 is missing"
    exit 77
fi
read -r program _ <<< "${NET_ECHO:-$top/crates/net_echo/out/net_echo}"
if [ ! -x "$program" ]; then
    echo "live net: there is no program ${program##*/}: run rt ci first"
    exit 1
fi
exec python3 "$top/tests/live/net.py" "$program"
