#!/usr/bin/env bash
# Plays scripts by `coolwsd replay` over real streams: a source that comes byte by byte, one that is held open between
# its lines, one that can't be read; a sink that is full, one whose reader hangs up; too little memory.
# The program is the first of those in COOLWSD, paths that blanks divide, else the one that `rt ci` left in
# crates/coolwsd/out. Without python3 it is skipped. It takes a few seconds.
set -u
top="$(cd "$(dirname "$0")/../.." && pwd)"
if ! command -v python3 > /dev/null; then
    echo "live streams: skipped, python3 is missing"
    exit 77
fi
read -r program _ <<< "${COOLWSD:-$top/crates/coolwsd/out/coolwsd}"
if [ ! -x "$program" ]; then
    echo "live streams: there is no program ${program##*/}: run rt ci first"
    exit 1
fi
exec python3 "$top/tests/live/streams.py" "$program" "$top"
