#!/bin/sh
# Times the reading of messages and the writing of tile frames of 1 KiB to 64 KiB. It builds a program in
# a folder of its own, over a copy of this repository's crates, and runs it.
set -eu
top=$(cd "$(dirname "$0")/.." && pwd)
work=$(mktemp -d)
trap 'rm -rf "$work"' EXIT
(cd "$top" && tar -cf - --exclude=out crates crates.txt) | (cd "$work" && tar -xf -)
echo 'message_bench: cool_base tile_key cool_message cool_frame kit_trait bytes' >> "$work/crates.txt"
mkdir -p "$work/crates/message_bench/src"
cat > "$work/crates/message_bench/src/main.rt" <<'PROGRAM'
//! Times `read_message` and `write_frame` over 1 KiB to 64 KiB.
#![tactic(auto)]

use bytes::Bytes;
use cool_base::Wid;
use cool_frame::{Frame, write_frame};
use cool_message::read_message;
use std::alloc::Global;
use std::io;
use std::time::Instant;
use tile_key::{TileWords, key_of};

const TURNS: u32 = 500;

fn main(rt: HostRuntime) -> io::Result<()> {
    for size in [1_024, 4_096, 16_384, 65_536] {
        for word in [b" word=1234567890".as_slice(), b" a"] {
            let text = message_of(rt.alloc(), word, size)?;
            let start = Instant::now(&rt)?;
            let mut read: u32 = 0;
            for _ in 0..TURNS {
                if read_message(rt.alloc(), &text).is_ok() {
                    read = read.saturating_add(1);
                }
            }
            let nanos = start.elapsed(&rt)?.as_nanos() / 500;
            let len = word.len();
            println!(rt; "read_message, {size} bytes, words of {len}: {nanos} ns ({read} read)")?;
        }
    }
    for side in [16, 32, 64, 128] {
        let Some(frame) = frame_of(rt.alloc(), side) else {
            continue;
        };
        let start = Instant::now(&rt)?;
        let mut written: u32 = 0;
        for _ in 0..TURNS {
            if write_frame(rt.alloc(), &frame).is_ok() {
                written = written.saturating_add(1);
            }
        }
        let nanos = start.elapsed(&rt)?.as_nanos() / 500;
        println!(rt; "write_frame, {side} by {side} pixels: {nanos} ns ({written} written)")?;
    }
    Ok(())
}

// A message of about this size: words that are not used stand behind those that are.
fn message_of(alloc: Global, word: &[u8], size: usize) -> io::Result<Vec<u8>> {
    let mut text = Vec::from_slice(alloc, b"mouse type=move x=1 y=2")?;
    for _ in 0..size {
        if size.saturating_sub(text.len()) >= word.len() {
            text.extend_from_slice(word)?;
        }
    }
    Ok(text)
}

// A tile of a square picture.
fn frame_of(alloc: Global, side: u32) -> Option<Frame> {
    let key = key_of(&TileWords {
        part: 0,
        width: side,
        height: side,
        tileposx: 0,
        tileposy: 0,
        tilewidth: 3840,
        tileheight: 3840,
    })?;
    let bytes = u64::from(side) * u64::from(side) * 4;
    let pixels = vec![in alloc; 7u8; bytes as usize].ok()?;
    let pixels = Bytes::from_vec(pixels).ok()?;
    Some(Frame::Tile {
        key,
        ver: 1,
        wid: Wid(1),
        pixels,
    })
}
PROGRAM
cd "$work/crates/message_bench"
rt run
