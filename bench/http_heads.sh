#!/bin/bash
# Times the reading of a response whose head has 16,103 bytes in 65 lines, over a wire in memory that
# gives 1, 16 and 1,024 bytes a time. It makes its program in a temporary folder, proves it, and prints
# a line for each pace: the bytes of a receive, and the microseconds of the read alone.
set -euo pipefail
here=$(cd "$(dirname "$0")/.." && pwd)
work=$(mktemp -d)
trap 'rm -rf "$work"' EXIT
mkdir -p "$work/crates/head_bench/src"
for crate in cool_base outside http_message http_head wire_body http_write http_wire; do
    cp -r "$here/crates/$crate" "$work/crates/$crate"
    grep "^$crate:" "$here/crates.txt" >> "$work/crates.txt"
done
echo 'head_bench: cool_base outside http_wire http_message bytes' >> "$work/crates.txt"
cat > "$work/crates/head_bench/src/main.rt" <<'PROGRAM'
//! Times the reading of a long head.
#![tactic(auto)]

ghost use Rattle.std.specs.Prelude.{◌<◌};

use cool_base::Memory;
use http_wire::read_response;
use outside::MemoryWire;
use std::alloc::Global;
use std::io;
use std::time::{Duration, Instant};

// A response of 64 lines, the last of which says that it has no body.
fn long_head(alloc: Global) -> Result<Vec<u8>, Memory> {
    let mut bytes = Vec::from_slice(alloc, b"HTTP/1.1 200 OK\r\n")?;
    let value = [b'x'; 250];
    for _ in 0..63 {
        bytes.extend_from_slice(b"A: ")?;
        bytes.extend_from_slice(&value)?;
        bytes.extend_from_slice(b"\r\n")?;
    }
    bytes.extend_from_slice(b"Content-Length: 0\r\n\r\n")?;
    Ok(bytes)
}

// The time of one read at this pace.
fn measured(rt: &HostRuntime, bytes: &[u8], pace: usize) -> io::Result<Option<Duration>>
    requires { 0 < pace }
{
    let Ok(mut wire) = MemoryWire::new(rt.alloc(), bytes, pace, 0) else {
        return Ok(None);
    };
    let start = Instant::now(rt)?;
    if read_response(rt.alloc(), &mut wire).is_err() {
        return Ok(None);
    }
    Ok(Some(start.elapsed(rt)?))
}

fn row(rt: &HostRuntime, bytes: &[u8], pace: usize) -> io::Result<()>
    requires { 0 < pace }
{
    match measured(rt, bytes, pace)? {
        Some(time) => {
            let microseconds = time.as_micros();
            println!(rt; "{pace} bytes a receive: {microseconds} us")
        }
        None => println!(rt; "{pace} bytes a receive: not read"),
    }
}

fn main(rt: HostRuntime) -> io::Result<()> {
    let Ok(bytes) = long_head(rt.alloc()) else {
        return println!(rt; "out of memory");
    };
    let len = bytes.len();
    println!(rt; "a head of {len} bytes")?;
    row(&rt, &bytes, 1)?;
    row(&rt, &bytes, 16)?;
    row(&rt, &bytes, 1024)
}
PROGRAM
cd "$work/crates/head_bench"
rt run
