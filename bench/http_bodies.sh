#!/bin/bash
# Times the reading of bodies of 16, 32 and 64 MiB, by their length and in chunks of 1 KiB, over a wire
# in memory that gives 4,096 bytes a time. It makes its program in a temporary folder, proves it, and
# prints a line for each body: its form, its mebibytes, and the milliseconds of the read alone.
set -euo pipefail
here=$(cd "$(dirname "$0")/.." && pwd)
work=$(mktemp -d)
trap 'rm -rf "$work"' EXIT
mkdir -p "$work/crates/body_bench/src"
for crate in cool_base outside http_message http_head wire_body http_write http_wire; do
    cp -r "$here/crates/$crate" "$work/crates/$crate"
    grep "^$crate:" "$here/crates.txt" >> "$work/crates.txt"
done
echo 'body_bench: cool_base outside http_wire http_message bytes' >> "$work/crates.txt"
cat > "$work/crates/body_bench/src/main.rt" <<'PROGRAM'
//! Times the reading of long bodies.
#![tactic(auto)]

use cool_base::Memory;
use http_wire::read_response;
use outside::MemoryWire;
use std::alloc::Global;
use std::io;
use std::time::{Duration, Instant};

// A response of so many mebibytes with its length.
fn by_length(alloc: Global, mebibytes: u8) -> Result<Vec<u8>, Memory> {
    let len = u64::from(mebibytes) * 1_048_576;
    let head = format!(in alloc; "HTTP/1.1 200 OK\r\nContent-Length: {len}\r\n\r\n")?;
    let mut bytes = Vec::from_slice(alloc, head.as_bytes())?;
    let block = [b'x'; 1024];
    for _ in 0..mebibytes {
        for _ in 0..1024 {
            bytes.extend_from_slice(&block)?;
        }
    }
    Ok(bytes)
}

// A response of so many mebibytes in chunks of 1 KiB.
fn in_chunks(alloc: Global, mebibytes: u8) -> Result<Vec<u8>, Memory> {
    let head = b"HTTP/1.1 200 OK\r\nTransfer-Encoding: chunked\r\n\r\n";
    let mut bytes = Vec::from_slice(alloc, head)?;
    let block = [b'x'; 1024];
    for _ in 0..mebibytes {
        for _ in 0..1024 {
            bytes.extend_from_slice(b"400\r\n")?;
            bytes.extend_from_slice(&block)?;
            bytes.extend_from_slice(b"\r\n")?;
        }
    }
    bytes.extend_from_slice(b"0\r\n\r\n")?;
    Ok(bytes)
}

// The time of one read, and how many bytes the body had.
fn measured(rt: &HostRuntime, bytes: &[u8]) -> io::Result<Option<(Duration, usize)>> {
    let Ok(mut wire) = MemoryWire::new(rt.alloc(), bytes, 4096, 0) else {
        return Ok(None);
    };
    let start = Instant::now(rt)?;
    let Ok(response) = read_response(rt.alloc(), &mut wire) else {
        return Ok(None);
    };
    let time = start.elapsed(rt)?;
    Ok(Some((time, response.body.len())))
}

fn row(rt: &HostRuntime, form: &str, mebibytes: u8, bytes: Result<Vec<u8>, Memory>) -> io::Result<()> {
    let Ok(bytes) = bytes else {
        println!(rt; "{form} {mebibytes}: no memory")?;
        return Ok(());
    };
    match measured(rt, &bytes)? {
        Some((time, len)) => {
            let milliseconds = time.as_millis();
            println!(rt; "{form} {mebibytes} MiB: {milliseconds} ms, {len} bytes")?;
        }
        None => println!(rt; "{form} {mebibytes}: not read")?,
    }
    Ok(())
}

fn main(rt: HostRuntime) -> io::Result<()> {
    for mebibytes in [16u8, 32, 64] {
        row(&rt, "length", mebibytes, by_length(rt.alloc(), mebibytes))?;
        row(&rt, "chunks", mebibytes, in_chunks(rt.alloc(), mebibytes))?;
    }
    Ok(())
}
PROGRAM
cd "$work/crates/body_bench"
rt run
