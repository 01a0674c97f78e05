#!/bin/sh
# Times a broker whose views each see 4,096 tiles of one pixel: all of them painted, sent and acknowledged;
# 20,000 clicks said, one turn each to apply them; and the tiles that they damaged, painted again. Run it at
# the top of the repository, as bench/broker.sh [VIEWS [RT WORDS]]; it takes what is committed there, and
# works in a folder of its own. With no words it proves, compiles and runs its program; with the words
# `try --seconds 900` it compiles with checks and proves nothing, and its times say little.
set -eu
views=${1:-1}
[ $# -gt 0 ] && shift
folder=$(mktemp -d)
trap 'rm -rf "$folder"' EXIT
git archive HEAD crates crates.txt HANDLES | tar -x -C "$folder"
cd "$folder"
rm -rf crates/broker_bench
mkdir -p crates/broker_bench/src
echo "broker_bench: cool_base tile_key kit_trait cool_frame broker_core bytes" >>crates.txt
cat >crates/broker_bench/src/main.rt <<'MAIN'
//! Times a broker whose views each see 4,096 tiles.
#![tactic(auto)]

use broker_core::{Broker, Outs, Rights, Turned};
use bytes::Bytes;
use cool_base::{FileId, Memory, Token, ViewId};
use kit_trait::{Done, LoadFault, PatchKit, PatchScene, Scene};
use std::alloc::Global;
use std::process::ExitCode;
use std::time::Instant;

const VIEWS: u32 = HOW_MANY;
const CLICKS: u32 = 20_000;

fn main(rt: HostRuntime) -> ExitCode {
    match timed(&rt) {
        Some(()) => ExitCode::SUCCESS,
        None => ExitCode::FAILURE,
    }
}

fn timed(rt: &HostRuntime) -> Option<()> {
    let alloc = rt.alloc();
    let mut broker = begun(alloc)?;
    let start = Instant::now(rt).ok()?;
    let first = served(alloc, &mut broker).ok()?;
    let painted = start.elapsed(rt).ok()?.as_millis();
    let start = Instant::now(rt).ok()?;
    clicked(alloc, &mut broker).ok()?;
    let said = start.elapsed(rt).ok()?.as_millis();
    let start = Instant::now(rt).ok()?;
    applied(&mut broker).ok()?;
    let done = start.elapsed(rt).ok()?.as_millis();
    let start = Instant::now(rt).ok()?;
    let again = served(alloc, &mut broker).ok()?;
    let repainted = start.elapsed(rt).ok()?.as_millis();
    println!(rt; "{VIEWS} views").ok()?;
    println!(rt; "{first} turns, till all tiles are sent and acknowledged: {painted} ms").ok()?;
    println!(rt; "{CLICKS} clicks said: {said} ms").ok()?;
    println!(rt; "{CLICKS} clicks applied: {done} ms").ok()?;
    println!(rt; "{again} turns, till the tiles that they damaged are sent again: {repainted} ms").ok()?;
    Some(())
}

// A document with its views, each of which sees 4,096 tiles.
fn begun(alloc: Global) -> Option<Broker<PatchKit>> {
    let file = FileId::read("f")?;
    let base = Bytes::copy_from_slice(alloc, b"").ok()?;
    let mut broker: Broker<PatchKit> = Broker::start(alloc, &file, base).ok()?;
    for _ in 0..VIEWS {
        joined(alloc, &mut broker)?;
    }
    Some(broker)
}

fn joined(alloc: Global, broker: &mut Broker<PatchKit>) -> Option<()> {
    let token = Token::read(alloc, "t").ok()??;
    let rights = Rights {
        can_write: true,
        token,
    };
    let (view, _) = broker.join(rights).ok()?;
    let zoom = "clientzoom tilepixelwidth=1 tilepixelheight=1 tiletwipwidth=60 tiletwipheight=60";
    said(broker, view, zoom).ok()?;
    said(broker, view, "clientvisiblearea x=0 y=0 width=3840 height=3840").ok()
}

fn said(broker: &mut Broker<PatchKit>, view: ViewId, text: &str) -> Result<(), Memory> {
    if broker.is_live(view) {
        let _outs = broker.message(view, text.as_bytes())?;
    }
    Ok(())
}

// View 0 clicks squares one after the other.
fn clicked(alloc: Global, broker: &mut Broker<PatchKit>) -> Result<(), Memory> {
    for n in 0..CLICKS {
        let (x, y) = (n % 16 * 240, n / 16 % 16 * 240);
        let text = format!(in alloc; "mouse type=buttondown x={x} y={y}")?;
        said(broker, ViewId(0), text.as_str())?;
    }
    Ok(())
}

fn applied(broker: &mut Broker<PatchKit>) -> Result<(), Memory> {
    for _ in 0..CLICKS {
        let _turned = broker.turn()?;
    }
    Ok(())
}

// Turns up to a quiet document: how many. Each job is painted at once, and what is sent is acknowledged.
fn served(alloc: Global, broker: &mut Broker<PatchKit>) -> Result<u64, Memory> {
    for turns in 0..u64::MAX {
        if broker.is_quiet() {
            return Ok(turns);
        }
        if let Turned::Worked(outs) = broker.turn()? {
            painted(alloc, broker, outs)?;
        }
        for view in 0..VIEWS {
            acknowledged(alloc, broker, ViewId(view))?;
        }
    }
    Ok(u64::MAX)
}

fn painted(
    alloc: Global,
    broker: &mut Broker<PatchKit>,
    outs: Outs<PatchScene>,
) -> Result<(), Memory> {
    for job in outs.jobs.into_inner() {
        let pixels = job.scene.paint(alloc)?;
        let _outs = broker.painted(&Done {
            ticket: job.ticket,
            scene: job.scene,
            pixels,
        })?;
    }
    Ok(())
}

fn acknowledged(
    alloc: Global,
    broker: &mut Broker<PatchKit>,
    view: ViewId,
) -> Result<(), Memory> {
    if !broker.is_live(view) {
        return Ok(());
    }
    let wids = broker.unprocessed(view);
    let Some(last) = wids.as_slice().last() else {
        return Ok(());
    };
    let mut text = String::from_str(alloc, "tileprocessed wids=")?;
    let number = last.0;
    for wid in wids.as_slice() {
        let other = wid.0;
        if other != number {
            text.push_str(format!(in alloc; "{other},")?.as_str())?;
        }
    }
    text.push_str(format!(in alloc; "{number}")?.as_str())?;
    said(broker, view, text.as_str())
}
MAIN
sed -i "s/HOW_MANY/$views/" crates/broker_bench/src/main.rt
cd crates/broker_bench
rt "${@:-run}"
