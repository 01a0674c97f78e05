#!/bin/sh
# Times a view of 4,096 keys: a change of its area, the tiles that are sent to it one by one, each
# acknowledged, and a damage of them all. Run it at the top of the repository, as bench/view.sh
# [RT WORDS]; it takes what is committed there, and works in a folder of its own. With no words it
# proves, compiles and runs its program; with the words `try --seconds 900` it compiles with checks and
# proves nothing.
set -eu
folder=$(mktemp -d)
trap 'rm -rf "$folder"' EXIT
git archive HEAD crates crates.txt HANDLES | tar -x -C "$folder"
cd "$folder"
rm -rf crates/view_bench
mkdir -p crates/view_bench/src
echo "view_bench: cool_base tile_key view_session" >>crates.txt
cat >crates/view_bench/src/main.rt <<'END'
//! Times a view of 4,096 keys.
#![tactic(auto)]

use cool_base::{Rect, Size, Token};

use std::alloc::Global;
use std::process::ExitCode;
use std::time::Instant;
use tile_key::{TileKey, Zoom};
use view_session::{Rights, View};

const PART: Size = Size {
    w: 245_760,
    h: 245_760,
};

fn main(rt: HostRuntime) -> ExitCode {
    match timed(&rt) {
        Some(()) => ExitCode::SUCCESS,
        None => ExitCode::FAILURE,
    }
}

fn timed(rt: &HostRuntime) -> Option<()> {
    let mut view = joined(rt.alloc())?;
    let begun = Instant::now(rt).ok()?;
    look(&mut view)?;
    let seen = begun.elapsed(rt).ok()?.as_micros();
    let start = Instant::now(rt).ok()?;
    let count = send_all(&mut view);
    let sent = start.elapsed(rt).ok()?.as_micros();
    let again = Instant::now(rt).ok()?;
    look(&mut view)?;
    let moved = again.elapsed(rt).ok()?.as_micros();
    let hit = Instant::now(rt).ok()?;
    view.damage(0, &whole());
    let damaged = hit.elapsed(rt).ok()?.as_micros();
    let due = view.uncurrent().ok()?.len();
    println!(rt; "an area with 4,096 keys: {seen} us").ok()?;
    println!(rt; "{count} tiles, each looked for, sent and acknowledged: {sent} us").ok()?;
    println!(rt; "the same area again, with a full screen: {moved} us").ok()?;
    println!(rt; "a damage of {due} keys: {damaged} us").ok()?;
    Some(())
}

fn whole() -> Rect {
    Rect {
        x: 0,
        y: 0,
        w: 245_760,
        h: 245_760,
    }
}

fn joined(alloc: Global) -> Option<View> {
    let token = Token::read(alloc, "token").ok()??;
    let rights = Rights {
        can_write: true,
        token,
    };
    let mut view = View::new(alloc, rights, &PART).ok()?;
    let zoom = Zoom::read(64, 64, 3_840, 3_840, 0)?;
    view.set_zoom(&zoom, &PART).ok()?;
    Some(view)
}

fn look(view: &mut View) -> Option<()> {
    view.set_area(&whole(), &PART).ok()
}

// Sends and acknowledges tiles of the due keys: how many.
fn send_all(view: &mut View) -> u32 {
    let mut count = 0u32;
    for _ in 0..4_096 {
        let Some(key) = view.first_due() else {
            return count;
        };
        if !send(view, &key) {
            return count;
        }
        count = count.wrapping_add(1);
    }
    count
}

fn send(view: &mut View, key: &TileKey) -> bool {
    if view.room() == 0 || !view.wants(key) || !view.can_number() {
        return false;
    }
    let wid = view.sent(key, 0, true);
    view.processed(wid)
}
END
cd crates/view_bench
rt "${@:-run}"
