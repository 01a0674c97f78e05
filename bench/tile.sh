#!/bin/sh
# Times the painting of one tile full of text: 256 by 256 pixels over 3,840 by 3,840 twips, which is 64
# cells of 960 by 240 twips, each with its two grid lines and a text of up to 11 characters. Run it at the
# top of the repository, as bench/tile.sh [TILES [RT WORDS]]; it takes what is committed there, and works
# in a folder of its own. With no words it proves, compiles and runs its program; with the words
# `try --seconds 900` it compiles with checks and proves nothing.
set -eu
tiles=${1:-1000}
[ $# -gt 0 ] && shift
folder=$(mktemp -d)
trap 'rm -rf "$folder"' EXIT
git archive HEAD crates crates.txt HANDLES | tar -x -C "$folder"
cd "$folder"
rm -rf crates/tile_bench
mkdir -p crates/tile_bench/src
echo "tile_bench: cool_base tile_key kit_trait tile_raster" >>crates.txt
cat >crates/tile_bench/src/main.rt <<'END'
//! Times the painting of one tile full of text.
#![tactic(auto)]

ghost use Rattle.std.specs.Prelude.{◌≡◌, ◌<◌};

use cool_base::Rect;
use kit_trait::Pixels;
use std::alloc::Global;
use std::process::ExitCode;
use std::time::Instant;
use tile_key::{Area, TileWords};
use tile_raster::Canvas;

/// How many tiles are painted.
const TILES: u32 = @TILES@;

const GREY: [u8; 4] = [192, 192, 192, 255];

const TEXTS: [&str; 8] = [
    "Sum of all",
    "1234567890",
    "-98765",
    "Quarter two",
    "0",
    "#DIV/0!",
    "gypsum, jet",
    "WWWWWWWWWWW",
];

fn main(rt: HostRuntime) -> ExitCode {
    match timed(&rt) {
        Some(()) => ExitCode::SUCCESS,
        None => ExitCode::FAILURE,
    }
}

fn timed(rt: &HostRuntime) -> Option<()> {
    let area = Area::read(&TileWords {
        part: 0,
        width: 256,
        height: 256,
        tileposx: 0,
        tileposy: 0,
        tilewidth: 3_840,
        tileheight: 3_840,
    })?;
    let dark = black_pixels(&tile(rt.alloc(), &area)?);
    let start = Instant::now(rt).ok()?;
    for _ in 0..TILES {
        let _pixels = tile(rt.alloc(), &area)?;
    }
    let taken = start.elapsed(rt).ok()?.as_micros();
    println!(rt; "{TILES} tiles, {dark} black pixels each: {taken} us").ok()
}

fn black_pixels(pixels: &Pixels) -> usize {
    let mut found = 0usize;
    for pixel in pixels.rgba.chunks(4) {
        if pixel == [0, 0, 0, 255].as_slice() {
            found = found.saturating_add(1);
        }
    }
    found
}

// The tile: the 64 cells of its area.
fn tile(alloc: Global, area: &Area) -> Option<Pixels> {
    let mut canvas = Canvas::new(alloc, area.width(), area.height()).ok()?;
    for row in 0..16 {
        paint_row(&mut canvas, area, row);
    }
    canvas.finish().ok()
}

fn paint_row(canvas: &mut Canvas, area: &Area, row: u32)
    requires row { row < 16 }
    requires width { area.now.width ≡ canvas.old.width }
    requires height { area.now.height ≡ canvas.old.height }
    ensures width { canvas.new.width ≡ canvas.old.width }
    ensures height { canvas.new.height ≡ canvas.old.height }
{
    for column in 0..4 {
        paint_cell(canvas, area, row, column);
    }
}

fn paint_cell(canvas: &mut Canvas, area: &Area, row: u32, column: u32)
    requires row { row < 16 }
    requires column { column < 4 }
    requires width { area.now.width ≡ canvas.old.width }
    requires height { area.now.height ≡ canvas.old.height }
    ensures width { canvas.new.width ≡ canvas.old.width }
    ensures height { canvas.new.height ≡ canvas.old.height }
{
    let x = column * 960;
    let y = row * 240;
    let right = box_of(x + 945, y, 15, 240);
    let lower = box_of(x, y + 225, 960, 15);
    let clip = box_of(x, y, 945, 225);
    canvas.fill_rect(area, &right, GREY);
    canvas.fill_rect(area, &lower, GREY);
    canvas.draw_text(area, x + 30, y + 60, &clip, TEXTS[(row * 3 + column) as usize % 8]);
}

fn box_of(x: u32, y: u32, w: u32, h: u32) -> Rect
    requires x { x < 4000 }
    requires y { y < 4000 }
    requires w { w < 1000 }
    requires h { h < 1000 }
{
    Rect { x, y, w, h }
}
END
mkdir -p crates/tile_bench/proofs/tile crates/tile_bench/proofs/paint_row
cat >crates/tile_bench/proofs/tile/Invariants.antt <<'END'
use Rattle.std.proofs.Common.{◌≡◌}
use Rattle.tile_bench.proofs.tile.Given as goal

abbrev pub invariant-loop-row : goal.invariant-loop-row
invariant-loop-row l = (l.area.width ≡ l.canvas.width) × (l.area.height ≡ l.canvas.height)
END
cat >crates/tile_bench/proofs/paint_row/Invariants.antt <<'END'
use Rattle.std.proofs.Common.{◌≡◌}
use Rattle.tile_bench.proofs.paint_row.Given as goal

abbrev pub invariant-loop-column : goal.invariant-loop-column
invariant-loop-column l = (l.canvas.width ≡ l.initial.canvas.width) × (l.canvas.height ≡ l.initial.canvas.height)
END
sed -i "s/@TILES@/$tiles/" crates/tile_bench/src/main.rt
cd crates/tile_bench
rt "${@:-run}"
