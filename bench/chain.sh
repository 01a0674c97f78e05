#!/bin/sh
# Times edits of a chain of cells, and edits beside formulas of ranges, each beside plain Rust that does
# the same work: A1 holds a number, and every further cell of column A is one more than the cell above it;
# 80,000 formulas of ranges that don't read the cell of the edit; and a formula that sums a whole part, of
# which 20,000 cells are there. Of 100 edits it prints the least time of one, which is about its processor
# time however busy the machine is, and the mean. Run it at the top of the repository, as
# bench/chain.sh [CELLS [RT WORDS]]; it takes what is committed there, and works in a folder of its own.
# With no words it proves, compiles and runs its program; with the words `try --seconds 900` it compiles
# with checks and proves nothing, and its times say little.
set -eu
cells=${1:-4096}
[ $# -gt 0 ] && shift
folder=$(mktemp -d)
trap 'rm -rf "$folder"' EXIT
git archive HEAD crates crates.txt HANDLES | tar -x -C "$folder"
cd "$folder"
rm -rf crates/chain_bench
mkdir -p crates/chain_bench/src
echo "chain_bench: cool_base sheet_cells sheet_calc" >>crates.txt
cat >crates/chain_bench/src/main.rt <<'END'
//! Times edits of a chain of cells, and edits beside formulas of ranges.
#![tactic(auto)]

use sheet_calc::{Book, BookDraft, Changed, is_raw};
use sheet_cells::CellRef;
use std::alloc::Global;
use std::process::ExitCode;
use std::time::Instant;

/// How many cells the chain has, at most 4,096.
const CELLS: u32 = @CELLS@;

/// How many edits are timed.
const EDITS: u64 = 100;

fn main(rt: HostRuntime) -> ExitCode {
    match timed(&rt) {
        Some(()) => ExitCode::SUCCESS,
        None => ExitCode::FAILURE,
    }
}

fn timed(rt: &HostRuntime) -> Option<()> {
    let begun = Instant::now(rt).ok()?;
    let mut book = chain(rt.alloc())?;
    let built = begun.elapsed(rt).ok()?.as_millis();
    println!(rt; "{CELLS} edits that build the chain: {built} ms").ok()?;
    time_edits(rt, &mut book, "an edit of the chain's first cell")?;
    let begun = Instant::now(rt).ok()?;
    let mut book = ranges(rt.alloc())?;
    let built = begun.elapsed(rt).ok()?.as_millis();
    println!(rt; "a draft of 80,000 ranges becomes a book: {built} ms").ok()?;
    time_edits(rt, &mut book, "an edit beside 80,000 ranges")?;
    let begun = Instant::now(rt).ok()?;
    let mut book = whole(rt.alloc())?;
    let built = begun.elapsed(rt).ok()?.as_millis();
    println!(rt; "a draft of 20,000 numbers and their sum becomes a book: {built} ms").ok()?;
    time_edits(rt, &mut book, "an edit of a cell in a range over the whole part")
}

// Times edits of A1.
fn time_edits(rt: &HostRuntime, book: &mut Book, what: &str) -> Option<()> {
    let start = Instant::now(rt).ok()?;
    let mut least = u128::MAX;
    let mut count: usize = 0;
    for turn in 0..EDITS {
        let raw = if turn % 2 == 0 { "2" } else { "1" };
        let begun = Instant::now(rt).ok()?;
        count = edit(book, 0, raw)?.positions.get().len();
        least = least.min(begun.elapsed(rt).ok()?.as_nanos());
    }
    let mean = start.elapsed(rt).ok()?.as_nanos() / 100_000;
    let least = least / 1000;
    println!(rt; "{what}: at least {least} us, {mean} us in the mean, {count} cells changed").ok()?;
    Some(())
}

// The chain, whose first cell holds 1.
fn chain(alloc: Global) -> Option<Book> {
    let mut book = Book::new(alloc, 1).ok()?;
    edit(&mut book, 0, "1")?;
    for row in 1..CELLS {
        let raw = format!(in alloc; "=A{row}+1").ok()?;
        edit(&mut book, row, raw.as_str())?;
    }
    Some(book)
}

// Formulas of ranges in the columns from D on, 4,000 rows of each of 20 columns.
fn ranges(alloc: Global) -> Option<Book> {
    let mut draft = BookDraft::new(alloc, 1).ok()?;
    for row in 0..4000_u32 {
        let number = row + 1;
        let next = row + 2;
        let raw = format!(in alloc; "=SUM(B{number}:C{next})").ok()?;
        for col in 3..23_u32 {
            put(&mut draft, row, col, raw.as_str())?;
        }
    }
    draft.finish().ok()
}

// Numbers in 4,000 rows of each of five columns, and in the last column of the first row the sum of all
// other columns.
fn whole(alloc: Global) -> Option<Book> {
    let mut draft = BookDraft::new(alloc, 1).ok()?;
    for row in 0..4000_u32 {
        for col in 0..5_u32 {
            put(&mut draft, row, col, "1")?;
        }
    }
    put(&mut draft, 0, 255, "=SUM(A1:IU4096)")?;
    draft.finish().ok()
}

// Gives a cell of a draft a raw text.
fn put(draft: &mut BookDraft, row: u32, col: u32, raw: &str) -> Option<()> {
    if !is_raw(raw) || row >= 4096 || col >= 256 || draft.parts() == 0 {
        return None;
    }
    let at = CellRef { part: 0, row, col };
    draft.add(&at, raw).ok()
}

// Gives a cell of column A a raw text.
fn edit(book: &mut Book, row: u32, raw: &str) -> Option<Changed> {
    if !is_raw(raw) || row >= 4096 || book.parts() == 0 {
        return None;
    }
    let at = CellRef {
        part: 0,
        row,
        col: 0,
    };
    book.set(&at, raw).ok()
}
END
sed -i "s/@CELLS@/$cells/" crates/chain_bench/src/main.rt
(cd crates/chain_bench && rt "${@:-run}")
cat >chain.rs <<'END'
// The work of chain.sh in plain Rust: values are kept, and an edit computes anew the cell and the formulas
// that read it, from cell to cell. It reads formulas as `=A1+1` and `=SUM(B1:C2)` alone.
use std::collections::{BTreeMap, HashMap, HashSet};
use std::time::Instant;

type Place = (u32, u32);

enum Content {
    Number(i64),
    Next(Place),
    Sum(Place, Place),
}

struct Cell {
    content: Content,
    value: i64,
    text: String,
}

#[derive(Default)]
struct Sheet {
    cells: BTreeMap<Place, Cell>,
    readers: HashMap<Place, Vec<Place>>,
    ranges: Vec<(Place, Place, Place)>,
}

fn place(name: &str) -> Place {
    let letters = name.find(|c: char| c.is_ascii_digit()).unwrap();
    let (letters, row) = name.split_at(letters);
    let col = letters.bytes().fold(0, |col, letter| col * 26 + u32::from(letter - b'A') + 1) - 1;
    (row.parse::<u32>().unwrap() - 1, col)
}

fn read(raw: &str) -> Content {
    if let Some(rest) = raw.strip_prefix("=SUM(") {
        let (first, last) = rest.strip_suffix(')').unwrap().split_once(':').unwrap();
        Content::Sum(place(first), place(last))
    } else if let Some(rest) = raw.strip_prefix('=') {
        Content::Next(place(rest.strip_suffix("+1").unwrap()))
    } else {
        Content::Number(raw.parse().unwrap())
    }
}

impl Sheet {
    fn value(&self, content: &Content) -> i64 {
        match content {
            Content::Number(number) => *number,
            Content::Next(place) => self.cells.get(place).map_or(0, |cell| cell.value) + 1,
            Content::Sum(first, last) => self
                .cells
                .range(*first..=*last)
                .filter(|(place, _)| first.1 <= place.1 && place.1 <= last.1)
                .map(|(_, cell)| cell.value)
                .sum(),
        }
    }

    fn put(&mut self, at: Place, raw: &str) {
        let content = read(raw);
        match content {
            Content::Number(_) => {}
            Content::Next(place) => self.readers.entry(place).or_default().push(at),
            Content::Sum(first, last) => self.ranges.push((first, last, at)),
        }
        let value = self.value(&content);
        self.cells.insert(at, Cell { content, value, text: value.to_string() });
    }

    // The cells that an edit affects, each before those that read it.
    fn affected(&self, at: Place) -> Vec<Place> {
        let mut entered = HashSet::new();
        let mut ordered = Vec::new();
        let mut visits = vec![(at, false)];
        while let Some((place, left)) = visits.pop() {
            if left {
                ordered.push(place);
                continue;
            }
            if !entered.insert(place) {
                continue;
            }
            visits.push((place, true));
            for reader in self.readers.get(&place).into_iter().flatten() {
                visits.push((*reader, false));
            }
            for (first, last, reader) in &self.ranges {
                let down = first.0 <= place.0 && place.0 <= last.0;
                if down && first.1 <= place.1 && place.1 <= last.1 {
                    visits.push((*reader, false));
                }
            }
        }
        ordered.reverse();
        ordered
    }

    fn set(&mut self, at: Place, raw: &str) -> Vec<Place> {
        let content = read(raw);
        let value = self.value(&content);
        let old = self.cells.insert(at, Cell { content, value, text: value.to_string() });
        let mut changed = Vec::new();
        if old.map_or(true, |cell| cell.text != value.to_string()) {
            changed.push(at);
        }
        for place in self.affected(at) {
            if place == at {
                continue;
            }
            let value = self.value(&self.cells[&place].content);
            let text = value.to_string();
            let cell = self.cells.get_mut(&place).unwrap();
            if cell.text != text {
                changed.push(place);
            }
            cell.value = value;
            cell.text = text;
        }
        changed.sort_unstable();
        changed
    }
}

fn time_edits(sheet: &mut Sheet, what: &str) {
    let start = Instant::now();
    let mut least = u128::MAX;
    let mut count = 0;
    for turn in 0..100 {
        let begun = Instant::now();
        count = sheet.set((0, 0), if turn % 2 == 0 { "2" } else { "1" }).len();
        least = least.min(begun.elapsed().as_nanos());
    }
    let mean = start.elapsed().as_nanos() / 100_000;
    println!("{what}: at least {} us, {mean} us in the mean, {count} cells changed", least / 1000);
}

fn main() {
    let mut sheet = Sheet::default();
    sheet.put((0, 0), "1");
    for row in 1..@CELLS@ {
        sheet.put((row, 0), &format!("=A{row}+1"));
    }
    time_edits(&mut sheet, "an edit of the chain's first cell");
    let mut sheet = Sheet::default();
    for row in 0..4000 {
        for col in 3..23 {
            sheet.put((row, col), &format!("=SUM(B{}:C{})", row + 1, row + 2));
        }
    }
    time_edits(&mut sheet, "an edit beside 80,000 ranges");
    let mut sheet = Sheet::default();
    for row in 0..4000 {
        for col in 0..5 {
            sheet.put((row, col), "1");
        }
    }
    sheet.put((0, 255), "=SUM(A1:IU4096)");
    time_edits(&mut sheet, "an edit of a cell in a range over the whole part");
}
END
sed -i "s/@CELLS@/$cells/" chain.rs
echo "plain Rust:"
rustc --edition 2021 -O -o chain chain.rs
./chain
