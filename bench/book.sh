#!/bin/sh
# Times the reading and the writing of a book's file of about two megabytes. Run it at the top of the
# repository, as bench/book.sh [RT WORDS]; it takes what is committed there, and works in a folder of its
# own. With no words it proves, compiles and runs its program; with the words `try --seconds 900` it
# compiles with checks and proves nothing.
set -eu
folder=$(mktemp -d)
trap 'rm -rf "$folder"' EXIT
git archive HEAD crates crates.txt HANDLES | tar -x -C "$folder"
cd "$folder"
rm -rf crates/book_bench
mkdir -p crates/book_bench/src
echo "book_bench: cool_base cool_words sheet_calc sheet_file" >>crates.txt
cat >crates/book_bench/src/main.rt <<'END'
//! Times the reading and the writing of a book's file.
#![tactic(auto)]

use cool_base::Memory;
use cool_words::push_number;
use sheet_calc::Book;
use sheet_file::{read_book, write_book};
use std::alloc::Global;
use std::process::ExitCode;
use std::time::Instant;

/// The name of the last of 26 columns that are filled.
const LAST: u8 = b'Z';

fn main(rt: HostRuntime) -> ExitCode {
    let texts = [("numbers", " 12345"), ("texts", " some words"), ("formulas", " =IV1+1")];
    for (what, text) in texts {
        if timed(&rt, what, text).is_none() {
            return ExitCode::FAILURE;
        }
    }
    ExitCode::SUCCESS
}

// Times a file whose cells have the same raw text.
fn timed(rt: &HostRuntime, what: &str, text: &str) -> Option<()> {
    let alloc = rt.alloc();
    for rows in [1024u64, 2048, 4096] {
        let file = file_of(alloc, rows, text).ok()?;
        let bytes = file.len();
        let begun = Instant::now(rt).ok()?;
        let book = read_book(alloc, file.as_slice()).ok()?;
        let read = begun.elapsed(rt).ok()?.as_millis();
        let start = Instant::now(rt).ok()?;
        let same = is_written(alloc, &book, file.as_slice())?;
        let written = start.elapsed(rt).ok()?.as_millis();
        println!(rt; "{what}, {rows} rows, {bytes} bytes: read in {read} ms, written in {written} ms, the same: {same}").ok()?;
    }
    Some(())
}

// The file of one part, in which 26 columns of so many rows have the same raw text.
fn file_of(alloc: Global, rows: u64, text: &str) -> Result<Vec<u8>, Memory> {
    let mut file = Vec::from_slice(alloc, b"coolsheet 1\nparts 1\n".as_slice())?;
    for row in 0..rows {
        for column in b'A'..=LAST {
            file.extend_from_slice(b"0 ".as_slice())?;
            file.push(column)?;
            push_number(&mut file, row.wrapping_add(1))?;
            file.extend_from_slice(text.as_bytes())?;
            file.push(b'\n')?;
        }
    }
    Ok(file)
}

// Whether the book is written as this file.
fn is_written(alloc: Global, book: &Book, file: &[u8]) -> Option<bool> {
    if book.text_len() > 2_097_152 {
        return None;
    }
    let bytes = write_book(alloc, book).ok()?;
    Some(bytes.as_slice() == file)
}
END
cd crates/book_bench
rt "${@:-run}"
