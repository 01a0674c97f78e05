#!/usr/bin/env bash
# Calls a second through one shared hall, by one, two and four threads.
# It writes its program into a temporary folder beside copies of the crates that it stands on, proves and builds it there, and runs it.
# The argument is how many mails each thread posts (100000 if none is given).
set -eu
rounds="${1:-100000}"
top="$(cd "$(dirname "$0")/.." && pwd)"
work="$(mktemp -d)"
trap 'rm -rf "$work"' EXIT

mkdir -p "$work/crates/hall_bench/src"
for crate in cool_base turn_lock hall_machine hall_laws poll_hall; do
    tar -C "$top/crates" --exclude=out -cf - "$crate" | tar -C "$work/crates" -xf -
    grep "^$crate[ :]" "$top/crates.txt" >> "$work/crates.txt"
done
cp "$top/HANDLES" "$work/HANDLES"
echo "hall_bench: cool_base turn_lock hall_machine poll_hall anyhow" >> "$work/crates.txt"

cat > "$work/crates/hall_bench/src/main.rt" <<PROGRAM
//! Calls a second through one shared hall.
#![tactic(auto)]

ghost use Rattle.std.specs.Prelude.{◌≡◌};

use anyhow::Result;
use cool_base::FileId;
use hall_machine::{Entered, HallState, Label, Labelled, MailBag};
use poll_hall::Hall;
use std::alloc::Global;
use std::rt::Runtime;
use std::sync::Wait;
use std::thread;
use std::thread::Threads;
use std::time::Instant;
use turn_lock::{Seat, TurnLock};

const ROUNDS: u32 = $rounds;

#[derive(Drop)]
struct Note(u64);

impl Labelled for Note {
    ghost tag = { λ n. record { kind = 3; number = n.0 } };

    fn label(&self) -> Label {
        Label {
            kind: 3,
            number: self.0,
        }
    }
}

#[derive(Drop)]
struct Part<'a> {
    hall: &'a Hall<u32, Note>,
    seat: Seat<HallState<u32, Note>>,
    alloc: Global,
    who: u32,
    name: &'static str,
    calls: u64,
    ghost of_hall: { seat.lock ≡ hall.now.lock },
}

fn hire<'a>(
    hall: &'a Hall<u32, Note>,
    seat: Seat<HallState<u32, Note>>,
    alloc: Global,
    who: u32,
    name: &'static str,
) -> Part<'a>
    requires { seat.lock ≡ hall.now.lock }
{
    Part {
        hall,
        seat,
        alloc,
        who,
        name,
        calls: 0,
    }
}

impl<'a> Part<'a> {
    fn collect<R: Wait>(&mut self, rt: &R, doc: cool_base::DocId) {
        if let Ok(bag) = MailBag::new(self.alloc) {
            let ((answer, _bag), _) = self
                .hall
                .collect(rt, &mut self.seat, self.who, doc, bag);
            if answer.is_ok() {
                self.calls = self.calls.saturating_add(1);
            }
        }
    }

    fn post<R: Wait>(&mut self, rt: &R, doc: cool_base::DocId) {
        let (answer, _) = self
            .hall
            .post(rt, self.alloc, &mut self.seat, self.who, doc, Note(7), false);
        if answer.is_ok() {
            self.calls = self.calls.saturating_add(1);
        }
    }

    fn work<R: Wait>(&mut self, rt: &R) {
        let Some(file) = FileId::read(self.name) else {
            return;
        };
        let (answer, _) = self
            .hall
            .enter(rt, self.alloc, &mut self.seat, self.who, &file);
        if let Ok(Entered::Fresh(doc)) = answer {
            for k in 0..ROUNDS {
                self.post(rt, doc);
                if k % 16 == 15 {
                    self.collect(rt, doc);
                }
            }
        }
    }
}

fn measure<R: Runtime + Threads + Wait + Sync>(
    rt: &R,
    alloc: Global,
    threads: usize,
) -> Result<()> {
    let state = HallState::<u32, Note>::new(alloc, 4, 2097152)?;
    let (lock, mut seat) = TurnLock::new(alloc, state)?;
    let hall = Hall { lock };
    let first = hall.lock.split(&mut seat);
    let second = hall.lock.split(&mut seat);
    let third = hall.lock.split(&mut seat);
    let mut team = [
        hire(&hall, first, alloc, 0, "a"),
        hire(&hall, second, alloc, 1, "b"),
        hire(&hall, third, alloc, 2, "c"),
        hire(&hall, seat, alloc, 3, "d"),
    ];
    let start = Instant::now(rt)?;
    thread::for_each_mut(
        rt,
        &mut team[..threads.min(4)],
        threads.max(1),
        &|_, part: &mut Part| part.work(rt),
    );
    let spent = start.elapsed(rt)?.as_micros();
    let mut calls: u64 = 0;
    for part in &team {
        calls = calls.saturating_add(part.calls);
    }
    println!(rt; "{threads} threads: {calls} calls in {spent} microseconds")?;
    Ok(())
}

fn main(rt: HostRuntime) -> Result<()> {
    for threads in [1, 2, 4] {
        measure(&rt, rt.alloc(), threads)?;
    }
    Ok(())
}
PROGRAM

cd "$work/crates/hall_bench"
rt run
