//! Threads that make calls on a board behind a lock.

use crate::script::{CLOCK, Name};
use crate::shared::{Op, Seat, SharedBoard};
use std::hint::black_box;
use std::thread;
use std::time::Instant;

const HARTS: u64 = 8;

/// What the threads do: they read sip, or send an IPI to all harts.
pub fn op_of(word: &str) -> Option<Op> {
    match word {
        "sip" => Some(Op::new(Name::Sip, &[])),
        "ipi" => Some(Op::new(Name::Ecall, &[0x73_5049, 0, 0, u64::MAX])),
        _ => None,
    }
}

/// Opens a board of eight harts and starts all.
fn open() -> Option<(SharedBoard, Vec<Seat>)> {
    let config = [HARTS, 1, 1_000_000, 0, 0x8000_0000, 0, 16, 39];
    let (shared, mut seats) = SharedBoard::open(&config)?;
    let advance = Op::new(Name::Advance, &[]);
    shared.call(&mut seats[0], advance).ok()?;
    for h in 1..HARTS {
        let start = [0x48_534D, 0, h, 0x8000_0000, 0];
        let start = Op::new(Name::Ecall, &start);
        shared.call(&mut seats[0], start).ok()?;
        shared.call(&mut seats[h as usize], advance).ok()?;
    }
    Some((shared, seats))
}

/// Makes the calls, and drops their receipts.
fn make_calls(shared: &SharedBoard, mut seat: Seat, op: Op, calls: u64) -> Seat {
    for _ in 0..calls {
        let _ = black_box(shared.call(&mut seat, op));
    }
    seat
}

/// Each of so many harts makes so many calls, on a thread of its own: how many events there were, and how many
/// nanoseconds the threads took.
pub fn run(harts: u64, calls: u64, op: Op) -> Option<(usize, u128)> {
    let (shared, seats) = open()?;
    let began = Instant::now();
    let work = |seat: Seat| {
        let is_asked = seat.actor != CLOCK && u64::from(seat.actor) < harts;
        let calls = if is_asked { calls } else { 0 };
        make_calls(&shared, seat, op, calls)
    };
    thread::scope(|scope| {
        let all: Vec<_> = seats
            .into_iter()
            .map(|seat| scope.spawn(|| work(seat)))
            .collect();
        for one in all {
            black_box(one.join().is_ok());
        }
    });
    let took = began.elapsed().as_nanos();
    Some((shared.close().events(), took))
}
