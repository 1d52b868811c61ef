//! A program on threads, one for each hart and one for the clock, round a board behind one lock.

use crate::board::{Board, Refusal, Reply, State};
use crate::faults::is_guests;
use crate::script::{CLOCK, Line, Name, Script};
use crate::shared::{HartNow, Op, Rest, Seat, SharedBoard, View};
use std::thread;

/// How a run ended.
#[derive(Clone, Copy, PartialEq)]
pub enum End {
    Off,
    HistoryFull,
    Quiet,
    Stuck,
}

/// A thread's seat after its work, whether it met a full history, and whether its hart's guest did its whole block.
struct Worked {
    seat: Seat,
    met_full: bool,
    has_done: bool,
}

fn op_of(script: &Script, line: &Line) -> Op {
    let numbers = &script.numbers[line.first as usize..];
    Op::new(line.name, &numbers[..usize::from(line.count)])
}

/// What is left to do for the guest of a hart that is entered at an address.
fn block_at(script: &Script, at: u64) -> &[Line] {
    let found = script.blocks.iter().find(|block| block.addr == at);
    found.map_or(&[], |block| &script.lines[block.lines.clone()])
}

/// The next operation of a hart by what its thread sees and what its guest does next: a fence is served before all else,
/// and a fence call is ended as soon as it waits for no hart.
fn choice(script: &Script, now: &HartNow, guest: Option<&Line>) -> Option<Op> {
    let own = |name| Some(Op::new(name, &[]));
    if now.waiting > 0 && now.state.is_interruptible() {
        return own(Name::Serve);
    }
    if let Some(harts) = now.outstanding {
        return if harts == 0 { own(Name::Poll) } else { None };
    }
    match now.state {
        State::Stopped => None,
        State::Suspended if !now.wake => None,
        State::Started => guest
            .filter(|line| line.name != Name::Wfi || now.wake)
            .map(|line| op_of(script, line)),
        _ => own(Name::Advance),
    }
}

/// A hart's thread, until every seat rests.
fn follow(script: &Script, shared: &SharedBoard, mut seat: Seat) -> Worked {
    let mut left: &[Line] = &[];
    let mut met_full = false;
    loop {
        let view = shared.view(&seat);
        let Some(op) = next(script, &view, met_full, left.first()) else {
            if shared.rest(&seat, view.events) == Rest::AllRest {
                break;
            }
            continue;
        };
        match shared.call(&mut seat, op) {
            Ok(receipt) => match receipt.reply {
                Reply::Entry { addr, .. } => left = block_at(script, addr),
                _ if is_guests(op.name) => left = &left[1..],
                _ => {}
            },
            Err(Refusal::HistoryFull) => met_full = true,
            Err(_) => {}
        }
    }
    Worked {
        seat,
        met_full,
        has_done: left.is_empty(),
    }
}

/// What a hart's thread does by what it sees: nothing without power, nor after a full history.
fn next(script: &Script, view: &View, met_full: bool, guest: Option<&Line>) -> Option<Op> {
    let now = view.hart.as_ref().filter(|_| !view.is_off && !met_full)?;
    choice(script, now, guest)
}

/// The clock's thread: its ticks in order, up to one that is refused, and then rest.
fn tick(script: &Script, shared: &SharedBoard, mut seat: Seat) -> Worked {
    let ticks = &script.lines[script.ticks.clone()];
    let refused = ticks
        .iter()
        .find_map(|line| shared.call(&mut seat, op_of(script, line)).err());
    while shared.rest(&seat, shared.view(&seat).events) != Rest::AllRest {}
    Worked {
        seat,
        met_full: refused == Some(Refusal::HistoryFull),
        has_done: true,
    }
}

/// How it ended: the first of these that holds.
fn end_of(board: &Board, all: &[Worked]) -> End {
    let is_quiet = |worked: &Worked| {
        let h = usize::from(worked.seat.actor);
        let is_through = || worked.has_done && board.fences.calls[h].is_none();
        match board.harts.get(h).map(|hart| hart.state) {
            Some(State::Started) => is_through(),
            Some(state) => state == State::Stopped,
            None => true,
        }
    };
    if board.is_off {
        End::Off
    } else if all.iter().any(|worked| worked.met_full) {
        End::HistoryFull
    } else if all.iter().all(is_quiet) {
        End::Quiet
    } else {
        End::Stuck
    }
}

/// Runs a program on threads: the board after it, and how it ended.
pub fn run(script: &Script) -> Option<(Board, End)> {
    let (shared, seats) = SharedBoard::open(&script.config)?;
    let work = |seat: Seat| match seat.actor {
        CLOCK => tick(script, &shared, seat),
        _ => follow(script, &shared, seat),
    };
    let all: Vec<Worked> = thread::scope(|scope| {
        let threads: Vec<_> = seats
            .into_iter()
            .map(|seat| scope.spawn(|| work(seat)))
            .collect();
        let joined = threads.into_iter().filter_map(|thread| thread.join().ok());
        joined.collect()
    });
    let board = shared.close();
    let end = end_of(&board, &all);
    Some((board, end))
}
