//! The board behind one lock, with seats, receipts, views and rests.

use crate::board::{Board, Refusal, Reply, State};
use crate::script::{CLOCK, Line, Name};
use std::sync::{Condvar, Mutex, MutexGuard, PoisonError};

/// The right of one actor to make calls.
pub struct Seat {
    pub actor: u8,
    count: u64,
}

/// An operation with its numbers.
#[derive(Clone, Copy)]
pub struct Op {
    pub name: Name,
    count: u8,
    numbers: [u64; 8],
}

/// What an accepted call is told.
#[allow(dead_code)]
pub struct Receipt {
    actor: u8,
    ordinal: u64,
    place: u64,
    op: Op,
    pub reply: Reply,
}

/// What a thread sees of its hart, which the clock's has none of, and of the board.
pub struct View {
    pub hart: Option<HartNow>,
    pub is_off: bool,
    pub events: usize,
}

pub struct HartNow {
    pub state: State,
    /// The harts that its fence call waits for, inside one.
    pub outstanding: Option<u128>,
    /// How many fences wait at it.
    pub waiting: usize,
    pub wake: bool,
}

/// Why a rest is over.
#[derive(Clone, Copy, PartialEq)]
pub enum Rest {
    Changed,
    AllRest,
}

/// What comes of a seat that would rest: it waits, has its answer, or was the last one that didn't rest.
enum Pause {
    Waits,
    Over(Rest),
    Last,
}

/// What the lock holds: the board, and beside it how many events each actor has, which harts rest, and the clock, and whether
/// all rests are over.
struct Desk {
    board: Board,
    counts: Vec<u64>,
    resting: u128,
    clock_rests: bool,
    is_ended: bool,
}

pub struct SharedBoard {
    desk: Mutex<Desk>,
    changed: Condvar,
}

impl Op {
    pub fn new(name: Name, given: &[u64]) -> Op {
        let mut numbers = [0; 8];
        numbers[..given.len()].copy_from_slice(given);
        let count = given.len() as u8;
        Op {
            name,
            count,
            numbers,
        }
    }
}

impl Desk {
    fn harts(&self) -> usize {
        self.board.harts.len()
    }

    fn call(&mut self, seat: &mut Seat, op: Op) -> Result<Receipt, Refusal> {
        let number = usize::from(seat.actor).min(self.harts());
        if self.counts[number] != seat.count {
            return Err(Refusal::WrongPhase);
        }
        let place = self.board.events() as u64;
        let line = Line {
            first: 0,
            count: op.count,
            actor: seat.actor,
            name: op.name,
        };
        let numbers = &op.numbers[..usize::from(op.count)];
        let reply = self.board.step(line, numbers)?;
        self.counts[number] += 1;
        let ordinal = seat.count;
        seat.count += 1;
        Ok(Receipt {
            actor: seat.actor,
            ordinal,
            place,
            op,
            reply,
        })
    }

    /// No seat rests any more; and whether one did.
    fn wake(&mut self) -> bool {
        let rested = self.clock_rests || self.resting != 0;
        self.clock_rests = false;
        self.resting = 0;
        rested
    }

    fn view(&self, seat: &Seat) -> View {
        let board = &self.board;
        let h = usize::from(seat.actor);
        View {
            hart: (seat.actor != CLOCK).then(|| HartNow {
                state: board.harts[h].state,
                outstanding: board.fences.calls[h],
                waiting: board.fences.queues[h].len(),
                wake: board.wake(h),
            }),
            is_off: board.is_off,
            events: board.events(),
        }
    }

    /// The seat would rest, and has seen so many events.
    fn rest(&mut self, seat: &Seat, seen: usize) -> Pause {
        if self.is_ended {
            return Pause::Over(Rest::AllRest);
        }
        if self.board.events() != seen {
            return Pause::Over(Rest::Changed);
        }
        match seat.actor {
            CLOCK => self.clock_rests = true,
            h => self.resting |= 1 << h,
        }
        if !self.clock_rests || self.resting.count_ones() as usize != self.harts() {
            return Pause::Waits;
        }
        self.is_ended = true;
        Pause::Last
    }
}

impl SharedBoard {
    /// A board behind a lock, and the seats of its harts and its clock.
    pub fn open(config: &[u64; 8]) -> Option<(SharedBoard, Vec<Seat>)> {
        let board = Board::new(config)?;
        let harts = board.harts.len();
        let actors = (0..harts as u8).chain([CLOCK]);
        let seats = actors.map(|actor| Seat { actor, count: 0 }).collect();
        let desk = Desk {
            board,
            counts: vec![0; harts + 1],
            resting: 0,
            clock_rests: false,
            is_ended: false,
        };
        let shared = SharedBoard {
            desk: Mutex::new(desk),
            changed: Condvar::new(),
        };
        Some((shared, seats))
    }

    fn lock(&self) -> MutexGuard<'_, Desk> {
        self.desk.lock().unwrap_or_else(PoisonError::into_inner)
    }

    pub fn call(&self, seat: &mut Seat, op: Op) -> Result<Receipt, Refusal> {
        let mut desk = self.lock();
        let receipt = desk.call(seat, op)?;
        let rested = desk.wake();
        drop(desk);
        if rested {
            self.changed.notify_all();
        }
        Ok(receipt)
    }

    pub fn view(&self, seat: &Seat) -> View {
        self.lock().view(seat)
    }

    /// Waits until there is another number of events than the seat had seen, or every seat rests.
    pub fn rest(&self, seat: &Seat, seen: usize) -> Rest {
        let mut desk = self.lock();
        loop {
            match desk.rest(seat, seen) {
                Pause::Over(rest) => return rest,
                Pause::Last => {
                    self.changed.notify_all();
                    return Rest::AllRest;
                }
                Pause::Waits => {}
            }
            let waited = self.changed.wait(desk);
            desk = waited.unwrap_or_else(PoisonError::into_inner);
        }
    }

    /// Takes the board from behind its lock.
    pub fn close(self) -> Board {
        let desk = self.desk.into_inner();
        desk.unwrap_or_else(PoisonError::into_inner).board
    }
}
