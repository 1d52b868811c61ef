//! Orders of a program's steps, picked at random in place of threads, with three conditions that are judged of each.

use crate::board::{Board, Reply, State};
use crate::faults::is_guests;
use crate::script::{CLOCK, Line, Name, Script};
use std::collections::BTreeSet;
use std::thread;

/// What was found: the records by what is kept of them, and how many orders meet each condition.
#[derive(Default)]
struct Found {
    records: BTreeSet<Vec<u16>>,
    holding: [u64; 3],
}

struct Words(u64);

impl Words {
    fn next(&mut self) -> u64 {
        self.0 = self.0.wrapping_add(0x9e37_79b9_7f4a_7c15);
        let mixed = (self.0 ^ self.0 >> 30).wrapping_mul(0xbf58_476d_1ce4_e5b9);
        let mixed = (mixed ^ mixed >> 27).wrapping_mul(0x94d0_49bb_1331_11eb);
        mixed ^ mixed >> 31
    }
}

fn own(actor: u8, name: Name) -> Line {
    Line { first: 0, count: 0, actor, name }
}

fn block_at(script: &Script, at: u64) -> &[Line] {
    let found = script.blocks.iter().find(|block| block.addr == at);
    found.map_or(&[], |block| &script.lines[block.lines.clone()])
}

/// Puts all steps that can be taken into a list, where this is what each guest, and the clock, does next.
pub fn list(
    board: &Board,
    next: impl Fn(usize) -> Option<Line>,
    tick: Option<Line>,
    steps: &mut Vec<Line>,
) {
    steps.clear();
    if board.is_off {
        return;
    }
    for (h, hart) in board.harts.iter().enumerate() {
        let call = board.fences.calls[h];
        if hart.state.is_interruptible() && !board.fences.queues[h].is_empty() {
            steps.push(own(h as u8, Name::Serve));
        }
        if call == Some(0) {
            steps.push(own(h as u8, Name::Poll));
        }
        let goes = hart.state != State::Started && hart.state != State::Stopped;
        if goes && (hart.state != State::Suspended || board.wake(h)) {
            steps.push(own(h as u8, Name::Advance));
        }
        if hart.state == State::Started && call.is_none() {
            let guest = next(h).filter(|line| line.name != Name::Wfi || board.wake(h));
            steps.extend(guest.map(|line| Line { actor: h as u8, ..line }));
        }
    }
    steps.extend(tick.map(|line| Line { actor: CLOCK, ..line }));
}

/// Tries an order on a new board.
fn try_order(script: &Script, words: &mut Words, steps: &mut Vec<Line>) -> Option<Board> {
    let mut board = Board::new(&script.config)?;
    let mut left: Vec<&[Line]> = vec![&[]; board.harts.len()];
    let mut ticks = &script.lines[script.ticks.clone()];
    while board.events() < script.config[2] as usize {
        list(&board, |h| left[h].first().copied(), ticks.first().copied(), steps);
        if steps.is_empty() {
            break;
        }
        let line = steps[(words.next() % steps.len() as u64) as usize];
        let numbers = &script.numbers[line.first as usize..][..usize::from(line.count)];
        let reply = board.step(line, numbers).ok()?;
        if line.actor == CLOCK {
            ticks = &ticks[1..];
        } else if let Reply::Entry { addr, .. } = reply {
            left[usize::from(line.actor)] = block_at(script, addr);
        } else if is_guests(line.name) {
            let block = &mut left[usize::from(line.actor)];
            *block = &block[1..];
        }
    }
    Some(board)
}

fn kept(line: Line) -> u16 {
    let own = match line.name {
        Name::Serve => 1,
        Name::Poll => 2,
        Name::Advance => 3,
        _ => 0,
    };
    4 * u16::from(line.actor) + own
}

/// The conditions of `bench/orders.py`: no load of this value, each poll succeeds, and the end, of which any is good here.
fn judge(board: &Board, found: &mut Found) {
    let holds = [
        !board.history().any(|(line, numbers, reply)| line.name == Name::Load && numbers[0] == 0x8000_2000 && matches!(reply, Reply::Value(0x99))),
        board.history().all(|(line, _, reply)| line.name != Name::Poll || matches!(reply, Reply::Ret(0, _))),
        !board.is_off,
    ];
    for (count, holds) in found.holding.iter_mut().zip(holds) {
        *count += u64::from(holds);
    }
    found.records.insert(board.history().map(|(line, _, _)| kept(line)).collect());
}

/// Tries so many orders, on so many threads: how many different records there were.
pub fn run(script: &Script, times: u64, jobs: u64) -> Option<usize> {
    let share = |job: u64| {
        let mut found = Found::default();
        let mut steps = Vec::new();
        for order in (job..times).step_by(jobs as usize) {
            let board = try_order(script, &mut Words(order), &mut steps)?;
            judge(&board, &mut found);
        }
        Some(found)
    };
    let share = &share;
    let all: Vec<Option<Found>> = thread::scope(|scope| {
        let threads: Vec<_> = (0..jobs).map(|job| scope.spawn(move || share(job))).collect();
        threads.into_iter().filter_map(|thread| thread.join().ok()).collect()
    });
    let mut whole = Found::default();
    for found in all {
        let mut found = found?;
        whole.records.append(&mut found.records);
        for (count, more) in whole.holding.iter_mut().zip(found.holding) {
            *count += more;
        }
    }
    (whole.holding == [times; 3]).then_some(whole.records.len())
}
