//! The words by which states of a program on a board are told apart: its present values, as replies see them.

use crate::board::Board;
use crate::fences::Fence;
use crate::memory::Caches;

fn put_if(out: &mut Vec<u64>, number: Option<u64>) {
    out.push(u64::from(number.is_some()));
    out.extend(number);
}

fn put_set(out: &mut Vec<u64>, harts: u128) {
    out.extend([harts as u64, (harts >> 64) as u64]);
}

fn put_fence(out: &mut Vec<u64>, fence: Fence) {
    match fence {
        Fence::Words => out.push(0),
        Fence::Entries { range, asid } => {
            out.push(1);
            put_if(out, asid.map(u64::from));
            out.push(u64::from(range.is_some()));
            out.extend(range.into_iter().flat_map(|(start, size)| [start, size]));
        }
    }
}

/// The words of the RAM that aren't 0, each behind its place, and at the end the size of the RAM.
fn put_ram(out: &mut Vec<u64>, ram: &[u64]) {
    for (place, word) in ram.iter().enumerate() {
        if *word != 0 {
            out.extend([place as u64, *word]);
        }
    }
    out.push(ram.len() as u64);
}

/// What lives in the caches of a hart. Of a fill's number it has only how many more leave it live.
fn put_caches(out: &mut Vec<u64>, caches: &Caches) {
    out.push(u64::from(caches.tlb.len()) << 32 | u64::from(caches.words.len()));
    for (life, entry) in caches.tlb.lives() {
        let flags = u64::from(entry.asid) << 16 | u64::from(entry.level) << 8 | u64::from(entry.bits);
        out.extend([u64::from(life) << 32 | flags, entry.page, entry.pa]);
    }
    for (life, (pa, word)) in caches.words.lives() {
        out.extend([u64::from(life), pa, word]);
    }
}

/// What waits at hart `h`, and whether it is inside a call.
fn put_fences(out: &mut Vec<u64>, board: &Board, h: usize) {
    let queue = &board.fences.queues[h];
    out.push(queue.len() as u64);
    for (from, fence) in queue {
        out.push(u64::from(*from));
        put_fence(out, *fence);
    }
    out.push(u64::from(board.fences.calls[h].is_some()));
}

/// Puts the words of a board into a list, where these harts are idle: the caches of such a hart are as if they were empty.
pub fn put(out: &mut Vec<u64>, board: &Board, is_idle: impl Fn(usize) -> bool) {
    for (h, hart) in board.harts.iter().enumerate() {
        out.push(hart.state as u64);
        out.push(u64::from(hart.kept.is_some()));
        out.extend(hart.kept.into_iter().flat_map(|(addr, opaque)| [addr, opaque]));
        put_if(out, hart.deadline);
        out.push(hart.satp);
        if is_idle(h) {
            out.push(0);
        } else {
            put_caches(out, &hart.caches);
        }
        put_fences(out, board, h);
    }
    for harts in [board.sstatus_sie, board.ssie, board.stie, board.ssip] {
        put_set(out, harts);
    }
    out.push(board.time);
    put_ram(out, board.ram.words());
    let reset = board.last_reset.map(|(kind, reason)| u64::from(kind) << 32 | u64::from(reason));
    put_if(out, reset);
}
