//! Fences that wait, and the calls that wait for them.

use crate::board::has;
use std::collections::VecDeque;

#[derive(Clone, Copy)]
pub enum Fence {
    /// A FENCE.I: all fetched words.
    Words,
    /// An SFENCE.VMA: the entries of a range, its start and its size, or of all addresses; of an address space, or of
    /// all.
    Entries {
        range: Option<(u64, u64)>,
        asid: Option<u16>,
    },
}

/// A fence that waits, with its caller.
pub type Request = (u8, Fence);

#[derive(Clone)]
pub struct Fences {
    /// What waits at each hart.
    pub queues: Vec<VecDeque<Request>>,
    /// The harts that each hart inside a call waits for.
    pub calls: Vec<Option<u128>>,
    pub asked: u64,
    pub applied: u64,
}

impl Fences {
    pub fn new(harts: usize) -> Fences {
        Fences {
            queues: (0..harts).map(|_| VecDeque::with_capacity(harts)).collect(),
            calls: vec![None; harts],
            asked: 0,
            applied: 0,
        }
    }

    /// Hart `h` asks a fence of these harts, and is inside the call. At `h` itself it counts as applied.
    pub fn ask(&mut self, h: usize, targets: u128, fence: Fence) {
        let others = targets & !(1 << h);
        let mut rest = others;
        while rest != 0 {
            let t = rest.trailing_zeros() as usize;
            self.queues[t].push_back((h as u8, fence));
            rest &= rest - 1;
        }
        self.calls[h] = Some(others);
        self.asked += u64::from(targets.count_ones());
        self.applied += u64::from(has(targets, h));
    }

    /// Takes the first fence that waits at `h`: its caller no longer waits for this hart.
    pub fn take(&mut self, h: usize) -> Option<Fence> {
        let (caller, fence) = self.queues[h].pop_front()?;
        if let Some(outstanding) = &mut self.calls[usize::from(caller)] {
            *outstanding &= !(1 << h);
        }
        self.applied += 1;
        Some(fence)
    }

    /// A reset: what waits counts as applied, and no hart is inside a call.
    pub fn reset(&mut self) {
        for queue in &mut self.queues {
            queue.clear();
        }
        self.calls.fill(None);
        self.applied = self.asked;
    }
}
