//! The board: a step changes it, and adds an event to its history or is refused.

use crate::amo::Change;
use crate::fences::{Fence, Fences};
use crate::memory::{self, Access, Caches, Entry, RAM, Ram, WIDTHS, has_mode, is_valid};
use crate::script::{CLOCK, CUT, Line, Name};

const LAST_TIME: u64 = u64::MAX - 1;

#[derive(Clone, Copy, PartialEq)]
pub enum State {
    Started,
    Stopped,
    StartPending,
    StopPending,
    Suspended,
    SuspendPending,
    ResumePending,
}

impl State {
    pub fn is_interruptible(self) -> bool {
        matches!(
            self,
            State::Started | State::Suspended | State::SuspendPending | State::ResumePending
        )
    }

    pub fn name(self) -> &'static [u8] {
        match self {
            State::Started => b"STARTED",
            State::Stopped => b"STOPPED",
            State::StartPending => b"START_PENDING",
            State::StopPending => b"STOP_PENDING",
            State::Suspended => b"SUSPENDED",
            State::SuspendPending => b"SUSPEND_PENDING",
            State::ResumePending => b"RESUME_PENDING",
        }
    }
}

#[derive(Clone, Copy)]
pub enum Reply {
    Ret(i8, u64),
    Waiting,
    Gone,
    Entry { addr: u64, opaque: u64 },
    Value(u64),
    Fault(u8),
    Served,
    Moved(State),
    Done,
}

#[derive(Clone, Copy, PartialEq)]
pub enum Refusal {
    Off = 1,
    WrongPhase = 2,
    Nothing = 3,
    HistoryFull = 4,
    TimeFull = 5,
}

/// How many numbers an event has room for: of one that is whole, as a history of events by reference has them, so many
/// that it takes 80 bytes.
const ROOM: usize = if cfg!(whole) { 6 } else { 0 };

/// An accepted step, with its numbers, or else these in the board's own list.
#[derive(Clone)]
struct Event {
    line: Line,
    reply: Reply,
    numbers: [u64; ROOM],
}

#[derive(Clone)]
pub struct Hart {
    pub state: State,
    pub kept: Option<(u64, u64)>,
    pub deadline: Option<u64>,
    pub satp: u64,
    pub caches: Caches,
}

#[derive(Clone)]
pub struct Board {
    config: [u64; 8],
    /// The bits of an ASID that are kept.
    asids: u16,
    width: u32,
    pub harts: Vec<Hart>,
    pub ram: Ram,
    pub fences: Fences,
    interruptible: u128,
    pub ssip: u128,
    pub ssie: u128,
    pub stie: u128,
    pub sstatus_sie: u128,
    pub time: u64,
    pub starts: u64,
    pub entries: u64,
    pub is_off: bool,
    /// Type and reason of the last reset.
    pub last_reset: Option<(u32, u32)>,
    limit: usize,
    events: Vec<Event>,
    numbers: Vec<u64>,
    /// The entries that accesses used, each with its event's place.
    used: Vec<(u32, Entry)>,
}

fn set(bits: &mut u128, h: usize, value: bool) {
    *bits = *bits & !(1 << h) | u128::from(value) << h;
}

pub fn has(bits: u128, h: usize) -> bool {
    bits >> h & 1 == 1
}

fn is_start_address(pages: u64, addr: u64) -> bool {
    addr % 2 == 0 && (RAM..RAM + 4096 * pages).contains(&addr)
}

/// The remote SFENCE.VMA of a range, or none where the range is wrong.
fn fence_of(start: u64, size: u64, asid: Option<u16>) -> Option<Fence> {
    let is_full = start == 0 && size == 0 || size == u64::MAX;
    let is_right = is_full || size == 0 || start.checked_add(size - 1).is_some();
    is_right.then_some(Fence::Entries {
        range: (!is_full).then_some((start, size)),
        asid,
    })
}

impl Board {
    pub fn new(config: &[u64; 8]) -> Option<Board> {
        let [harts, pages, limit, boot_hart, boot_addr, boot_opaque, asid_len, width] = *config;
        let is_sized = (1..=128).contains(&harts)
            && (1..=256).contains(&pages)
            && (1..=1_000_000).contains(&limit);
        let has_spaces = asid_len <= 16 && WIDTHS.contains(&width);
        if !is_sized || !has_spaces || boot_hart >= harts || !is_start_address(pages, boot_addr) {
            return None;
        }
        let mut board = Board {
            config: *config,
            asids: ((1_u32 << asid_len) - 1) as u16,
            width: width as u32,
            harts: (0..harts)
                .map(|_| Hart {
                    state: State::Stopped,
                    kept: None,
                    deadline: None,
                    satp: 0,
                    caches: Caches::new(),
                })
                .collect(),
            ram: Ram::new(pages),
            fences: Fences::new(harts as usize),
            interruptible: 0,
            ssip: 0,
            ssie: 0,
            stie: 0,
            sstatus_sie: 0,
            time: 0,
            starts: 0,
            entries: 0,
            is_off: false,
            last_reset: None,
            limit: limit as usize,
            events: Vec::with_capacity(limit as usize),
            numbers: Vec::with_capacity(8 * limit as usize),
            used: Vec::with_capacity(limit as usize),
        };
        board.start(boot_hart as usize, boot_addr, boot_opaque);
        Some(board)
    }

    pub fn events(&self) -> usize {
        self.events.len()
    }

    /// The events, each with its numbers and its reply.
    pub fn history(&self) -> impl Iterator<Item = (Line, &[u64], Reply)> {
        self.events.iter().map(|event| {
            let count = usize::from(event.line.count);
            let numbers = if count <= ROOM {
                &event.numbers[..]
            } else {
                &self.numbers[event.line.first as usize..]
            };
            (event.line, &numbers[..count], event.reply)
        })
    }

    fn start(&mut self, h: usize, addr: u64, opaque: u64) {
        self.harts[h].kept = Some((addr, opaque));
        self.starts += 1;
        self.bring(h, State::StartPending);
    }

    fn bring(&mut self, h: usize, state: State) {
        self.harts[h].state = state;
        set(&mut self.interruptible, h, state.is_interruptible());
    }

    pub fn stip(&self, h: usize) -> bool {
        self.harts[h]
            .deadline
            .is_some_and(|deadline| deadline <= self.time)
    }

    pub fn wake(&self, h: usize) -> bool {
        has(self.ssip & self.ssie, h) || has(self.stie, h) && self.stip(h)
    }

    #[inline(always)]
    pub fn step(&mut self, line: Line, numbers: &[u64]) -> Result<Reply, Refusal> {
        if line.actor == CUT {
            self.events.clear();
            self.numbers.clear();
            self.used.clear();
            return Ok(Reply::Done);
        }
        if self.is_off {
            return Err(Refusal::Off);
        }
        let reply = if line.actor == CLOCK {
            self.clock_step(line.name, numbers)?
        } else {
            self.hart_step(usize::from(line.actor), line.name, numbers)?
        };
        let first = self.numbers.len() as u32;
        let mut kept = [0; ROOM];
        if numbers.len() <= ROOM {
            kept[..numbers.len()].copy_from_slice(numbers);
        } else {
            self.numbers.extend_from_slice(numbers);
        }
        self.events.push(Event {
            line: Line { first, ..line },
            reply,
            numbers: kept,
        });
        Ok(reply)
    }

    /// A step of which no history is kept.
    pub fn step_alone(&mut self, line: Line, numbers: &[u64]) -> Result<Reply, Refusal> {
        let answer = match line.actor {
            _ if self.is_off => Err(Refusal::Off),
            CLOCK => self.clock_step(line.name, numbers),
            h => self.hart_step(usize::from(h), line.name, numbers),
        };
        self.used.clear();
        answer
    }

    fn clock_step(&mut self, name: Name, numbers: &[u64]) -> Result<Reply, Refusal> {
        if name != Name::Tick {
            return Err(Refusal::WrongPhase);
        }
        if self.events.len() == self.limit {
            return Err(Refusal::HistoryFull);
        }
        let time = self
            .time
            .checked_add(numbers[0])
            .filter(|time| *time <= LAST_TIME);
        self.time = time.ok_or(Refusal::TimeFull)?;
        Ok(Reply::Done)
    }

    fn hart_step(&mut self, h: usize, name: Name, numbers: &[u64]) -> Result<Reply, Refusal> {
        let state = self.harts.get(h).ok_or(Refusal::WrongPhase)?.state;
        let call = self.fences.calls[h];
        let (is_in_phase, is_ready) = match name {
            Name::Tick => (false, false),
            Name::Advance => (
                state != State::Started,
                state != State::Stopped && (state != State::Suspended || self.wake(h)),
            ),
            Name::Poll => (call.is_some(), call == Some(0)),
            Name::Serve => (state.is_interruptible(), !self.fences.queues[h].is_empty()),
            _ => (
                state == State::Started && call.is_none(),
                name != Name::Wfi || self.wake(h),
            ),
        };
        if !is_in_phase {
            return Err(Refusal::WrongPhase);
        }
        if !is_ready {
            return Err(Refusal::Nothing);
        }
        if self.events.len() == self.limit {
            return Err(Refusal::HistoryFull);
        }
        Ok(self.perform(h, name, numbers))
    }

    fn perform(&mut self, h: usize, name: Name, numbers: &[u64]) -> Reply {
        match name {
            Name::Ecall => return self.call(h, numbers),
            Name::Load => return self.access(h, numbers[0], Access::Load),
            Name::Store => return self.access(h, numbers[0], Access::Store(numbers[1])),
            Name::Fetch => return self.access(h, numbers[0], Access::Fetch),
            Name::Amo(function) => return self.change(h, numbers[0], Change::Double(function, numbers[1])),
            Name::AmoHalf(function) => return self.change(h, numbers[0], Change::Half(function, numbers[1])),
            Name::Amocas => return self.change(h, numbers[0], Change::Cas(numbers[1], numbers[2])),
            Name::Store1 => return self.change(h, numbers[0], Change::Part(1, numbers[1])),
            Name::Store2 => return self.change(h, numbers[0], Change::Part(2, numbers[1])),
            Name::Store4 => return self.change(h, numbers[0], Change::Part(4, numbers[1])),
            Name::Advance => return self.advance(h),
            Name::Serve => {
                self.serve(h);
                return Reply::Served;
            }
            Name::Poll => {
                self.fences.calls[h] = None;
                return Reply::Ret(0, 0);
            }
            Name::Sip => {
                return Reply::Value(
                    u64::from(has(self.ssip, h)) << 1 | u64::from(self.stip(h)) << 5,
                );
            }
            Name::Satp => match numbers[0] >> 60 {
                0 => self.harts[h].satp = 0,
                mode if has_mode(mode, self.width) => {
                    self.harts[h].satp = numbers[0] & !(u64::from(!self.asids) << 44);
                }
                _ => {}
            },
            Name::Sie => {
                set(&mut self.ssie, h, numbers[0] >> 1 & 1 == 1);
                set(&mut self.stie, h, numbers[0] >> 5 & 1 == 1);
            }
            Name::Sstatus => set(&mut self.sstatus_sie, h, numbers[0] == 1),
            Name::Clearssip => set(&mut self.ssip, h, false),
            Name::Sfence => self.fence(h, Some(numbers[0]), Some(numbers[1])),
            Name::SfenceOfAddress => self.fence(h, Some(numbers[0]), None),
            Name::SfenceOfSpace => self.fence(h, None, Some(numbers[0])),
            Name::SfenceOfAll => self.fence(h, None, None),
            Name::Fencei => self.harts[h].caches.apply(Fence::Words),
            Name::Wfi | Name::Tick => {}
        }
        Reply::Done
    }

    fn access(&mut self, h: usize, va: u64, access: Access) -> Reply {
        let Hart { satp, caches, .. } = &mut self.harts[h];
        let (answer, used) = memory::perform(&mut self.ram, *satp, caches, va, access);
        if let Some(entry) = used {
            self.used.push((self.events.len() as u32, entry));
        }
        match (answer, access) {
            (Ok(_), Access::Store(_)) => Reply::Done,
            (Ok(_), Access::Change(_, change)) if !change.reads() => Reply::Done,
            (Ok(word), _) => Reply::Value(word),
            (Err(cause), _) => Reply::Fault(cause),
        }
    }

    fn change(&mut self, h: usize, va: u64, change: Change) -> Reply {
        if va % u64::from(change.size()) != 0 {
            return Reply::Fault(6);
        }
        let from = 8 * (va % 8) as u32;
        self.access(h, va - va % 8, Access::Change(from, change))
    }

    /// A local SFENCE.VMA: an address that isn't valid is a range of no byte.
    fn fence(&mut self, h: usize, va: Option<u64>, asid: Option<u64>) {
        let fence = Fence::Entries {
            range: va.map(|va| (va, u64::from(is_valid(va, self.width)))),
            asid: asid.map(|asid| asid as u16 & self.asids),
        };
        self.harts[h].caches.apply(fence);
    }

    fn serve(&mut self, h: usize) -> bool {
        let taken = self.fences.take(h);
        if let Some(fence) = taken {
            self.harts[h].caches.apply(fence);
        }
        taken.is_some()
    }

    fn advance(&mut self, h: usize) -> Reply {
        let moved = match self.harts[h].state {
            State::StopPending => State::Stopped,
            State::SuspendPending => State::Suspended,
            State::Suspended => State::ResumePending,
            State::StartPending => {
                self.entries += 1;
                self.harts[h].deadline = None;
                for bits in [&mut self.ssip, &mut self.ssie, &mut self.stie] {
                    set(bits, h, false);
                }
                State::Started
            }
            State::ResumePending | State::Started | State::Stopped => State::Started,
        };
        self.bring(h, moved);
        if moved != State::Started {
            return Reply::Moved(moved);
        }
        let Some((addr, opaque)) = self.harts[h].kept.take() else {
            return Reply::Ret(0, 0);
        };
        set(&mut self.sstatus_sie, h, false);
        self.harts[h].satp = 0;
        Reply::Entry { addr, opaque }
    }

    /// A call by hart `h`: its extension, its function, and the arguments that were written.
    fn call(&mut self, h: usize, numbers: &[u64]) -> Reply {
        let a = |i: usize| numbers.get(2 + i).copied().unwrap_or(0);
        match (numbers[0], numbers[1]) {
            (0x10, 0) => Reply::Ret(0, 0x100_0000),
            (0x10, 1) => Reply::Ret(0, 0x5A_5A5A),
            (0x10, 2) => Reply::Ret(0, 1),
            (0x10, 3) => Reply::Ret(
                0,
                u64::from(matches!(
                    a(0),
                    0x10 | 0x5449_4D45 | 0x73_5049 | 0x5246_4E43 | 0x48_534D | 0x5352_5354
                )),
            ),
            (0x10, 4..=6) => Reply::Ret(0, 0),
            (0x5449_4D45, 0) => {
                self.harts[h].deadline = Some(a(0));
                Reply::Ret(0, 0)
            }
            (0x73_5049, 0) => self.send_ipi(a(0), a(1)),
            (0x5246_4E43, 0) => self.remote_fence(h, a(0), a(1), Some(Fence::Words)),
            (0x5246_4E43, 1) => self.remote_fence(h, a(0), a(1), fence_of(a(2), a(3), None)),
            (0x5246_4E43, 2) => {
                let fence = fence_of(a(2), a(3), Some(a(4) as u16 & self.asids));
                self.remote_fence(h, a(0), a(1), fence)
            }
            (0x48_534D, 0) => self.hart_start(a(0), a(1), a(2)),
            (0x48_534D, 1) => self.hart_stop(h),
            (0x48_534D, 2) => match self.harts.get(a(0) as usize) {
                Some(hart) => Reply::Ret(0, hart.state as u64),
                None => Reply::Ret(-3, 0),
            },
            (0x48_534D, 3) => self.hart_suspend(h, a(0) as u32, a(1), a(2)),
            (0x5352_5354, 0) => self.system_reset(a(0) as u32, a(1) as u32),
            _ => Reply::Ret(-2, 0),
        }
    }

    /// The harts of a hart list, or none where it names one that isn't there.
    fn targets(&self, mask: u64, base: u64) -> Option<u128> {
        let harts = self.harts.len() as u64;
        if base == u64::MAX {
            return Some(u128::MAX);
        }
        let is_there = base < harts && u64::from(64 - mask.leading_zeros()) <= harts - base;
        is_there.then(|| u128::from(mask) << base)
    }

    fn send_ipi(&mut self, mask: u64, base: u64) -> Reply {
        let Some(targets) = self.targets(mask, base) else {
            return Reply::Ret(-3, 0);
        };
        self.ssip |= targets & self.interruptible;
        Reply::Ret(0, 0)
    }

    /// Asks a fence, or none where its range is wrong.
    fn remote_fence(&mut self, h: usize, mask: u64, base: u64, fence: Option<Fence>) -> Reply {
        let Some(targets) = self.targets(mask, base) else {
            return Reply::Ret(-3, 0);
        };
        let Some(fence) = fence else {
            return Reply::Ret(-5, 0);
        };
        let asked = targets & self.interruptible;
        self.fences.ask(h, asked, fence);
        if has(asked, h) {
            self.harts[h].caches.apply(fence);
        }
        Reply::Waiting
    }

    fn hart_start(&mut self, t: u64, addr: u64, opaque: u64) -> Reply {
        let Some(hart) = self.harts.get(t as usize) else {
            return Reply::Ret(-3, 0);
        };
        if !is_start_address(self.config[1], addr) {
            return Reply::Ret(-5, 0);
        }
        if hart.state != State::Stopped {
            return Reply::Ret(-6, 0);
        }
        self.start(t as usize, addr, opaque);
        Reply::Ret(0, 0)
    }

    fn hart_stop(&mut self, h: usize) -> Reply {
        if has(self.sstatus_sie, h) {
            return Reply::Ret(-1, 0);
        }
        while self.serve(h) {}
        self.harts[h].caches.clear();
        self.harts[h].deadline = None;
        self.bring(h, State::StopPending);
        Reply::Gone
    }

    fn system_reset(&mut self, kind: u32, reason: u32) -> Reply {
        match (kind, reason) {
            (3..=0xEFFF_FFFF, _) => return Reply::Ret(-3, 0),
            (0xF000_0000.., _) => return Reply::Ret(-2, 0),
            (_, 2..=0xDFFF_FFFF) => return Reply::Ret(-3, 0),
            _ => {}
        }
        for hart in &mut self.harts {
            hart.state = State::Stopped;
            hart.kept = None;
            hart.deadline = None;
            hart.satp = 0;
            hart.caches.clear();
        }
        self.fences.reset();
        self.interruptible = 0;
        self.ssip = 0;
        self.ssie = 0;
        self.stie = 0;
        self.sstatus_sie = 0;
        self.starts = 0;
        self.entries = 0;
        self.last_reset = Some((kind, reason));
        self.is_off = kind == 0;
        if kind == 1 {
            self.ram.clear();
        }
        if kind != 0 {
            let [_, _, _, hart, addr, opaque, ..] = self.config;
            self.start(hart as usize, addr, opaque);
        }
        Reply::Gone
    }

    fn hart_suspend(&mut self, h: usize, kind: u32, addr: u64, opaque: u64) -> Reply {
        let (kept, reply) = match kind {
            0 => (None, Reply::Waiting),
            0x8000_0000 if is_start_address(self.config[1], addr) => {
                (Some((addr, opaque)), Reply::Gone)
            }
            0x8000_0000 => return Reply::Ret(-5, 0),
            1..=0x0FFF_FFFF | 0x8000_0001..=0x8FFF_FFFF => return Reply::Ret(-3, 0),
            _ => return Reply::Ret(-2, 0),
        };
        self.harts[h].kept = kept;
        self.bring(h, State::SuspendPending);
        reply
    }
}
