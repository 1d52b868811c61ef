//! Reads a script. A line of a schedule, a trace or a program is looked at once; only where it is none is it looked
//! through for its fault.

use crate::amo::Function;
use crate::faults;
use std::collections::BTreeSet;
use std::ops::Range;

/// The most bytes that a script has.
pub const MOST_BYTES: usize = 16_777_216;

/// The actor that is no hart.
pub const CLOCK: u8 = 255;

/// The actor of a line `cut`, which has none, and no operation.
pub const CUT: u8 = 254;

/// ASIDLEN and WIDTH of a board whose line leaves them out.
pub const USUAL_SPACES: [u64; 2] = [16, 39];

/// An operation by its name.
#[derive(Clone, Copy, PartialEq, Eq)]
pub enum Name {
    Ecall,
    Load,
    Store,
    Fetch,
    Satp,
    Sie,
    Sstatus,
    Sip,
    Clearssip,
    /// An `sfence` with its address and its ASID, with one of them, or with none.
    Sfence,
    SfenceOfAddress,
    SfenceOfSpace,
    SfenceOfAll,
    Fencei,
    Wfi,
    /// An AMO on 8 bytes, and one on 4.
    Amo(Function),
    AmoHalf(Function),
    Amocas,
    Store1,
    Store2,
    Store4,
    Poll,
    Serve,
    Advance,
    Tick,
}

impl Name {
    #[inline(always)]
    pub fn of(word: &[u8]) -> Option<Name> {
        Some(match word {
            b"ecall" => Name::Ecall,
            b"load" => Name::Load,
            b"store" => Name::Store,
            b"fetch" => Name::Fetch,
            b"satp" => Name::Satp,
            b"sie" => Name::Sie,
            b"sstatus" => Name::Sstatus,
            b"sip" => Name::Sip,
            b"clearssip" => Name::Clearssip,
            b"sfence" => Name::Sfence,
            b"fencei" => Name::Fencei,
            b"wfi" => Name::Wfi,
            b"amoswap" => Name::Amo(Function::Swap),
            b"amoadd" => Name::Amo(Function::Add),
            b"amoand" => Name::Amo(Function::And),
            b"amoor" => Name::Amo(Function::Or),
            b"amoxor" => Name::Amo(Function::Xor),
            b"amomin" => Name::Amo(Function::Min),
            b"amomax" => Name::Amo(Function::Max),
            b"amominu" => Name::Amo(Function::Minu),
            b"amomaxu" => Name::Amo(Function::Maxu),
            b"amoswap.w" => Name::AmoHalf(Function::Swap),
            b"amoadd.w" => Name::AmoHalf(Function::Add),
            b"amoand.w" => Name::AmoHalf(Function::And),
            b"amoor.w" => Name::AmoHalf(Function::Or),
            b"amoxor.w" => Name::AmoHalf(Function::Xor),
            b"amomin.w" => Name::AmoHalf(Function::Min),
            b"amomax.w" => Name::AmoHalf(Function::Max),
            b"amominu.w" => Name::AmoHalf(Function::Minu),
            b"amomaxu.w" => Name::AmoHalf(Function::Maxu),
            b"amocas" => Name::Amocas,
            b"store1" => Name::Store1,
            b"store2" => Name::Store2,
            b"store4" => Name::Store4,
            b"poll" => Name::Poll,
            b"serve" => Name::Serve,
            b"advance" => Name::Advance,
            b"tick" => Name::Tick,
            _ => return None,
        })
    }

    pub fn word(self) -> &'static [u8] {
        match self {
            Name::Ecall => b" ecall",
            Name::Load => b" load",
            Name::Store => b" store",
            Name::Fetch => b" fetch",
            Name::Satp => b" satp",
            Name::Sie => b" sie",
            Name::Sstatus => b" sstatus",
            Name::Sip => b" sip",
            Name::Clearssip => b" clearssip",
            Name::Sfence | Name::SfenceOfSpace => b" sfence",
            Name::SfenceOfAddress | Name::SfenceOfAll => b" sfence",
            Name::Fencei => b" fencei",
            Name::Wfi => b" wfi",
            Name::Amo(Function::Swap) => b" amoswap",
            Name::Amo(Function::Add) => b" amoadd",
            Name::Amo(Function::And) => b" amoand",
            Name::Amo(Function::Or) => b" amoor",
            Name::Amo(Function::Xor) => b" amoxor",
            Name::Amo(Function::Min) => b" amomin",
            Name::Amo(Function::Max) => b" amomax",
            Name::Amo(Function::Minu) => b" amominu",
            Name::Amo(Function::Maxu) => b" amomaxu",
            Name::AmoHalf(Function::Swap) => b" amoswap.w",
            Name::AmoHalf(Function::Add) => b" amoadd.w",
            Name::AmoHalf(Function::And) => b" amoand.w",
            Name::AmoHalf(Function::Or) => b" amoor.w",
            Name::AmoHalf(Function::Xor) => b" amoxor.w",
            Name::AmoHalf(Function::Min) => b" amomin.w",
            Name::AmoHalf(Function::Max) => b" amomax.w",
            Name::AmoHalf(Function::Minu) => b" amominu.w",
            Name::AmoHalf(Function::Maxu) => b" amomaxu.w",
            Name::Amocas => b" amocas",
            Name::Store1 => b" store1",
            Name::Store2 => b" store2",
            Name::Store4 => b" store4",
            Name::Poll => b" poll",
            Name::Serve => b" serve",
            Name::Advance => b" advance",
            Name::Tick => b" tick",
        }
    }

    /// How many numbers follow at least and at most, and the largest that they may be.
    pub fn places(self) -> (usize, usize, u64) {
        match self {
            Name::Ecall => (2, 8, u64::MAX),
            Name::Sstatus => (1, 1, 1),
            Name::Load | Name::Fetch | Name::Satp | Name::Sie | Name::Tick => (1, 1, u64::MAX),
            Name::Store | Name::Sfence => (2, 2, u64::MAX),
            Name::Amo(_) | Name::AmoHalf(_) => (2, 2, u64::MAX),
            Name::Store1 | Name::Store2 | Name::Store4 => (2, 2, u64::MAX),
            Name::Amocas => (3, 3, u64::MAX),
            _ => (0, 0, u64::MAX),
        }
    }
}

/// A step: its numbers are `count` of those beside it, from `first` on.
#[derive(Clone, Copy)]
pub struct Line {
    pub first: u32,
    pub count: u8,
    pub actor: u8,
    pub name: Name,
}

/// What a trace says that a step gave.
#[derive(Clone, Copy, PartialEq)]
pub enum SaidName {
    Ret,
    Waiting,
    Gone,
    Entry,
    Value,
    Fault,
    Served,
    Moved,
    Done,
    Refused,
}

impl SaidName {
    #[inline(always)]
    pub fn of(word: &[u8]) -> Option<SaidName> {
        Some(match word {
            b"ret" => SaidName::Ret,
            b"waiting" => SaidName::Waiting,
            b"gone" => SaidName::Gone,
            b"entry" => SaidName::Entry,
            b"value" => SaidName::Value,
            b"fault" => SaidName::Fault,
            b"served" => SaidName::Served,
            b"moved" => SaidName::Moved,
            b"done" => SaidName::Done,
            b"refused" => SaidName::Refused,
            _ => return None,
        })
    }

    /// How many numbers follow, the error of `ret` among them.
    pub fn count(self) -> usize {
        match self {
            SaidName::Ret => 2,
            SaidName::Entry => 3,
            SaidName::Value | SaidName::Fault | SaidName::Moved | SaidName::Refused => 1,
            SaidName::Waiting | SaidName::Gone | SaidName::Served | SaidName::Done => 0,
        }
    }
}

/// What the line of a trace says, and where: its numbers are those behind the step's.
#[derive(Clone, Copy)]
pub struct Said {
    pub line: u32,
    pub name: SaidName,
}

#[derive(Clone, Copy, PartialEq)]
pub enum Kind {
    Empty,
    Program,
    Schedule,
    Trace,
}

/// What a hart's guest does that is entered at this address: so many of the script's lines.
pub struct Block {
    pub addr: u64,
    pub lines: Range<usize>,
}

pub struct Script {
    pub config: [u64; 8],
    pub kind: Kind,
    pub lines: Vec<Line>,
    /// Those of a program, and the lines of its clock.
    pub blocks: Vec<Block>,
    pub ticks: Range<usize>,
    /// One for each line of a trace.
    pub said: Vec<Said>,
    pub numbers: Vec<u64>,
}

/// A line's number and its fault.
pub struct Fault(pub u64, pub u8);

const fn hex_values() -> [u8; 256] {
    let mut values = [255; 256];
    let mut i = 0;
    while i < 16 {
        values[b"0123456789abcdef"[i] as usize] = i as u8;
        values[b"0123456789ABCDEF"[i] as usize] = i as u8;
        i += 1;
    }
    values
}

static HEX_VALUES: [u8; 256] = hex_values();

pub fn is_allowed(byte: u8) -> bool {
    matches!(byte, b' '..=b'~' | b'\t')
}

fn ends_word(byte: u8) -> bool {
    matches!(byte, b' ' | b'\t' | b'#' | b'\n' | b'\r')
}

/// The bytes of a script from `at` on. A line feed stands behind the last byte, which is before `end`.
struct Reader<'a> {
    bytes: &'a [u8],
    at: usize,
    end: usize,
}

impl<'a> Reader<'a> {
    #[inline(always)]
    fn peek(&self) -> u8 {
        self.bytes[self.at]
    }

    /// The next byte of the line that is no blank.
    #[inline(always)]
    fn skip_gap(&mut self) -> u8 {
        let mut at = self.at;
        while matches!(self.bytes[at], b' ' | b'\t') {
            at += 1;
        }
        self.at = at;
        self.bytes[at]
    }

    #[inline(always)]
    fn word(&mut self) -> &'a [u8] {
        let start = self.at;
        let mut at = start;
        while !ends_word(self.bytes[at]) {
            at += 1;
        }
        self.at = at;
        &self.bytes[start..at]
    }

    /// Goes past the end of a line that has no more words, if its other bytes are allowed.
    #[inline(always)]
    fn end_line(&mut self) -> Option<()> {
        let mut at = self.at;
        while is_allowed(self.bytes[at]) {
            at += 1;
        }
        if self.bytes[at] == b'\r' && at + 1 < self.end {
            at += 1;
        }
        self.at = at + 1;
        (self.bytes[at] == b'\n').then_some(())
    }

    /// The number whose digits begin at `start`.
    #[inline(always)]
    fn digits<const RADIX: u64>(&mut self, start: usize) -> Option<u64> {
        let mut at = start;
        let mut n = 0_u64;
        loop {
            let byte = self.bytes[at];
            let digit = u64::from(HEX_VALUES[usize::from(byte)]);
            if digit >= RADIX {
                self.at = at;
                return (at > start && ends_word(byte)).then_some(n);
            }
            n = match RADIX {
                16 => (n >> 60 == 0).then_some(n << 4 | digit)?,
                _ => n.checked_mul(RADIX)?.checked_add(digit)?,
            };
            at += 1;
        }
    }

    #[inline(always)]
    fn number(&mut self) -> Option<u64> {
        match &self.bytes[self.at..] {
            [b'0', b'x', ..] => self.digits::<16>(self.at + 2),
            _ => self.digits::<10>(self.at),
        }
    }

    #[inline(always)]
    fn signed_number(&mut self) -> Option<u64> {
        if self.peek() == b'-' {
            let n = self.digits::<10>(self.at + 1)?;
            (n <= 1 << 63).then_some(n.wrapping_neg())
        } else {
            let n = self.digits::<10>(self.at)?;
            (n < 1 << 63).then_some(n)
        }
    }

    /// The numbers up to the line's end or to a dash, at most `most` of them and each at most `limit`.
    #[inline(always)]
    fn numbers(&mut self, most: usize, limit: u64, into: &mut Vec<u64>) -> Option<usize> {
        let mut count = 0;
        while !matches!(self.skip_gap(), b'\n' | b'\r' | b'#' | b'-') {
            if count == most {
                return None;
            }
            into.push(self.number().filter(|n| *n <= limit)?);
            count += 1;
        }
        Some(count)
    }

    /// Whether no word follows.
    #[inline(always)]
    fn is_at_end(&self) -> bool {
        matches!(self.peek(), b'\n' | b'\r' | b'#')
    }

    /// Goes past an arrow, if there is one.
    #[inline(always)]
    fn arrow(&mut self) -> bool {
        let is_arrow =
            matches!(&self.bytes[self.at..], [b'-', b'>', end, ..] if ends_word(*end));
        self.at += 2 * usize::from(is_arrow);
        is_arrow
    }

    /// The word up to a blank or the line's end is a dash.
    fn dash(&mut self) -> bool {
        let is_dash = self.peek() == b'-' && ends_word(self.bytes[self.at + 1]);
        self.at += usize::from(is_dash);
        is_dash
    }

    /// The address and the ASID of an `sfence`, each a number or a dash: which of them are there.
    fn fence_numbers(&mut self, into: &mut Vec<u64>) -> Option<Name> {
        let mut is_there = [true; 2];
        for it in &mut is_there {
            self.skip_gap();
            *it = !self.dash();
            if *it {
                into.push(self.number()?);
            }
        }
        matches!(self.skip_gap(), b'\n' | b'\r' | b'#' | b'-').then_some(match is_there {
            [true, true] => Name::Sfence,
            [true, false] => Name::SfenceOfAddress,
            [false, true] => Name::SfenceOfSpace,
            [false, false] => Name::SfenceOfAll,
        })
    }

    /// The board's numbers, if the line has words.
    fn board_line(&mut self) -> Option<Option<[u64; 8]>> {
        if matches!(self.skip_gap(), b'\n' | b'\r' | b'#') {
            return self.end_line().map(|()| None);
        }
        if self.word() != b"board" {
            return None;
        }
        let mut found = Vec::new();
        if self.numbers(8, u64::MAX, &mut found)? == 6 {
            found.extend(USUAL_SPACES);
        }
        self.is_at_end().then_some(())?;
        self.end_line()?;
        found.try_into().ok().map(Some)
    }

    /// What a trace says, behind its arrow.
    #[inline(always)]
    fn said(&mut self, into: &mut Vec<u64>) -> Option<SaidName> {
        self.skip_gap();
        let name = SaidName::of(self.word())?;
        let mut left = name.count();
        if name == SaidName::Ret {
            self.skip_gap();
            into.push(self.signed_number()?);
            left -= 1;
        }
        (self.numbers(left, u64::MAX, into)? == left && self.is_at_end()).then_some(name)
    }

    /// An operation: its name, where its numbers begin, and how many there are.
    #[inline(always)]
    fn operation(&mut self, into: &mut Vec<u64>) -> Option<(Name, u32, u8)> {
        let mut name = Name::of(self.word())?;
        let first = into.len();
        if name == Name::Sfence {
            name = self.fence_numbers(into)?;
        } else {
            let (least, most, limit) = name.places();
            if self.numbers(most, limit, into)? < least {
                return None;
            }
        }
        Some((name, first as u32, (into.len() - first) as u8))
    }

    /// Adds the step of a line, if it has words and is of the script's kind.
    #[inline(always)]
    fn step_line(&mut self, number: u64, script: &mut Script) -> Option<()> {
        let actor = match self.skip_gap() {
            b'\n' | b'\r' | b'#' => return self.end_line(),
            b'c' => match self.word() {
                b"c" => CLOCK,
                b"cut" => CUT,
                _ => return None,
            },
            _ => self.number().filter(|n| *n < 128)? as u8,
        };
        self.skip_gap();
        let (name, first, count) = if actor == CUT {
            let first = script.numbers.len() as u32;
            (self.is_at_end() || self.peek() == b'-').then_some((Name::Tick, first, 0))?
        } else {
            self.operation(&mut script.numbers)?
        };
        if self.peek() != b'-' {
            script.must_be(Kind::Schedule, self.end)?;
        } else {
            self.arrow().then_some(())?;
            script.must_be(Kind::Trace, self.end)?;
            let said = Said {
                name: self.said(&mut script.numbers)?,
                line: number as u32,
            };
            script.said.push(said);
        }
        self.end_line()?;
        script.lines.push(Line {
            first,
            count,
            actor,
            name,
        });
        Some(())
    }

    /// Adds the blocks of a program.
    fn program(&mut self, script: &mut Script) -> Option<()> {
        let mut seen = Heads::default();
        script.kind = Kind::Program;
        // An operation of a program has at least three bytes and its line feed.
        script.lines.reserve(self.end / 4 + 1);
        while self.at < self.end {
            if !matches!(self.skip_gap(), b'\n' | b'\r' | b'#') {
                self.program_line(script, &mut seen)?;
                self.is_at_end().then_some(())?;
            }
            self.end_line()?;
        }
        Some(())
    }

    /// Adds the head of a block, or an operation to the last one.
    fn program_line(&mut self, script: &mut Script, seen: &mut Heads) -> Option<()> {
        let (start, end) = (self.at, script.lines.len());
        let word = self.word();
        if word == b"clock" {
            self.skip_gap();
            script.ticks = end..end;
            seen.is_in_clock = true;
            return (!std::mem::replace(&mut seen.clock, true)).then_some(());
        }
        if word == b"at" {
            self.skip_gap();
            let addr = self.number()?;
            self.skip_gap();
            let lines = end..end;
            script.blocks.push(Block { addr, lines });
            seen.is_in_clock = false;
            return seen.addresses.insert(addr).then_some(());
        }
        self.at = start;
        let (name, first, count) = self.operation(&mut script.numbers)?;
        let (actor, lines, is_right) = if seen.is_in_clock {
            (CLOCK, &mut script.ticks, name == Name::Tick)
        } else {
            let block = script.blocks.last_mut()?;
            (0, &mut block.lines, faults::is_guests(name))
        };
        lines.end += 1;
        script.lines.push(Line {
            first,
            count,
            actor,
            name,
        });
        is_right.then_some(())
    }
}

/// The blocks that a program has so far.
#[derive(Default)]
struct Heads {
    addresses: BTreeSet<u64>,
    clock: bool,
    is_in_clock: bool,
}

impl Script {
    /// The first line sets the kind, and the others must be of it.
    #[inline(always)]
    fn must_be(&mut self, kind: Kind, size: usize) -> Option<()> {
        if self.kind == kind {
            return Some(());
        }
        (self.kind == Kind::Empty).then_some(())?;
        self.kind = kind;
        if kind == Kind::Trace {
            // A line of a trace has at least 13 bytes and its line feed.
            self.said = Vec::with_capacity(size / 14 + 1);
        }
        Some(())
    }
}

pub fn parse(bytes: &mut Vec<u8>) -> Result<Script, Fault> {
    if bytes.len() > MOST_BYTES {
        return Err(Fault(0, 8));
    }
    let end = bytes.len();
    bytes.push(b'\n');
    let mut reader = Reader { bytes, at: 0, end };
    let mut number = 0;
    let config = loop {
        if reader.at >= end {
            return Err(Fault(0, 2));
        }
        number += 1;
        let start = reader.at;
        match reader.board_line() {
            Some(Some(config)) => break config,
            Some(None) => {}
            None => return Err(Fault(number, faults::of_board_line(&bytes[start..end]))),
        }
    };
    // A step has at least five bytes and its line feed, and a number at least two with the blank before it.
    let mut script = Script {
        config,
        kind: Kind::Empty,
        lines: Vec::with_capacity(end / 6 + 1),
        blocks: Vec::new(),
        ticks: 0..0,
        said: Vec::new(),
        numbers: Vec::with_capacity(end / 2),
    };
    while reader.at < end {
        number += 1;
        let (start, kind) = (reader.at, script.kind);
        if reader.step_line(number, &mut script).is_none() {
            reader.at = start;
            if kind != Kind::Empty || reader.program(&mut script).is_none() {
                faults::of_rest(&bytes[start..end], number, kind)?;
                unreachable!("a line that isn't read has a fault");
            }
            return Ok(script);
        }
    }
    Ok(script)
}
