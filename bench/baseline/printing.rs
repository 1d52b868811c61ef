//! Composes the lines and the table of a board.

use crate::board::{Board, Hart, Refusal, Reply, State, has};
use crate::fences::{Fence, Request};
use crate::memory::{D, Entry, G, R, W, Word, X};
use crate::script::{CLOCK, CUT, Line, Name, USUAL_SPACES};
use std::fs::File;
use std::io::{self, Write};

const BUFFER: usize = 65_536;
/// More than the longest line has.
const LINE: usize = 512;

const fn pairs(radix: usize) -> [[u8; 2]; 256] {
    let mut pairs = [[0; 2]; 256];
    let mut i = 0;
    while i < radix * radix {
        pairs[i] = [
            b"0123456789abcdef"[i / radix],
            b"0123456789abcdef"[i % radix],
        ];
        i += 1;
    }
    pairs
}

static HEX_PAIRS: [[u8; 2]; 256] = pairs(16);
static DECIMAL_PAIRS: [[u8; 2]; 256] = pairs(10);

/// A buffer in front of a file, with room for a whole line whenever one begins.
pub struct Out {
    file: File,
    bytes: Box<[u8; BUFFER + LINE]>,
    len: usize,
}

impl Out {
    pub fn new(file: File) -> Out {
        Out {
            file,
            bytes: Box::new([0; BUFFER + LINE]),
            len: 0,
        }
    }

    fn text(&mut self, text: &[u8]) {
        let end = self.len + text.len();
        self.bytes[self.len..end].copy_from_slice(text);
        self.len = end;
    }

    /// As many of the digits, from the right, as the width has.
    fn hex_digits(&mut self, n: u64, width: usize) {
        let digits = &mut self.bytes[self.len..self.len + width];
        let mut rest = n;
        let mut at = width;
        while at >= 2 {
            at -= 2;
            digits[at..at + 2].copy_from_slice(&HEX_PAIRS[(rest & 255) as usize]);
            rest >>= 8;
        }
        if at == 1 {
            digits[0] = HEX_PAIRS[(rest & 15) as usize][1];
        }
        self.len += width;
    }

    /// A blank, and the number behind `0x`.
    fn hex(&mut self, n: u64) {
        if n < 16 {
            return self.text(&[b' ', b'0', b'x', HEX_PAIRS[n as usize][1]]);
        }
        self.text(b" 0x");
        self.hex_digits(n, (67 - n.leading_zeros() as usize) / 4);
    }

    fn decimal(&mut self, n: u64) {
        match n {
            0..10 => self.text(&[b'0' + n as u8]),
            10..100 => self.text(&DECIMAL_PAIRS[n as usize]),
            _ => self.right(n, 0),
        }
    }

    /// The number, with blanks in front up to the width.
    fn right(&mut self, n: u64, width: usize) {
        let mut digits = [b' '; 20];
        let mut rest = n;
        let mut at = digits.len();
        while rest >= 10 {
            at -= 2;
            digits[at..at + 2].copy_from_slice(&DECIMAL_PAIRS[(rest % 100) as usize]);
            rest /= 100;
        }
        if rest > 0 || n == 0 {
            at -= 1;
            digits[at] = b'0' + rest as u8;
        }
        self.text(&digits[at.min(digits.len() - width)..]);
    }

    fn end_line(&mut self) -> io::Result<()> {
        self.text(b"\n");
        if self.len >= BUFFER {
            self.flush()
        } else {
            Ok(())
        }
    }

    pub fn flush(&mut self) -> io::Result<()> {
        self.file.write_all(&self.bytes[..self.len])?;
        self.len = 0;
        Ok(())
    }

    pub fn board_line(&mut self, config: &[u64; 8]) -> io::Result<()> {
        self.text(b"board");
        for n in &config[..4] {
            self.text(b" ");
            self.decimal(*n);
        }
        self.hex(config[4]);
        self.hex(config[5]);
        if config[6..] != USUAL_SPACES {
            for n in &config[6..] {
                self.text(b" ");
                self.decimal(*n);
            }
        }
        self.end_line()
    }

    #[inline(always)]
    pub fn line(
        &mut self,
        line: Line,
        numbers: &[u64],
        answer: Result<Reply, Refusal>,
    ) -> io::Result<()> {
        match line.actor {
            CUT => self.text(b"cut"),
            CLOCK => self.text(b"c"),
            h => self.decimal(u64::from(h)),
        }
        if line.actor != CUT {
            self.operation(line, numbers);
        }
        self.text(b" -> ");
        self.answer(line.actor, answer);
        self.end_line()
    }

    #[inline(always)]
    fn operation(&mut self, line: Line, numbers: &[u64]) {
        self.text(line.name.word());
        match line.name {
            Name::Sstatus => self.text(if numbers[0] == 1 { b" 1" } else { b" 0" }),
            Name::SfenceOfAddress => {
                self.hex(numbers[0]);
                self.text(b" -");
            }
            Name::SfenceOfSpace => {
                self.text(b" -");
                self.hex(numbers[0]);
            }
            Name::SfenceOfAll => self.text(b" - -"),
            _ => numbers.iter().for_each(|n| self.hex(*n)),
        }
        if line.name == Name::Ecall {
            self.text(&b" 0x0 0x0 0x0 0x0 0x0 0x0"[4 * (numbers.len() - 2)..]);
        }
    }

    fn answer(&mut self, actor: u8, answer: Result<Reply, Refusal>) {
        match answer {
            Ok(Reply::Ret(error, value)) => {
                self.text(if error < 0 { b"ret -" } else { b"ret " });
                self.decimal(u64::from(error.unsigned_abs()));
                self.hex(value);
            }
            Ok(Reply::Waiting) => self.text(b"waiting"),
            Ok(Reply::Gone) => self.text(b"gone"),
            Ok(Reply::Entry { addr, opaque }) => {
                self.text(b"entry");
                self.hex(addr);
                self.text(b" ");
                self.decimal(u64::from(actor));
                self.hex(opaque);
            }
            Ok(Reply::Value(value)) => {
                self.text(b"value");
                self.hex(value);
            }
            Ok(Reply::Fault(cause)) => {
                self.text(b"fault ");
                self.decimal(u64::from(cause));
            }
            Ok(Reply::Served) => self.text(b"served"),
            Ok(Reply::Moved(state)) => {
                self.text(b"moved ");
                self.decimal(state as u64);
            }
            Ok(Reply::Done) => self.text(b"done"),
            Err(refusal) => {
                self.text(b"refused ");
                self.decimal(refusal as u64);
            }
        }
    }

    /// The line of a trace that agrees.
    pub fn agreed(&mut self, lines: usize) -> io::Result<()> {
        self.text(b"agrees ");
        self.decimal(lines as u64);
        self.end_line()
    }

    /// The line of a trace that differs: the board's own answer.
    pub fn differing(
        &mut self,
        line: u32,
        actor: u8,
        answer: Result<Reply, Refusal>,
    ) -> io::Result<()> {
        self.text(b"differs at line ");
        self.decimal(u64::from(line));
        self.text(b": ");
        self.answer(actor, answer);
        self.end_line()
    }

    /// How a run ended, as a comment of a trace.
    pub fn end(&mut self, name: &[u8]) -> io::Result<()> {
        self.text(b"# end ");
        self.text(name);
        self.end_line()
    }

    pub fn table(&mut self, board: &Board) -> io::Result<()> {
        self.text(b"# time ");
        self.hex_digits(board.time, 16);
        self.text(b" events ");
        self.right(board.events() as u64, 7);
        self.text(if board.is_off {
            b" power off"
        } else {
            b" power on"
        });
        self.text(b" reset ");
        match board.last_reset {
            Some((kind, reason)) => {
                self.hex_digits(u64::from(kind), 8);
                self.text(b" ");
                self.hex_digits(u64::from(reason), 8);
            }
            None => self.text(b"none"),
        }
        let is_pending = |hart: &&Hart| hart.state == State::StartPending;
        let pending = board.harts.iter().filter(is_pending).count() as u64;
        let fences = &board.fences;
        let waiting = fences.asked - fences.applied;
        for (name, n) in [
            (b"\n# starts ".as_slice(), board.starts),
            (b" entries ", board.entries),
            (b" pending ", pending),
            (b" asked ", fences.asked),
            (b" applied ", fences.applied),
            (b" waiting ", waiting),
        ] {
            self.text(name);
            self.decimal(n);
        }
        self.text(b"\n# hart state           wait out ss st ie se ");
        self.text(b"satp             deadline         tlb ic");
        self.end_line()?;
        for (h, hart) in board.harts.iter().enumerate() {
            self.row(board, h, hart)?;
        }
        for (h, hart) in board.harts.iter().enumerate() {
            self.entry(h, hart.kept)?;
            for entry in hart.caches.tlb.items() {
                self.translation(h, &entry)?;
            }
            for word in hart.caches.words.items() {
                self.word(h, word)?;
            }
            for request in &fences.queues[h] {
                self.fence(h, *request)?;
            }
        }
        self.flush()
    }

    fn row(&mut self, board: &Board, h: usize, hart: &Hart) -> io::Result<()> {
        self.text(b"# ");
        self.right(h as u64, 4);
        self.text(b" ");
        let name = hart.state.name();
        self.text(name);
        self.text(&b"               "[name.len()..]);
        self.text(b" ");
        self.right(board.fences.queues[h].len() as u64, 4);
        self.text(b" ");
        match board.fences.calls[h] {
            Some(outstanding) => self.right(u64::from(outstanding.count_ones()), 3),
            None => self.text(b"  -"),
        }
        self.text(b"  ");
        self.decimal(u64::from(has(board.ssip, h)));
        self.text(b"  ");
        self.decimal(u64::from(board.stip(h)));
        self.text(b" ");
        self.hex_digits(
            u64::from(has(board.ssie, h)) << 1 | u64::from(has(board.stie, h)) << 5,
            2,
        );
        self.text(b"  ");
        self.decimal(u64::from(has(board.sstatus_sie, h)));
        self.text(b" ");
        self.hex_digits(hart.satp, 16);
        self.text(b" ");
        match hart.deadline {
            Some(deadline) => self.hex_digits(deadline, 16),
            None => self.text(b"----------------"),
        }
        self.text(b" ");
        self.right(u64::from(hart.caches.tlb.len()), 3);
        self.text(b" ");
        self.right(u64::from(hart.caches.words.len()), 2);
        self.end_line()
    }

    fn entry(&mut self, h: usize, kept: Option<(u64, u64)>) -> io::Result<()> {
        let Some((addr, opaque)) = kept else {
            return Ok(());
        };
        self.begins(b"# entry ", h);
        self.digits(addr);
        self.digits(opaque);
        self.end_line()
    }

    /// The first word of a line below the rows, and its hart.
    fn begins(&mut self, word: &[u8], h: usize) {
        self.text(word);
        self.right(h as u64, 3);
    }

    /// A blank, and all digits of the number.
    fn digits(&mut self, n: u64) {
        self.text(b" ");
        self.hex_digits(n, 16);
    }

    fn translation(&mut self, h: usize, entry: &Entry) -> io::Result<()> {
        self.begins(b"# tlb ", h);
        self.digits(entry.page);
        self.text(b" ");
        self.decimal(u64::from(entry.level));
        self.text(b" ");
        self.hex_digits(u64::from(entry.asid), 4);
        self.text(if entry.has(G) { b" g" } else { b" -" });
        self.digits(entry.pa);
        self.text(b" ");
        for (right, letter) in [(R, b"r"), (W, b"w"), (X, b"x"), (D, b"d")] {
            self.text(if entry.has(right) { letter } else { b"-" });
        }
        self.end_line()
    }

    fn word(&mut self, h: usize, (pa, word): Word) -> io::Result<()> {
        self.begins(b"# ic ", h);
        self.digits(pa);
        self.digits(word);
        self.end_line()
    }

    fn fence(&mut self, h: usize, (caller, fence): Request) -> io::Result<()> {
        self.begins(b"# fence ", h);
        self.begins(b" from ", usize::from(caller));
        match fence {
            Fence::Words => self.text(b" i"),
            Fence::Entries { range, asid } => {
                self.text(b" vma");
                match range {
                    Some((start, size)) => {
                        self.digits(start);
                        self.digits(size);
                    }
                    None => self.text(b" full"),
                }
                if let Some(asid) = asid {
                    self.text(b" asid ");
                    self.hex_digits(u64::from(asid), 4);
                }
            }
        }
        self.end_line()
    }
}
