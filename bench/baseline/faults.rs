//! Scripts with a fault: their lines are cut into words.

use crate::script::{Fault, Kind, Name, SaidName, is_allowed};
use std::collections::BTreeSet;

type Words<'a> = &'a [&'a [u8]];

/// The words of a line, or none where a byte isn't allowed.
fn words_of(line: &[u8]) -> Option<Vec<&[u8]>> {
    let allowed = line.iter().all(|b| is_allowed(*b));
    let body = line.split(|b| *b == b'#').next().unwrap_or(line);
    let words = body.split(|b| matches!(b, b' ' | b'\t'));
    allowed.then(|| words.filter(|w| !w.is_empty()).collect())
}

/// The first line of these bytes, without its end, and the bytes after it.
fn first_line(bytes: &[u8]) -> (&[u8], &[u8]) {
    match bytes.iter().position(|b| *b == b'\n') {
        Some(end) => {
            let line = &bytes[..end];
            (line.strip_suffix(b"\r").unwrap_or(line), &bytes[end + 1..])
        }
        None => (bytes, b""),
    }
}

fn value(word: &[u8]) -> Option<u64> {
    let (digits, radix) = match word.strip_prefix(b"0x") {
        Some(digits) => (digits, 16),
        None => (word, 10),
    };
    let is_digits = !digits.is_empty() && digits.iter().all(u8::is_ascii_alphanumeric);
    let text = str::from_utf8(digits).ok().filter(|_| is_digits)?;
    u64::from_str_radix(text, radix).ok()
}

fn number(word: &[u8], limit: u64) -> Result<u64, u8> {
    value(word).filter(|n| *n <= limit).ok_or(4)
}

fn signed_number(word: &[u8]) -> Result<(), u8> {
    let digits = word.strip_prefix(b"-").unwrap_or(word);
    let is_digits = !digits.is_empty() && digits.iter().all(u8::is_ascii_digit);
    let text = str::from_utf8(word).ok().filter(|_| is_digits).ok_or(4)?;
    text.parse::<i64>().map(|_| ()).or(Err(4))
}

fn operation(words: Words, is_there: fn(Name) -> bool) -> Result<(), u8> {
    let (word, rest) = words.split_first().ok_or(5)?;
    let name = Name::of(word).filter(|name| is_there(*name)).ok_or(3)?;
    let (least, most, limit) = name.places();
    if !(least..=most).contains(&rest.len()) {
        return Err(5);
    }
    rest.iter()
        .filter(|word| name != Name::Sfence || **word != b"-")
        .try_for_each(|word| number(word, limit).map(|_| ()))
}

fn said(words: Words) -> Result<(), u8> {
    let (word, rest) = words.split_first().ok_or(5)?;
    let name = SaidName::of(word).ok_or(3)?;
    if rest.len() != name.count() {
        return Err(5);
    }
    let is_signed = name == SaidName::Ret;
    if is_signed {
        signed_number(rest[0])?;
    }
    let numbers = rest.iter().skip(usize::from(is_signed));
    numbers.map(|word| number(word, u64::MAX)).collect::<Result<Vec<_>, _>>()?;
    Ok(())
}

/// Whether an operation is a guest's.
pub fn is_guests(name: Name) -> bool {
    !matches!(name, Name::Poll | Name::Serve | Name::Advance | Name::Tick)
}

/// What lines came before.
struct Before {
    kind: Kind,
    addresses: BTreeSet<u64>,
    has_clock: bool,
    is_in_clock: bool,
}

impl Before {
    fn line(&mut self, words: Words) -> Result<(), u8> {
        let (first, rest) = words.split_first().ok_or(5)?;
        let is_head = matches!(*first, b"at" | b"clock");
        let kind = if is_head {
            Kind::Program
        } else if matches!(*first, b"c" | b"cut") || first[0].is_ascii_digit() {
            let is_trace = words.contains(&b"->".as_slice());
            if is_trace { Kind::Trace } else { Kind::Schedule }
        } else if self.kind == Kind::Program {
            Kind::Program
        } else {
            return Err(6);
        };
        if self.kind != kind && self.kind != Kind::Empty {
            return Err(6);
        }
        self.kind = kind;
        match (kind, is_head, self.is_in_clock) {
            (Kind::Program, true, _) => self.head(first, rest),
            (Kind::Program, _, true) => operation(words, |name| name == Name::Tick),
            (Kind::Program, _, _) => operation(words, is_guests),
            _ => step(first, rest),
        }
    }

    fn head(&mut self, first: &[u8], rest: Words) -> Result<(), u8> {
        self.is_in_clock = first == b"clock";
        if rest.len() != usize::from(!self.is_in_clock) {
            return Err(5);
        }
        let is_new = if self.is_in_clock {
            !std::mem::replace(&mut self.has_clock, true)
        } else {
            self.addresses.insert(number(rest[0], u64::MAX)?)
        };
        if is_new { Ok(()) } else { Err(7) }
    }
}

fn step(actor: &[u8], rest: Words) -> Result<(), u8> {
    if !matches!(actor, b"c" | b"cut") {
        number(actor, 127)?;
    }
    let of_step = |words: Words| match actor {
        b"cut" if words.is_empty() => Ok(()),
        b"cut" => Err(5),
        _ => operation(words, |_| true),
    };
    match rest.iter().position(|word| *word == b"->") {
        Some(arrow) => {
            of_step(&rest[..arrow])?;
            said(&rest[arrow + 1..])
        }
        None => of_step(rest),
    }
}

/// The fault of a line that is no board line.
pub fn of_board_line(bytes: &[u8]) -> u8 {
    let Some(words) = words_of(first_line(bytes).0) else {
        return 1;
    };
    if words[0] != b"board" {
        return 2;
    }
    if words.len() == 7 || words.len() == 9 {
        4
    } else {
        5
    }
}

/// The first fault of these bytes, of which the first line is line `first`. Somewhere in them is a line that the quick
/// reader doesn't take.
pub fn of_rest(bytes: &[u8], first: u64, kind: Kind) -> Result<(), Fault> {
    let mut before = Before {
        kind,
        addresses: BTreeSet::new(),
        has_clock: false,
        is_in_clock: false,
    };
    let (mut line, mut rest) = first_line(bytes);
    for number in first.. {
        match words_of(line) {
            Some(words) if words.is_empty() => {}
            Some(words) => before.line(&words).map_err(|fault| Fault(number, fault))?,
            None => return Err(Fault(number, 1)),
        }
        if rest.is_empty() {
            break;
        }
        (line, rest) = first_line(rest);
    }
    Ok(())
}
