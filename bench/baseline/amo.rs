//! What AMOs, a compare-and-swap and small stores make of the word of 8 bytes around their address.

#[derive(Clone, Copy, PartialEq, Eq)]
pub enum Function {
    Swap,
    Add,
    And,
    Or,
    Xor,
    Min,
    Max,
    Minu,
    Maxu,
}

impl Function {
    fn on_double(self, old: u64, value: u64) -> u64 {
        match self {
            Function::Swap => value,
            Function::Add => old.wrapping_add(value),
            Function::And => old & value,
            Function::Or => old | value,
            Function::Xor => old ^ value,
            Function::Min => (old as i64).min(value as i64) as u64,
            Function::Max => (old as i64).max(value as i64) as u64,
            Function::Minu => old.min(value),
            Function::Maxu => old.max(value),
        }
    }

    fn on_half(self, old: u32, value: u32) -> u32 {
        match self {
            Function::Swap => value,
            Function::Add => old.wrapping_add(value),
            Function::And => old & value,
            Function::Or => old | value,
            Function::Xor => old ^ value,
            Function::Min => (old as i32).min(value as i32) as u32,
            Function::Max => (old as i32).max(value as i32) as u32,
            Function::Minu => old.min(value),
            Function::Maxu => old.max(value),
        }
    }
}

/// What is done at an address.
#[derive(Clone, Copy)]
pub enum Change {
    Double(Function, u64),
    Half(Function, u64),
    Cas(u64, u64),
    Part(u32, u64),
}

impl Change {
    /// The bytes that it reads or writes.
    pub fn size(self) -> u32 {
        match self {
            Change::Double(..) | Change::Cas(..) => 8,
            Change::Half(..) => 4,
            Change::Part(size, _) => size,
        }
    }

    pub fn reads(self) -> bool {
        !matches!(self, Change::Part(..))
    }

    /// The old value, and the word after it; it is done from so many bits on.
    pub fn make(self, from: u32, word: u64) -> (u64, u64) {
        let part = word >> from;
        match self {
            Change::Double(function, value) => (word, function.on_double(word, value)),
            Change::Half(function, value) => {
                let made = function.on_half(part as u32, value as u32);
                (
                    part as u32 as i32 as u64,
                    placed(word, from, 32, u64::from(made)),
                )
            }
            Change::Cas(old, value) => (word, if word == old { value } else { word }),
            Change::Part(size, value) => (0, placed(word, from, 8 * size, value)),
        }
    }
}

fn placed(word: u64, from: u32, bits: u32, value: u64) -> u64 {
    let mask = ((1 << bits) - 1) << from;
    word & !mask | value << from & mask
}
