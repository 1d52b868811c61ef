//! The RAM, the page tables in it, and the two caches of a hart.

use crate::amo::Change;
use crate::fences::Fence;

pub const RAM: u64 = 0x8000_0000;
const PLACES: u32 = 16;

// Bits of an entry of a page table.
const V: u64 = 1;
pub const R: u64 = 2;
pub const W: u64 = 4;
pub const X: u64 = 8;
const U: u64 = 16;
pub const G: u64 = 32;
const A: u64 = 64;
pub const D: u64 = 128;

#[derive(Clone, Copy)]
pub enum Access {
    Load,
    Store(u64),
    Fetch,
    /// From so many bits on in its word.
    Change(u32, Change),
}

impl Access {
    /// The rights that its page must give.
    fn rights(self) -> u64 {
        match self {
            Access::Load => R,
            Access::Store(_) => W | D,
            Access::Fetch => X,
            Access::Change(_, change) if change.reads() => R | W | D,
            Access::Change(..) => W | D,
        }
    }

    fn misaligned(self) -> u8 {
        match self {
            Access::Load => 4,
            Access::Store(_) | Access::Change(..) => 6,
            Access::Fetch => 0,
        }
    }

    fn access_fault(self) -> u8 {
        self.misaligned() + 1
    }

    fn page_fault(self) -> u8 {
        match self {
            Access::Load => 13,
            Access::Store(_) | Access::Change(..) => 15,
            Access::Fetch => 12,
        }
    }
}

/// What a walk found, with the address space that it was found in.
#[derive(Clone, Copy)]
pub struct Entry {
    pub page: u64,
    pub pa: u64,
    pub asid: u16,
    pub level: u8,
    /// R, W, X and D of the leaf, and G of it or of a pointer above it.
    pub bits: u8,
}

impl Entry {
    pub fn size(&self) -> u64 {
        4096 << (9 * self.level)
    }

    pub fn has(&self, bits: u64) -> bool {
        u64::from(self.bits) & bits == bits
    }

    fn matches(&self, va: u64, asid: u16) -> bool {
        va ^ self.page < self.size() && (self.has(G) || self.asid == asid)
    }
}

/// A fetched word: its physical address and its value.
pub type Word = (u64, u64);

/// Sixteen places, which are filled in turns.
#[derive(Clone)]
pub struct Cache<T> {
    items: [T; PLACES as usize],
    live: u16,
    /// The place of the next fill.
    next: u32,
}

impl<T: Copy> Cache<T> {
    fn new(item: T) -> Cache<T> {
        Cache {
            items: [item; PLACES as usize],
            live: 0,
            next: 0,
        }
    }

    fn fill(&mut self, item: T) {
        self.items[self.next as usize] = item;
        self.live |= 1 << self.next;
        self.next = (self.next + 1) % PLACES;
    }

    pub fn clear(&mut self) {
        self.live = 0;
    }

    pub fn len(&self) -> u32 {
        self.live.count_ones()
    }

    /// The live places by age: bit 15 is the latest fill.
    fn ages(&self) -> u16 {
        self.live.rotate_right(self.next)
    }

    fn at(&self, age: u32) -> T {
        self.items[((self.next + age) % PLACES) as usize]
    }

    fn latest(&self, is_wanted: impl Fn(T) -> bool) -> Option<T> {
        let mut ages = self.ages();
        while ages != 0 {
            let age = 15 - ages.leading_zeros();
            let item = self.at(age);
            if is_wanted(item) {
                return Some(item);
            }
            ages ^= 1 << age;
        }
        None
    }

    fn drop_all(&mut self, is_dropped: impl Fn(T) -> bool) {
        let mut rest = self.live;
        while rest != 0 {
            let place = rest.trailing_zeros();
            if is_dropped(self.items[place as usize]) {
                self.live ^= 1 << place;
            }
            rest &= rest - 1;
        }
    }

    /// The live items, the oldest fill first.
    pub fn items(&self) -> impl Iterator<Item = T> + '_ {
        self.lives().map(|(_, item)| item)
    }

    /// The same, each with how many fills more leave it live.
    pub fn lives(&self) -> impl Iterator<Item = (u32, T)> + '_ {
        let ages = self.ages();
        let live = (0..PLACES).filter(move |age| ages >> age & 1 == 1);
        live.map(|age| (age, self.at(age)))
    }
}

#[derive(Clone)]
pub struct Caches {
    pub tlb: Cache<Entry>,
    pub words: Cache<Word>,
}

impl Caches {
    pub fn new() -> Caches {
        let none = Entry {
            page: 0,
            pa: 0,
            asid: 0,
            level: 0,
            bits: 0,
        };
        Caches {
            tlb: Cache::new(none),
            words: Cache::new((0, 0)),
        }
    }

    pub fn apply(&mut self, fence: Fence) {
        match fence {
            Fence::Words => self.words.clear(),
            Fence::Entries { range, asid } => {
                self.tlb.drop_all(|entry| fence_covers(range, asid, &entry))
            }
        }
    }

    pub fn clear(&mut self) {
        self.tlb.clear();
        self.words.clear();
    }
}

fn fence_covers(range: Option<(u64, u64)>, asid: Option<u16>, entry: &Entry) -> bool {
    let is_in_space = asid.is_none_or(|asid| !entry.has(G) && entry.asid == asid);
    let last = entry.page + (entry.size() - 1);
    is_in_space
        && range.is_none_or(|(start, size)| {
            size > 0 && start <= last && entry.page <= start + (size - 1)
        })
}

/// The widths that a board may have.
pub const WIDTHS: [u64; 2] = [39, 48];

/// Whether a board of that width has the paging mode of that number.
pub fn has_mode(mode: u64, width: u32) -> bool {
    mode == 8 || mode == 9 && width == 48
}

/// The bits of a virtual address, by satp.
fn width_of(satp: u64) -> u32 {
    if satp >> 60 == 9 { 48 } else { 39 }
}

pub fn is_valid(va: u64, width: u32) -> bool {
    (va as i64) << (64 - width) >> (64 - width) == va as i64
}

#[derive(Clone)]
pub struct Ram(Vec<u64>);

impl Ram {
    pub fn new(pages: u64) -> Ram {
        Ram(vec![0; 512 * pages as usize])
    }

    pub fn words(&self) -> &[u64] {
        &self.0
    }

    pub fn clear(&mut self) {
        self.0.fill(0);
    }

    /// The place of an aligned word, if the RAM has it.
    fn place(&self, pa: u64) -> Option<usize> {
        let place = pa.wrapping_sub(RAM) / 8;
        (place < self.0.len() as u64).then_some(place as usize)
    }

    /// What the page tables give for a valid address, or the cause of the fault.
    fn walk(&self, satp: u64, va: u64, access: Access) -> Result<Entry, u8> {
        let mut table = satp << 20 >> 8;
        let mut global = 0;
        for level in (0..(width_of(satp) - 12) / 9).rev() {
            let at = table + 8 * (va >> (12 + 9 * level) & 511);
            let place = self.place(at).ok_or(access.access_fault())?;
            let pte = self.0[place];
            if pte & V == 0 || pte & (R | W) == W || pte >> 54 != 0 {
                return Err(access.page_fault());
            }
            global |= pte & G;
            let pa = pte >> 10 << 12;
            if pte & (R | X) != 0 {
                let rest = (4096 << (9 * level)) - 1;
                let wanted = A | access.rights();
                if pte & (U | wanted) != wanted || pa & rest != 0 {
                    return Err(access.page_fault());
                }
                return Ok(Entry {
                    page: va & !rest,
                    pa,
                    asid: (satp >> 44) as u16,
                    level: level as u8,
                    bits: (pte & (R | W | X | D) | global) as u8,
                });
            }
            if pte & (A | D | U) != 0 {
                break;
            }
            table = pa;
        }
        Err(access.page_fault())
    }
}

/// The physical address of a translated access, and the entry that it used, found or filled.
fn translate(
    ram: &Ram,
    satp: u64,
    tlb: &mut Cache<Entry>,
    va: u64,
    access: Access,
) -> (Result<u64, u8>, Option<Entry>) {
    if !is_valid(va, width_of(satp)) {
        return (Err(access.page_fault()), None);
    }
    let asid = (satp >> 44) as u16;
    let found = tlb.latest(|entry| entry.matches(va, asid));
    let entry = match found {
        Some(entry) if !entry.has(access.rights()) => {
            return (Err(access.page_fault()), found);
        }
        Some(entry) => entry,
        None => match ram.walk(satp, va, access) {
            Ok(entry) => {
                tlb.fill(entry);
                entry
            }
            Err(cause) => return (Err(cause), None),
        },
    };
    (Ok(entry.pa + (va - entry.page)), Some(entry))
}

/// Makes an access: what it answers, 0 for a good store, and the TLB entry that it used.
pub fn perform(
    ram: &mut Ram,
    satp: u64,
    caches: &mut Caches,
    va: u64,
    access: Access,
) -> (Result<u64, u8>, Option<Entry>) {
    if va % 8 != 0 {
        return (Err(access.misaligned()), None);
    }
    let (pa, used) = match satp {
        0 => (Ok(va), None),
        _ => translate(ram, satp, &mut caches.tlb, va, access),
    };
    let place = pa.and_then(|pa| match ram.place(pa) {
        Some(place) => Ok((pa, place)),
        None => Err(access.access_fault()),
    });
    let answer = place.map(|(pa, place)| match access {
        Access::Load => ram.0[place],
        Access::Store(value) => {
            ram.0[place] = value;
            0
        }
        Access::Change(from, change) => {
            let (old, made) = change.make(from, ram.0[place]);
            ram.0[place] = made;
            old
        }
        Access::Fetch => match caches.words.latest(|(at, _)| at == pa) {
            Some((_, word)) => word,
            None => {
                caches.words.fill((pa, ram.0[place]));
                ram.0[place]
            }
        },
    });
    (answer, used)
}
