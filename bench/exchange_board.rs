//! A board in plain Rust: the words of nodes and passes in one table, laid out as by the crate `pc_rule_law`, and the steps
//! that a pass makes on one of them. All steps are sequentially consistent. Every node is live from the start.
use std::hint;
use std::marker::PhantomData;
use std::sync::atomic::{AtomicU64, Ordering::SeqCst};
use std::thread;

/// Where the clock lies, and the words of a pass behind its first one.
pub const CLOCK: usize = 0;
pub const STATUS: usize = 0;
pub const INSTALL: usize = 2;
pub const DESCRIPTOR: usize = 6;

/// How many words one exchange may change.
pub const MOST_CHANGES: usize = 24;

pub struct Board {
    words: Vec<AtomicU64>,
    passes: u32,
    slots: usize,
}

impl Board {
    pub fn open(passes: u32, slots: usize, clock: u64) -> Board {
        let mut board = Board { words: Vec::new(), passes, slots };
        let count = board.own(passes);
        board.words = (0..count).map(|_| AtomicU64::new(0)).collect();
        board.words[CLOCK].store(clock, SeqCst);
        board.words[board.epoch()].store(1, SeqCst);
        board
    }

    /// A board with the sentinel alone, whose key is the greatest number of a word.
    pub fn open_right(passes: u32) -> Board {
        let board = Board::open(passes, 0, 1);
        board.words[9].store(4 * ((1 << 62) - 1), SeqCst);
        board
    }

    pub fn passes(&self) -> u32 {
        self.passes
    }

    /// How many visits an operation may make.
    pub fn most_visits(&self) -> usize {
        self.slots + 1
    }

    /// Where the visits lie in a descriptor.
    pub fn first_visit(&self) -> usize {
        3 + 3 * (25 + self.slots)
    }

    /// Where the epoch lies.
    pub fn epoch(&self) -> usize {
        16 + 8 * self.slots
    }

    /// Where the words of the pass at this seat begin: a multiple of eight words after those of the seat before.
    pub fn own(&self, seat: u32) -> usize {
        24 + 8 * self.slots + seat as usize * (8 * ((93 + 5 * self.slots) / 8))
    }

    /// The raw words, of a board that nobody works on.
    pub fn words(&self) -> Vec<u64> {
        self.words.iter().map(|word| word.load(SeqCst)).collect()
    }
}

/// What may be planted in the protocol, to see whether a check finds it.
#[derive(Clone, Copy, Debug, PartialEq, Eq)]
pub enum Fault {
    None,
    /// Clears to the new values after a failure.
    ClearsToNew,
    /// Draws the stamp before the last word is held.
    DrawsEarly,
    /// Leaves out the status load after an install stands.
    SkipsStatus,
    /// Loads the status before the install stands, and not after.
    StatusBefore,
    /// Leaves installs in its words while it clears.
    SkipsInstalls,
    /// Writes the number of an install last.
    NumberLast,
    /// Completes an install without a look at its number.
    SkipsNumber,
    /// Loads a status before the words of the descriptor, and not after them.
    StatusFirst,
    /// Takes a word that differs for held.
    HoldsChanged,
    /// Stores idle before it clears.
    IdleEarly,
    /// Stores idle with one word left to others to clear.
    LeavesLast,
    /// Says that it was stopped without a look at the operation.
    StopsUnseen,
    /// Makes a read without another look at its visits.
    ReadsUnchecked,
    /// Draws the stamp of a read after these looks.
    StampLast,
    /// Records the call of an operation that is lost.
    RecordsLost,
}

/// What a pass does beside the protocol: known when the program is built, so that the plain pass pays for none of it.
pub trait Variant: Send {
    const COUNTS: bool = false;
    const PLANTED: bool = false;
}

/// The protocol as it is.
pub struct Right;
impl Variant for Right {}

/// Counts its steps.
pub struct Counted;
impl Variant for Counted {
    const COUNTS: bool = true;
}

/// Stalls now and then between two steps, and may have a fault.
pub struct Planted;
impl Variant for Planted {
    const PLANTED: bool = true;
}

/// How many steps of each kind were made.
#[derive(Clone, Copy, Default)]
pub struct Steps {
    pub loads: u64,
    pub stores: u64,
    pub additions: u64,
    pub exchanges: u64,
}

/// What one seat needs to step on the words of a board.
pub struct Seat<'b, V: Variant> {
    pub board: &'b Board,
    pub number: u32,
    pub steps: Steps,
    /// One step in so many is followed by a stall; none where it is 0.
    pub stalls: u64,
    pub fault: Fault,
    chance: Chance,
    variant: PhantomData<V>,
}

impl<'b, V: Variant> Seat<'b, V> {
    pub fn new(board: &'b Board, number: u32) -> Self {
        let chance = Chance::new(u64::from(number) + 77);
        Seat { board, number, steps: Steps::default(), stalls: 0, fault: Fault::None, chance, variant: PhantomData }
    }

    pub fn load(&mut self, at: usize) -> u64 {
        self.step(|steps| &mut steps.loads);
        self.board.words[at].load(SeqCst)
    }

    pub fn store(&mut self, at: usize, new: u64) {
        self.step(|steps| &mut steps.stores);
        self.board.words[at].store(new, SeqCst);
    }

    /// Adds 1. The value before is the answer.
    pub fn add_one(&mut self, at: usize) -> u64 {
        self.step(|steps| &mut steps.additions);
        self.board.words[at].fetch_add(1, SeqCst)
    }

    /// The compare-and-exchange. The value before is the answer.
    pub fn exchange(&mut self, at: usize, old: u64, new: u64) -> u64 {
        self.step(|steps| &mut steps.exchanges);
        match self.board.words[at].compare_exchange(old, new, SeqCst, SeqCst) {
            Ok(found) | Err(found) => found,
        }
    }

    pub fn has(&self, fault: Fault) -> bool {
        V::PLANTED && self.fault == fault
    }

    fn step(&mut self, kind: fn(&mut Steps) -> &mut u64) {
        if V::COUNTS {
            *kind(&mut self.steps) += 1;
        }
        if V::PLANTED && self.stalls != 0 && self.chance.below(self.stalls) == 0 {
            self.stall();
        }
    }

    /// Lets others go first for a while.
    pub fn stall(&mut self) {
        match self.chance.below(8) {
            0 => thread::yield_now(),
            length => (0..200 * length).for_each(|_| hint::spin_loop()),
        }
    }
}

/// Numbers by chance, from a seed (xorshift).
#[derive(Clone, Copy)]
pub struct Chance(u64);

impl Chance {
    pub fn new(seed: u64) -> Chance {
        Chance(seed.wrapping_mul(0x9E37_79B9_7F4A_7C15) | 1)
    }

    pub fn below(&mut self, bound: u64) -> u64 {
        self.0 ^= self.0 << 13;
        self.0 ^= self.0 >> 7;
        self.0 ^= self.0 << 17;
        (self.0 >> 16) % bound
    }
}
