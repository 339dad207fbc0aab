//! The exchange of several words with helping (Harris, Fraser and Pratt, 2002), with descriptors that are used again and
//! told apart by numbers (Arbel-Raviv and Brown, 2017): plain Rust, nothing of it proved.
use crate::exchange_board::{Board, CLOCK, DESCRIPTOR, Fault, INSTALL, MOST_CHANGES, STATUS, Seat, Variant};
use crate::exchange_words::{Ref, Stage, Status, Word};

const LAST_ATTEMPT: u64 = (1 << 28) - 1;
const LAST_INSTALL: u64 = (1 << 54) - 1;

/// A word of a node, by its number, which is also its address: eight times the node, and the field; and its change.
#[derive(Clone, Copy, Default, Debug)]
pub struct Change {
    pub word: usize,
    pub old: u64,
    pub new: u64,
}

/// A node that was visited, and its version then.
#[derive(Clone, Copy, Debug)]
pub struct Visit {
    pub node: usize,
    pub version: u64,
}

/// A counter that stands at its last value.
#[derive(Clone, Copy, Debug, PartialEq, Eq)]
pub enum Counter {
    Attempt,
    Install,
    Stamp,
}

/// What came of an install.
pub enum Installed {
    Held,
    Decided,
    Differs,
    Met(Word),
    OutOfNumbers,
}

pub struct Pass<'b, V: Variant> {
    pub seat: Seat<'b, V>,
    attempt: u64,
    install: u64,
    pub changes: Vec<Change>,
    /// What the operation visited, and how many of that the published exchange visits.
    pub visits: Vec<Visit>,
    pub checked: usize,
    /// The clock before the last publication, and after the last clearing.
    pub published_at: u64,
    pub cleared_at: u64,
    /// How many exchanges this pass helped, and how many installs it met.
    pub helps: u64,
    pub completions: u64,
}

impl<'b, V: Variant> Pass<'b, V> {
    pub fn new(board: &'b Board, seat: u32) -> Self {
        let changes = Vec::with_capacity(MOST_CHANGES);
        let visits = Vec::with_capacity(board.most_visits());
        let seat = Seat::new(board, seat);
        Pass { seat, attempt: 0, install: 0, changes, visits, checked: 0, published_at: 0, cleared_at: 0, helps: 0, completions: 0 }
    }

    /// Lists one more word for the next exchange.
    pub fn word(&mut self, change: Change) {
        assert!(self.changes.len() < MOST_CHANGES);
        self.changes.push(change);
    }

    /// Publishes the listed words, by rising address.
    pub fn publish(&mut self) -> Result<(), Counter> {
        self.publish_with(0)
    }

    /// The same with so many of the visits, the first ones.
    pub fn publish_with(&mut self, visits: usize) -> Result<(), Counter> {
        self.checked = visits;
        if self.attempt == LAST_ATTEMPT {
            self.changes.clear();
            return Err(Counter::Attempt);
        }
        self.published_at = self.seat.load(CLOCK);
        self.changes.sort_unstable_by_key(|change| change.word);
        self.write_descriptor();
        self.attempt += 1;
        self.store_status(Stage::Undecided);
        Ok(())
    }

    // The mode, which is 1 where there are visits, the numbers of changes and of visits, the changes, and the visits.
    fn write_descriptor(&mut self) {
        let at = self.own() + DESCRIPTOR;
        let visits = self.checked as u64;
        for (i, word) in [visits.min(1), self.changes.len() as u64, visits].into_iter().enumerate() {
            self.seat.store(at + i, word);
        }
        for i in 0..self.changes.len() {
            let Change { word, old, new } = self.changes[i];
            self.seat.store(at + 3 + 3 * i, word as u64);
            self.seat.store(at + 4 + 3 * i, old);
            self.seat.store(at + 5 + 3 * i, new);
        }
        let at = at + self.seat.board.first_visit();
        for i in 0..self.checked {
            let Visit { node, version } = self.visits[i];
            self.seat.store(at + 2 * i, node as u64);
            self.seat.store(at + 2 * i + 1, version);
        }
    }

    fn own(&self) -> usize {
        self.seat.board.own(self.seat.number)
    }

    pub fn operation(&self) -> Ref {
        Ref { seat: self.seat.number, number: self.attempt }
    }

    pub fn store_status(&mut self, stage: Stage) {
        let at = self.own() + STATUS;
        self.seat.store(at, Status { number: self.attempt, stage }.raw());
    }

    pub fn status_of(&mut self, op: Ref) -> Status {
        let at = self.seat.board.own(op.seat) + STATUS;
        Status::of(self.seat.load(at))
    }

    /// The double compare: puts the operation's reference in place of the old value, where its status is undecided after
    /// the own install stands in the word.
    pub fn install(&mut self, op: Ref, change: Change) -> Installed {
        if self.install == LAST_INSTALL {
            return Installed::OutOfNumbers;
        }
        self.install += 1;
        self.describe_install(op, change);
        let early = self.seat.has(Fault::StatusBefore).then(|| self.status_of(op).is_undecided(op));
        let own = Ref { seat: self.seat.number, number: self.install };
        let old = Word::Plain(change.old).raw();
        let found = self.seat.exchange(change.word, old, Word::Install(own).raw());
        if found == old {
            return self.settle(own, op, change, early);
        }
        match Word::of(found) {
            Word::Plain(_) => Installed::Differs,
            Word::Exchange(other) if other == op => Installed::Held,
            met => Installed::Met(met),
        }
    }

    /// Installs up to so many words of the published exchange, and stops at the first that isn't held.
    pub fn install_first(&mut self, count: usize) -> usize {
        let op = self.operation();
        for i in 0..count.min(self.changes.len()) {
            if !matches!(self.install(op, self.changes[i]), Installed::Held) {
                return i;
            }
        }
        count.min(self.changes.len())
    }

    // The number goes first: who looks at an older install sees that it has gone before another word changes.
    fn describe_install(&mut self, op: Ref, change: Change) {
        let at = self.own() + INSTALL;
        let words = [self.install, Word::Exchange(op).raw(), change.word as u64, change.old];
        let order = if self.seat.has(Fault::NumberLast) { [1, 2, 3, 0] } else { [0, 1, 2, 3] };
        for i in order {
            self.seat.store(at + i, words[i]);
        }
    }

    // The second half of an install: the reference or the old value takes its place.
    fn settle(&mut self, install: Ref, op: Ref, change: Change, early: Option<bool>) -> Installed {
        let early = early.or(self.seat.has(Fault::SkipsStatus).then_some(true));
        let goes_on = early.unwrap_or_else(|| self.status_of(op).is_undecided(op));
        let (install, op) = (Word::Install(install).raw(), Word::Exchange(op).raw());
        let new = if goes_on { op } else { Word::Plain(change.old).raw() };
        let found = self.seat.exchange(change.word, install, new);
        if goes_on && (found == install || found == op) { Installed::Held } else { Installed::Decided }
    }

    /// Completes an install that was met.
    pub fn complete(&mut self, install: Ref) {
        self.completions += 1;
        let at = self.seat.board.own(install.seat) + INSTALL;
        let op = self.seat.load(at + 1);
        let word = self.seat.load(at + 2);
        let old = self.seat.load(at + 3);
        if !self.seat.has(Fault::SkipsNumber) && self.seat.load(at) != install.number {
            return;
        }
        if let Word::Exchange(op) = Word::of(op) {
            self.settle(install, op, Change { word: word as usize, old, new: old }, None);
        }
    }
}
