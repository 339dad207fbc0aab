//! One thread of the stress of exchanges: it lists what an exchange is to change, makes it, and takes down what won.
use crate::exchange_board::{Board, Chance, Fault, Variant};
use crate::exchange_check::{Record, take_down};
use crate::exchange_help::Verdict;
use crate::exchange_pass::{Change, Pass};
use std::sync::atomic::{AtomicBool, Ordering};
use std::thread;

/// How often a thread tries in vain.
const MOST_TRIES: u32 = 200_000;

/// What the threads are to do.
pub struct Plan {
    pub threads: u32,
    pub exchanges: u64,
    pub nodes: u64,
    pub stalls: u64,
    pub clock: u64,
    pub fault: Fault,
    pub toggles: bool,
    pub counts: bool,
    pub unchecked: bool,
}

/// How many exchanges came to which end.
#[derive(Clone, Copy, Default)]
pub struct Ends {
    pub won: u64,
    pub changed: u64,
    pub blocked: u64,
    pub withdrawn: u64,
    pub numbers: u64,
    /// How many were blocked by the same reference twice, which a help must have taken away.
    pub twice: u64,
}

impl Ends {
    fn count(&mut self, verdict: Verdict) {
        if matches!(verdict, Verdict::Blocked { first, second } if first == second) {
            self.twice += 1;
        }
        *match verdict {
            Verdict::Won { .. } => &mut self.won,
            Verdict::Changed { .. } | Verdict::Locked { .. } => &mut self.changed,
            Verdict::Blocked { .. } => &mut self.blocked,
            Verdict::Withdrawn => &mut self.withdrawn,
            Verdict::Numbers(_) => &mut self.numbers,
        } += 1;
    }

    pub fn all(&self) -> u64 {
        self.won + self.changed + self.blocked + self.withdrawn + self.numbers
    }

    pub fn add(&mut self, other: &Ends) {
        self.won += other.won;
        self.changed += other.changed;
        self.blocked += other.blocked;
        self.withdrawn += other.withdrawn;
        self.numbers += other.numbers;
        self.twice += other.twice;
    }
}

/// One thread's pass, and what it took down.
pub struct Worker<'b, V: Variant> {
    pub pass: Pass<'b, V>,
    plan: &'b Plan,
    chance: Chance,
    written: u64,
    pub record: Record,
    pub ends: Ends,
    listed: Vec<Change>,
}

impl<'b, V: Variant> Worker<'b, V> {
    pub fn new(board: &'b Board, plan: &'b Plan, seat: u32) -> Self {
        let mut pass = Pass::new(board, seat);
        pass.seat.stalls = plan.stalls;
        pass.seat.fault = plan.fault;
        let chance = Chance::new(u64::from(seat) + 1);
        let (record, listed) = (Vec::new(), Vec::new());
        Worker { pass, plan, chance, written: 0, record, ends: Ends::default(), listed }
    }

    pub fn run(&mut self, exchanges: u64, stuck: &AtomicBool) {
        let (until, mut tries) = (self.ends.all() + exchanges, 0);
        while self.ends.all() < until && !stuck.load(Ordering::Relaxed) {
            tries += 1;
            if self.list().is_none() {
                thread::yield_now();
            } else if self.make() {
                tries = 0;
            }
            if tries > MOST_TRIES {
                stuck.store(true, Ordering::Relaxed);
            }
        }
    }

    /// Reads what the next exchange is to change; none where a word is busy.
    fn list(&mut self) -> Option<()> {
        self.listed.clear();
        let count = 2 + self.chance.below(5);
        if self.plan.toggles {
            return self.list_toggles(count as usize);
        }
        if self.plan.nodes == 1 {
            return self.list_one_node(count as usize);
        }
        for i in 0..count / 2 {
            let node = loop {
                let node = 1 + self.chance.below(self.plan.nodes) as usize;
                if self.listed.iter().all(|change| change.word / 8 != node) {
                    break node;
                }
            };
            let version = self.pass.read(8 * node)?;
            self.listed.push(Change { word: 8 * node, old: version, new: version + 2 });
            let fields = if i == 0 { 1 + count as usize % 2 } else { 1 };
            for word in (8 * node + 2..).take(fields) {
                let new = self.new_number();
                let old = self.pass.read(word)?;
                self.listed.push(Change { word, old, new });
            }
        }
        Some(())
    }

    // The version of the one node, and others of its words in turn. The last of them is a link, which names the node or none.
    fn list_one_node(&mut self, count: usize) -> Option<()> {
        let version = self.pass.read(8)?;
        self.listed.push(Change { word: 8, old: version, new: version + 2 });
        for word in [10, 14, 15, 9, 11].into_iter().take(count - 1) {
            let old = self.pass.read(word)?;
            let new = if word == 11 { 1 - old } else { self.new_number() };
            self.listed.push(Change { word, old, new });
        }
        Some(())
    }

    fn new_number(&mut self) -> u64 {
        self.written += 1;
        (u64::from(self.pass.seat.number) + 1) << 40 | self.written
    }

    fn list_toggles(&mut self, count: usize) -> Option<()> {
        while self.listed.len() < count {
            let word = 8 + self.chance.below(8 * self.plan.nodes) as usize;
            if self.listed.iter().all(|change| change.word != word) {
                let old = self.pass.read(word)?;
                self.listed.push(Change { word, old, new: 1 - old });
            }
        }
        Some(())
    }

    /// Makes the exchange that is listed, and takes it down where it won.
    fn make(&mut self) -> bool {
        for change in &self.listed {
            self.pass.word(*change);
        }
        if self.pass.publish().is_err() {
            self.ends.numbers += 1;
            return false;
        }
        let given_up = V::PLANTED && self.plan.stalls != 0 && self.dawdles();
        let verdict = if given_up { self.pass.give_up() } else { self.pass.finish() };
        self.ends.count(verdict);
        if let Verdict::Won { stamp } = verdict {
            let words = self.listed.iter().map(|change| [change.word as u64, change.old, change.new]);
            take_down(&mut self.record, stamp, [self.pass.published_at, self.pass.cleared_at], words);
        }
        matches!(verdict, Verdict::Won { .. })
    }

    // Leaves one exchange in three half done for a while, so that others help. Says whether it is to be given up then.
    fn dawdles(&mut self) -> bool {
        let chance = self.chance.below(12);
        if chance < 4 {
            let count = self.chance.below(7) as usize;
            self.pass.install_first(count);
            self.pass.seat.stall();
        }
        chance < 2
    }
}
