//! One thread of the stress of operations along a path, as the crate path_race has it.
use crate::exchange_board::{Board, Chance, Fault, Variant};
use crate::exchange_pass::{Change, Pass};
use crate::path_pass::Lost;
use std::fmt;
use std::io::{self, Write};
use std::thread;

/// How often a thread tries in vain.
const MOST_TRIES: u32 = 200_000;

/// Which operations are made.
#[derive(Clone, Copy, PartialEq, Eq)]
pub enum Mix {
    All,
    Reads,
    Changes,
    Both,
}

pub fn mix_named(word: &str) -> Option<Mix> {
    match word {
        "all" => Some(Mix::All),
        "reads" => Some(Mix::Reads),
        "changes" => Some(Mix::Changes),
        "both" => Some(Mix::Both),
        _ => None,
    }
}

#[derive(Clone, Copy, PartialEq, Eq)]
enum Kind {
    Read,
    Path,
    Words,
    Stopped,
}

impl Kind {
    fn name(self) -> &'static str {
        match self {
            Kind::Read => "read",
            Kind::Path => "path",
            Kind::Words => "words",
            Kind::Stopped => "stopped",
        }
    }
}

/// How many operations came to which end.
#[derive(Clone, Copy, Default)]
pub struct Ends {
    read: u64,
    won: u64,
    changed: u64,
    locked: u64,
    blocked: u64,
    numbers: u64,
}

impl Ends {
    fn count(&mut self, kind: Kind, answer: Result<u64, Lost>) {
        *match answer {
            Ok(_) if kind == Kind::Read => &mut self.read,
            Ok(_) => &mut self.won,
            Err(Lost::Changed) => &mut self.changed,
            Err(Lost::Locked) => &mut self.locked,
            Err(Lost::Blocked) => &mut self.blocked,
            Err(Lost::Numbers) => &mut self.numbers,
        } += 1;
    }

    pub fn add(&mut self, other: &Ends) {
        self.read += other.read;
        self.won += other.won;
        self.changed += other.changed;
        self.locked += other.locked;
        self.blocked += other.blocked;
        self.numbers += other.numbers;
    }
}

impl fmt::Display for Ends {
    fn fmt(&self, f: &mut fmt::Formatter<'_>) -> fmt::Result {
        let Ends { read, won, changed, locked, blocked, numbers } = self;
        let all = read + won + changed + locked + blocked + numbers;
        write!(
            f,
            "{all} operations: {read} read, {won} won, {changed} changed, {locked} locked, {blocked} blocked, {numbers} out of numbers"
        )
    }
}

/// A call that an operation took along.
#[derive(Clone, Copy)]
enum Call {
    Get { value: u64 },
    Put { old: u64, new: u64 },
}

/// The same, recorded.
#[derive(Clone, Copy)]
pub struct Entry {
    pass: u32,
    number: u32,
    pub stamp: u64,
    call: Call,
}

impl fmt::Display for Entry {
    fn fmt(&self, f: &mut fmt::Formatter<'_>) -> fmt::Result {
        let Entry { pass, number, stamp, call } = self;
        match call {
            Call::Get { value } => write!(f, "entry {pass} {number} {stamp} get 1 {value}"),
            Call::Put { old, new } => write!(f, "entry {pass} {number} {stamp} put 1 {old} {new}"),
        }
    }
}

/// What a thread keeps from round to round.
#[derive(Clone, Copy)]
pub struct Hand {
    chance: Chance,
    written: u64,
    pub ends: Ends,
    pub stuck: bool,
}

impl Hand {
    pub fn new(seat: u32) -> Hand {
        Hand { chance: Chance::new(u64::from(seat) + 1), written: 0, ends: Ends::default(), stuck: false }
    }

    fn kind(&mut self, mix: Mix) -> Kind {
        match mix {
            Mix::Reads => Kind::Read,
            Mix::Changes => Kind::Path,
            Mix::Both if self.chance.below(2) == 0 => Kind::Read,
            Mix::Both => Kind::Path,
            Mix::All => match self.chance.below(10) {
                0..=4 => Kind::Read,
                5..=6 => Kind::Path,
                7..=8 => Kind::Words,
                _ => Kind::Stopped,
            },
        }
    }

    fn number(&mut self, seat: u32) -> u64 {
        self.written += 1;
        (u64::from(seat) + 1) << 40 | self.written
    }
}

/// An operation that took effect, and how many words it has.
struct Won {
    kind: Kind,
    stamp: u64,
    count: usize,
}

/// One thread's pass, and what it took down in a round.
pub struct Worker<'b, V: Variant> {
    pass: Pass<'b, V>,
    pub hand: Hand,
    kept: bool,
    won: Vec<Won>,
    words: Vec<Change>,
    pub entries: Vec<Entry>,
}

/// The words of the node that are read in turn, behind the version.
const TURNS: [usize; 5] = [10, 14, 15, 9, 11];

impl<'b, V: Variant> Worker<'b, V> {
    pub fn new(board: &'b Board, hand: Hand, seat: u32, share: u64, kept: bool) -> Self {
        let room = share as usize;
        let (won, words) = (Vec::with_capacity(room), Vec::with_capacity(6 * room));
        Worker { pass: Pass::new(board, seat), hand, kept, won, words, entries: Vec::with_capacity(room) }
    }

    /// Plants a fault, with stalls between its steps.
    pub fn plant(&mut self, fault: Fault) {
        self.pass.seat.fault = fault;
        self.pass.seat.stalls = 100;
    }

    pub fn run(&mut self, share: u64, mix: Mix) {
        let (mut left, mut tries) = (share, 0);
        while left > 0 && tries < MOST_TRIES {
            tries += 1;
            self.pass.turn();
            let effect = self.operate(mix);
            self.pass.turn();
            match effect {
                Some(effect) => {
                    left -= 1;
                    if effect {
                        tries = 0;
                    }
                }
                None => thread::yield_now(),
            }
        }
        self.hand.stuck |= left > 0;
    }

    // Makes one operation, and says whether it took effect; none where a word couldn't be read.
    fn operate(&mut self, mix: Mix) -> Option<bool> {
        let count = 2 + self.hand.chance.below(5) as usize;
        let kind = self.hand.kind(mix);
        let taken = self.words.len();
        let call = self.list(kind, count);
        if call.is_none() {
            self.words.truncate(taken);
        }
        let call = call?;
        let held = if kind == Kind::Read { 0 } else { self.hand.chance.below(7) as usize };
        let answer = match kind {
            Kind::Read => self.pass.validate(),
            Kind::Path => self.pass.exchange(true, None),
            Kind::Words => self.pass.exchange(false, None),
            Kind::Stopped => self.pass.exchange(true, Some(held)),
        };
        self.hand.ends.count(kind, answer);
        let Ok(stamp) = answer else {
            self.words.truncate(taken);
            if self.pass.seat.has(Fault::RecordsLost) {
                self.record(0, call);
            }
            return Some(false);
        };
        if self.kept {
            self.won.push(Won { kind, stamp, count });
        }
        self.record(stamp, call);
        Some(true)
    }

    fn record(&mut self, stamp: u64, call: Call) {
        let (pass, number) = (self.pass.seat.number + 1, self.entries.len() as u32 + 1);
        self.entries.push(Entry { pass, number, stamp, call });
    }

    // Visits and reads, and adds where it is no read. The call that goes along is the answer.
    fn list(&mut self, kind: Kind, count: usize) -> Option<Call> {
        let version = self.pass.visit(1)?;
        let (adds, seat) = (kind != Kind::Read, self.pass.seat.number);
        let mut call = None;
        self.take(adds, Change { word: 8, old: version, new: if adds { version + 2 } else { version } });
        for word in TURNS.into_iter().take(count - 1) {
            let old = self.pass.read(word)?;
            let new = match (adds, word) {
                (false, _) => old,
                (true, 11) => 1 - old,
                (true, _) => self.hand.number(seat),
            };
            self.take(adds, Change { word, old, new });
            let taken = if adds { Call::Put { old, new } } else { Call::Get { value: old } };
            call = call.or(Some(taken));
        }
        call
    }

    fn take(&mut self, adds: bool, change: Change) {
        if adds {
            self.pass.add(change.word, change.old, change.new);
        }
        if self.kept {
            self.words.push(change);
        }
    }

    /// A line for each operation that took effect.
    pub fn print(&self, out: &mut impl Write) -> io::Result<()> {
        let mut words = self.words.iter();
        for Won { kind, stamp, count } in &self.won {
            write!(out, "{} {} {stamp}", kind.name(), self.pass.seat.number + 1)?;
            for Change { word, old, new } in words.by_ref().take(*count) {
                write!(out, " {word} {old} {new}")?;
            }
            writeln!(out)?;
        }
        Ok(())
    }
}
