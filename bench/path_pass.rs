//! Operations along a path (PathCAS, Brown, Sigouin and Alistarh, 2022) on the exchange of several words: plain Rust, nothing of it
//! proved.
use crate::exchange_board::{Fault, Variant};
use crate::exchange_help::{Halt, Met, Verdict};
use crate::exchange_pass::{Change, Pass, Visit};
use crate::exchange_words::Word;
use std::thread;

/// The last version of a node.
const LAST_VERSION: u64 = (1 << 60) - 6;

/// How often a thread that stops for a while lets others go on.
const PAUSE: u32 = 8;

/// Why an operation took no effect.
#[derive(Clone, Copy, Debug, PartialEq, Eq)]
pub enum Lost {
    Changed,
    Locked,
    Blocked,
    Numbers,
}

fn lost_by(halt: Halt) -> Lost {
    match halt {
        Halt::Stopped { .. } => Lost::Blocked,
        Halt::Numbers(_) => Lost::Numbers,
    }
}

fn answer_of(verdict: Verdict) -> Result<u64, Lost> {
    match verdict {
        Verdict::Won { stamp } => Ok(stamp),
        Verdict::Changed { .. } => Err(Lost::Changed),
        Verdict::Locked { .. } => Err(Lost::Locked),
        Verdict::Blocked { .. } => Err(Lost::Blocked),
        Verdict::Withdrawn | Verdict::Numbers(_) => Err(Lost::Numbers),
    }
}

impl<V: Variant> Pass<'_, V> {
    /// The beginning and the end of an operation: the epoch is loaded, and what was visited and listed is dropped.
    pub fn turn(&mut self) {
        let epoch = self.seat.board.epoch();
        self.seat.load(epoch);
        self.visits.clear();
        self.changes.clear();
    }

    /// Visits a node; none where its version is busy, odd or at its end.
    pub fn visit(&mut self, node: usize) -> Option<u64> {
        if self.visits.len() >= self.seat.board.most_visits() {
            return None;
        }
        let version = self.read(8 * node)?;
        if version % 2 == 1 || version >= LAST_VERSION {
            return None;
        }
        self.visits.push(Visit { node, version });
        Some(version)
    }

    /// One read of all that was visited and read.
    pub fn validate(&mut self) -> Result<u64, Lost> {
        let answer = self.validated().map_err(lost_by);
        self.visits.clear();
        answer.and_then(|stamp| stamp.ok_or(Lost::Changed))
    }

    // The stamp; none where a node changed.
    fn validated(&mut self) -> Result<Option<u64>, Halt> {
        let late = self.seat.has(Fault::StampLast);
        let early = if late { None } else { Some(self.draw()?) };
        if !self.seat.has(Fault::ReadsUnchecked) && !self.stand()? {
            return Ok(None);
        }
        match early {
            Some(stamp) => Ok(Some(stamp)),
            None => self.draw().map(Some),
        }
    }

    // Whether each visited node has the version of its visit.
    fn stand(&mut self) -> Result<bool, Halt> {
        for i in 0..self.visits.len() {
            let Visit { node, version } = self.visits[i];
            if self.version_of(node)? != version {
                return Ok(false);
            }
        }
        Ok(true)
    }

    fn version_of(&mut self, node: usize) -> Result<u64, Halt> {
        let mut met = Met::default();
        loop {
            match Word::of(self.seat.load(8 * node)) {
                Word::Plain(version) => return Ok(version),
                reference => self.make_way(&mut met, reference, None)?,
            }
        }
    }

    /// One exchange of all words that were added, where the path still stands, or whatever became of it. Where it stops, it first
    /// installs so many words and lets others go on.
    pub fn exchange(&mut self, by_path: bool, stops: Option<usize>) -> Result<u64, Lost> {
        let visits = if by_path { self.visits.len() } else { 0 };
        let answer = match self.publish_with(visits) {
            Ok(()) => {
                if let Some(held) = stops {
                    self.install_first(held);
                    pause();
                }
                answer_of(self.finish())
            }
            Err(_) => Err(Lost::Numbers),
        };
        self.visits.clear();
        answer
    }

    /// Adds a change.
    pub fn add(&mut self, word: usize, old: u64, new: u64) {
        self.word(Change { word, old, new });
    }
}

/// Lets other threads go on for a while.
fn pause() {
    (0..PAUSE).for_each(|_| thread::yield_now());
}
