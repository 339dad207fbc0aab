//! The rest of the exchange: holding all its words, past the installs and exchanges of others, its decision and its clearing,
//! by its owner or by whoever meets it.
use crate::exchange_board::{CLOCK, DESCRIPTOR, Fault, MOST_CHANGES, STATUS, Variant};
use crate::exchange_pass::{Change, Counter, Installed, Pass, Visit};
use crate::exchange_words::{Ref, Stage, Status, Word};

const LAST_STAMP: u64 = (1 << 34) - 1;

/// What came of a help.
#[derive(Clone, Copy, Debug, PartialEq, Eq)]
pub enum Helped {
    /// The operation is decided, and its words are cleared of it.
    Decided,
    /// Its owner is at a later attempt.
    Gone,
    Stopped { by: Word },
    Numbers(Counter),
}

/// What came of an exchange.
#[derive(Clone, Copy, Debug, PartialEq, Eq)]
pub enum Verdict {
    Won { stamp: u64 },
    Changed { node: u32 },
    Locked { node: u32, seat: u32 },
    Blocked { first: Word, second: Word },
    /// Given up by a call of its owner.
    Withdrawn,
    Numbers(Counter),
}

/// Why an operation can't go on: two references stood where one may be passed, or the links are used up; or a counter ends.
#[derive(Clone, Copy)]
pub enum Halt {
    Stopped { met: Word, by: Word },
    Numbers(Counter),
}

/// Whether a word of an undecided operation holds its reference.
enum Hold {
    Held,
    Decided,
    Differs,
}

/// The references met in one word: one install may be completed in it, and one exchange helped.
#[derive(Default)]
pub struct Met {
    install: Option<Word>,
    exchange: Option<Word>,
}

/// The changes of an operation and the number of its visits, read from its descriptor.
struct Script {
    list: [Change; MOST_CHANGES],
    count: usize,
    visits: usize,
    status: Status,
}

impl<V: Variant> Pass<'_, V> {
    /// The plain value of a word, past at most one install and one exchange.
    pub fn read(&mut self, word: usize) -> Option<u64> {
        let mut met = Met::default();
        loop {
            match Word::of(self.seat.load(word)) {
                Word::Plain(value) => return Some(value),
                reference => self.make_way(&mut met, reference, None).ok()?,
            }
        }
    }

    // Completes or helps what stands in a word, once of each kind.
    pub fn make_way(&mut self, met: &mut Met, reference: Word, links: Option<&mut u32>) -> Result<(), Halt> {
        let place = match reference {
            Word::Install(_) => &mut met.install,
            _ => &mut met.exchange,
        };
        if let Some(first) = place.replace(reference) {
            return Err(Halt::Stopped { met: first, by: reference });
        }
        match reference {
            Word::Install(install) => self.complete(install),
            Word::Exchange(op) => self.follow(op, links)?,
            Word::Plain(_) => {}
        }
        Ok(())
    }

    // Helps the operation at the end of a link. An owner's helps have their links each, those within a help share them.
    fn follow(&mut self, op: Ref, links: Option<&mut u32>) -> Result<(), Halt> {
        let met = Word::Exchange(op);
        let helped = match links {
            None => self.help_alone(op),
            Some(0) => return Err(Halt::Stopped { met, by: met }),
            Some(links) => {
                *links -= 1;
                self.help_within(op, links)
            }
        };
        match helped {
            Err(Halt::Stopped { by, .. }) => Err(Halt::Stopped { met, by }),
            other => other.map(|_| ()),
        }
    }

    fn help_alone(&mut self, op: Ref) -> Result<Helped, Halt> {
        let mut links = self.seat.board.passes();
        match self.help_within(op, &mut links) {
            Err(Halt::Stopped { met, by }) if by == Word::Exchange(op) => Err(Halt::Stopped { met, by: met }),
            other => other,
        }
    }

    /// Does what is left of an operation that was met, and takes its references away.
    pub fn help(&mut self, op: Ref) -> Helped {
        match self.help_alone(op) {
            Ok(helped) => helped,
            Err(Halt::Stopped { by, .. }) => Helped::Stopped { by },
            Err(Halt::Numbers(counter)) => Helped::Numbers(counter),
        }
    }

    fn help_within(&mut self, op: Ref, links: &mut u32) -> Result<Helped, Halt> {
        self.helps += 1;
        let Script { list, count, visits, mut status } = self.read_descriptor(op);
        if status.is_undecided(op) {
            status = self.carry_out_met(op, &list[..count], visits, links)?;
        }
        self.clear_met(op, &list[..count], status);
        Ok(if status.number == op.number { Helped::Decided } else { Helped::Gone })
    }

    // Nothing is left to clear where the owner has gone on, or is idle.
    fn clear_met(&mut self, op: Ref, changes: &[Change], status: Status) {
        if status.number == op.number && status.stage != Stage::Idle {
            for change in changes {
                self.clear(op, *change, status.stage);
            }
        }
    }

    // The status comes last: where it has the number and isn't idle, all words before it were the operation's.
    fn read_descriptor(&mut self, op: Ref) -> Script {
        let early = self.seat.has(Fault::StatusFirst).then(|| self.status_of(op));
        let at = self.seat.board.own(op.seat) + DESCRIPTOR;
        let count = (self.seat.load(at + 1) as usize).min(MOST_CHANGES);
        let visits = self.seat.load(at + 2) as usize;
        let mut list = [Change::default(); MOST_CHANGES];
        for (i, change) in list[..count].iter_mut().enumerate() {
            change.word = self.seat.load(at + 3 + 3 * i) as usize;
            change.old = self.seat.load(at + 4 + 3 * i);
            change.new = self.seat.load(at + 5 + 3 * i);
        }
        let status = early.unwrap_or_else(|| self.status_of(op));
        Script { list, count, visits, status }
    }

    // A visit of the own operation, or of another's, with its status after that.
    fn visit_of(&mut self, op: Ref, i: usize) -> Result<Visit, Status> {
        if op.seat == self.seat.number {
            return Ok(self.visits[i]);
        }
        let at = self.seat.board.own(op.seat) + DESCRIPTOR + self.seat.board.first_visit() + 2 * i;
        let (node, version) = (self.seat.load(at) as usize, self.seat.load(at + 1));
        let status = self.status_of(op);
        if status.is_undecided(op) { Ok(Visit { node, version }) } else { Err(status) }
    }

    // A helper that was stopped looks first whether the operation was decided meanwhile. A refused draw withdraws it.
    fn carry_out_met(&mut self, op: Ref, changes: &[Change], visits: usize, links: &mut u32) -> Result<Status, Halt> {
        let halt = match self.carry_out(op, changes, visits, Some(links)) {
            Ok(status) => return Ok(status),
            Err(halt) => halt,
        };
        match halt {
            Halt::Stopped { .. } if !self.seat.has(Fault::StopsUnseen) => {
                let status = self.status_of(op);
                if status.is_undecided(op) { Err(halt) } else { Ok(status) }
            }
            Halt::Numbers(Counter::Stamp) => {
                let status = self.decide(op, Stage::Withdrawn);
                self.clear_met(op, changes, status);
                Err(halt)
            }
            _ => Err(halt),
        }
    }

    // Puts the reference in all words, draws a stamp, checks the visits, and decides. The answer is the status that stands then.
    fn carry_out(&mut self, op: Ref, changes: &[Change], visits: usize, mut links: Option<&mut u32>) -> Result<Status, Halt> {
        let mut early = None;
        for (i, change) in changes.iter().enumerate() {
            if self.seat.has(Fault::DrawsEarly) && i + 1 == changes.len() {
                early = Some(self.draw()?);
            }
            match self.hold(op, *change, links.as_deref_mut())? {
                Hold::Held => {}
                Hold::Decided => return Ok(self.status_of(op)),
                Hold::Differs if self.seat.has(Fault::HoldsChanged) => {}
                Hold::Differs => return Ok(self.decide(op, Stage::Changed { node: change.word as u32 / 8 })),
            }
        }
        let stamp = match early {
            Some(stamp) => stamp,
            None => self.draw()?,
        };
        for i in 0..visits {
            let visit = match self.visit_of(op, i) {
                Ok(visit) => visit,
                Err(status) => return Ok(status),
            };
            match self.check(op, changes, visit)? {
                None => {}
                Some(Stage::Idle) => return Ok(self.status_of(op)),
                Some(failed) => return Ok(self.decide(op, failed)),
            }
        }
        Ok(self.decide(op, Stage::Succeeded { stamp }))
    }

    // Why a visit doesn't pass its check, if it doesn't; idle where the operation is over.
    fn check(&mut self, op: Ref, changes: &[Change], visit: Visit) -> Result<Option<Stage>, Halt> {
        let (node, word) = (visit.node as u32, 8 * visit.node);
        if let Some(change) = changes.iter().find(|change| change.word == word) {
            return Ok((change.old != visit.version).then_some(Stage::Changed { node }));
        }
        let mut first = None;
        loop {
            match Word::of(self.seat.load(word)) {
                Word::Plain(version) => return Ok((version > visit.version).then_some(Stage::Changed { node })),
                Word::Exchange(Ref { seat, .. }) if seat == op.seat => return Ok(Some(Stage::Idle)),
                Word::Exchange(Ref { seat, .. }) => return Ok(Some(Stage::Locked { node, seat })),
                Word::Install(install) => {
                    let by = Word::Install(install);
                    if let Some(met) = first.replace(by) {
                        return Err(Halt::Stopped { met, by });
                    }
                    self.complete(install);
                }
            }
        }
    }

    fn hold(&mut self, op: Ref, change: Change, mut links: Option<&mut u32>) -> Result<Hold, Halt> {
        let mut met = Met::default();
        loop {
            match self.install(op, change) {
                Installed::Held => return Ok(Hold::Held),
                Installed::Decided => return Ok(Hold::Decided),
                Installed::Differs => return Ok(Hold::Differs),
                Installed::OutOfNumbers => return Err(Halt::Numbers(Counter::Install)),
                Installed::Met(reference) => self.make_way(&mut met, reference, links.as_deref_mut())?,
            }
        }
    }

    pub fn draw(&mut self) -> Result<u64, Halt> {
        if self.seat.load(CLOCK) >= LAST_STAMP {
            return Err(Halt::Numbers(Counter::Stamp));
        }
        match self.seat.add_one(CLOCK) {
            stamp if stamp < LAST_STAMP => Ok(stamp),
            _ => Err(Halt::Numbers(Counter::Stamp)),
        }
    }

    // The first decision stands; the answer is the status that does.
    fn decide(&mut self, op: Ref, stage: Stage) -> Status {
        let at = self.seat.board.own(op.seat) + STATUS;
        let old = Status { number: op.number, stage: Stage::Undecided };
        let new = Status { number: op.number, stage };
        let found = self.seat.exchange(at, old.raw(), new.raw());
        if found == old.raw() { new } else { Status::of(found) }
    }

    // The new or the old value in place of the reference. The answer is what stood there.
    fn clear(&mut self, op: Ref, change: Change, stage: Stage) -> Word {
        let succeeded = matches!(stage, Stage::Succeeded { .. }) || self.seat.has(Fault::ClearsToNew);
        let value = if succeeded { change.new } else { change.old };
        Word::of(self.seat.exchange(change.word, Word::Exchange(op).raw(), Word::Plain(value).raw()))
    }

    // An install that stands in the own word may still become the reference, so it is completed first.
    fn clear_own(&mut self, op: Ref, change: Change, stage: Stage) {
        match self.clear(op, change, stage) {
            Word::Install(install) if !self.seat.has(Fault::SkipsInstalls) => {
                self.complete(install);
                self.clear(op, change, stage);
            }
            _ => {}
        }
    }

    /// Brings the published exchange to its end, and clears it.
    pub fn finish(&mut self) -> Verdict {
        let op = self.operation();
        let changes = std::mem::take(&mut self.changes);
        let (stage, halt) = match self.carry_out(op, &changes, self.checked, None) {
            Ok(status) => (status.stage, None),
            Err(halt) => (self.decide(op, Stage::Withdrawn).stage, Some(halt)),
        };
        self.end(op, changes, stage);
        verdict(stage, halt)
    }

    /// Gives the published exchange up where it isn't decided, and clears it: as an owner that is out of install numbers.
    pub fn give_up(&mut self) -> Verdict {
        let op = self.operation();
        let changes = std::mem::take(&mut self.changes);
        let stage = self.decide(op, Stage::Withdrawn).stage;
        self.end(op, changes, stage);
        if stage == Stage::Withdrawn { Verdict::Withdrawn } else { verdict(stage, None) }
    }

    fn end(&mut self, op: Ref, mut changes: Vec<Change>, stage: Stage) {
        if self.seat.has(Fault::IdleEarly) {
            self.store_status(Stage::Idle);
        }
        let left = usize::from(self.seat.has(Fault::LeavesLast));
        for change in &changes[left..] {
            self.clear_own(op, *change, stage);
        }
        self.cleared_at = self.seat.load(CLOCK);
        self.store_status(Stage::Idle);
        changes.clear();
        self.changes = changes;
    }
}

fn verdict(stage: Stage, halt: Option<Halt>) -> Verdict {
    match (stage, halt) {
        (Stage::Succeeded { stamp }, _) => Verdict::Won { stamp },
        (Stage::Changed { node }, _) => Verdict::Changed { node },
        (Stage::Locked { node, seat }, _) => Verdict::Locked { node, seat },
        (_, Some(Halt::Stopped { met, by })) => Verdict::Blocked { first: met, second: by },
        (_, Some(Halt::Numbers(counter))) => Verdict::Numbers(counter),
        // By a helper whose draw was refused: nobody else withdraws it.
        _ => Verdict::Numbers(Counter::Stamp),
    }
}
