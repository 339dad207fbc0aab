//! How the words of nodes and the statuses are packed into 64 bits: as by the crate `pc_words`.

/// An install or an attempt of the pass at this seat, told apart from its others by the number.
#[derive(Clone, Copy, Debug, PartialEq, Eq)]
pub struct Ref {
    pub seat: u32,
    pub number: u64,
}

impl Ref {
    fn raw(self) -> u64 {
        4 * u64::from(self.seat) + 1024 * self.number
    }
}

/// What a word of a node holds.
#[derive(Clone, Copy, Debug, PartialEq, Eq)]
pub enum Word {
    Plain(u64),
    Install(Ref),
    Exchange(Ref),
}

impl Word {
    pub fn raw(self) -> u64 {
        match self {
            Word::Plain(value) => 4 * value,
            Word::Install(install) => 1 + install.raw(),
            Word::Exchange(op) => 2 + op.raw(),
        }
    }

    pub fn of(raw: u64) -> Word {
        let named = Ref { seat: (raw / 4 % 256) as u32, number: raw / 1024 };
        match raw % 4 {
            0 => Word::Plain(raw / 4),
            1 => Word::Install(named),
            _ => Word::Exchange(named),
        }
    }
}

/// How far an attempt has come.
#[derive(Clone, Copy, Debug, PartialEq, Eq)]
pub enum Stage {
    Idle,
    Undecided,
    Succeeded { stamp: u64 },
    Withdrawn,
    Changed { node: u32 },
    Locked { node: u32, seat: u32 },
}

/// The number of a pass's attempt, and how far it has come.
#[derive(Clone, Copy, Debug, PartialEq, Eq)]
pub struct Status {
    pub number: u64,
    pub stage: Stage,
}

impl Status {
    pub fn raw(self) -> u64 {
        let (state, field) = match self.stage {
            Stage::Idle => (0, 0),
            Stage::Undecided => (1, 0),
            Stage::Succeeded { stamp } => (2, stamp),
            Stage::Withdrawn => (3, 0),
            Stage::Changed { node } => (3, 2 * u64::from(node)),
            Stage::Locked { node, seat } => (3, 1 + 2 * u64::from(node) + (u64::from(seat) << 17)),
        };
        state + 4 * self.number + (field << 30)
    }

    pub fn of(raw: u64) -> Status {
        let field = raw >> 30;
        let stage = match raw % 4 {
            0 => Stage::Idle,
            1 => Stage::Undecided,
            2 => Stage::Succeeded { stamp: field },
            _ => failure(field),
        };
        Status { number: raw / 4 % (1 << 28), stage }
    }

    pub fn is_undecided(self, op: Ref) -> bool {
        self == Status { number: op.number, stage: Stage::Undecided }
    }
}

fn failure(field: u64) -> Stage {
    let (node, seat) = ((field / 2 % (1 << 16)) as u32, (field >> 17) as u32);
    match (field, field % 2) {
        (0, _) => Stage::Withdrawn,
        (_, 0) => Stage::Changed { node },
        _ => Stage::Locked { node, seat },
    }
}
