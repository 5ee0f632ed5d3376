//! The records of model files and hand-ins: their marks, their fields, and which fields are in range whatever stands before them.

/// The largest claim of a ceiling or a floor.
pub const WHOLE_CLAIM: u32 = 1_048_576;

#[derive(Clone, Copy, PartialEq, Eq, Debug)]
pub enum Mark {
    Md,
    St,
    Ch,
    Hd,
    Ce,
    Fl,
    Pc,
    Pm,
    Rw,
    Wf,
    Zz,
}

impl Mark {
    pub fn named(name: [u8; 2]) -> Option<Mark> {
        let mark = match &name {
            b"MD" => Mark::Md,
            b"ST" => Mark::St,
            b"CH" => Mark::Ch,
            b"HD" => Mark::Hd,
            b"CE" => Mark::Ce,
            b"FL" => Mark::Fl,
            b"PC" => Mark::Pc,
            b"PM" => Mark::Pm,
            b"RW" => Mark::Rw,
            b"WF" => Mark::Wf,
            b"ZZ" => Mark::Zz,
            _ => return None,
        };
        Some(mark)
    }
}

/// An entry of a CH.
#[derive(PartialEq, Eq, Debug)]
pub struct Gift {
    pub target: u16,
    pub weight: u16,
}

/// An entry of a WF.
#[derive(PartialEq, Eq, Debug)]
pub struct Flow {
    pub target: u16,
    pub high_target: u8,
    pub amount: u16,
}

/// A record's fields, as they stand in the bytes. A `partner` is the match of a choice; Rust has taken that word.
#[derive(PartialEq, Eq, Debug)]
pub enum Record {
    Md { states: u16, denominator: u16 },
    St { goal: u8, choices: u16 },
    Ch { gifts: Vec<Gift> },
    Hd { kind: u8, side: u8 },
    Ce { state: u16, claim: u32 },
    Fl { state: u16, claim: u32 },
    Pc { state: u16, class: u8 },
    Pm { state: u16, choice: u16, partner: u16 },
    Rw { state: u16, row: u64 },
    Wf { state: u16, high_state: u8, choice: u16, partner: u16, flows: Vec<Flow> },
    Zz,
}

impl Record {
    /// The record whose mark has been taken from `bytes`; None if the bytes end before it does.
    pub fn taken(mark: Mark, bytes: &mut Bytes) -> Option<Record> {
        let record = match mark {
            Mark::Md => Record::Md { states: bytes.two()?, denominator: bytes.two()? },
            Mark::St => Record::St { goal: bytes.one()?, choices: bytes.two()? },
            Mark::Ch => Record::Ch { gifts: bytes.counted(Gift::taken)? },
            Mark::Hd => Record::Hd { kind: bytes.one()?, side: bytes.one()? },
            Mark::Ce => Record::Ce { state: bytes.two()?, claim: bytes.four()? },
            Mark::Fl => Record::Fl { state: bytes.two()?, claim: bytes.four()? },
            Mark::Pc => Record::Pc { state: bytes.two()?, class: bytes.one()? },
            Mark::Pm => Record::Pm { state: bytes.two()?, choice: bytes.two()?, partner: bytes.two()? },
            Mark::Rw => Record::Rw { state: bytes.two()?, row: bytes.eight()? },
            Mark::Wf => Record::Wf {
                state: bytes.two()?,
                high_state: bytes.one()?,
                choice: bytes.two()?,
                partner: bytes.two()?,
                flows: bytes.counted(Flow::taken)?,
            },
            Mark::Zz => Record::Zz,
        };
        Some(record)
    }

    /// Is every field in the range that it has wherever the record stands?
    pub fn is_in_range(&self) -> bool {
        match self {
            Record::St { goal, .. } => *goal <= 1,
            Record::Ch { gifts } => {
                gifts.iter().all(|gift| gift.weight >= 1) && gifts.is_sorted_by(|a, b| a.target < b.target)
            }
            Record::Hd { kind, side } => match kind {
                1 | 2 => *side <= 1,
                3..=5 => *side == 0,
                _ => false,
            },
            Record::Ce { claim, .. } | Record::Fl { claim, .. } => *claim <= WHOLE_CLAIM,
            Record::Wf { flows, .. } => {
                flows.iter().all(|flow| flow.amount >= 1) && flows.is_sorted_by(|a, b| a.ends() < b.ends())
            }
            _ => true,
        }
    }

    /// What the records of one mark in a hand-in ascend by: state, high state, choice, with 0 for what the mark has not.
    pub fn key(&self) -> (u16, u8, u16) {
        match *self {
            Record::Ce { state, .. } | Record::Fl { state, .. } | Record::Pc { state, .. } | Record::Rw { state, .. } => {
                (state, 0, 0)
            }
            Record::Pm { state, choice, .. } => (state, 0, choice),
            Record::Wf { state, high_state, choice, .. } => (state, high_state, choice),
            Record::Md { .. } | Record::St { .. } | Record::Ch { .. } | Record::Hd { .. } | Record::Zz => (0, 0, 0),
        }
    }
}

impl Gift {
    fn taken(bytes: &mut Bytes) -> Option<Gift> {
        Some(Gift { target: bytes.two()?, weight: bytes.two()? })
    }
}

impl Flow {
    fn taken(bytes: &mut Bytes) -> Option<Flow> {
        Some(Flow { target: bytes.two()?, high_target: bytes.one()?, amount: bytes.two()? })
    }

    fn ends(&self) -> (u16, u8) {
        (self.target, self.high_target)
    }
}

/// Bytes from which numbers are taken, highest byte first; None where they end too soon.
pub struct Bytes<'a>(pub &'a [u8]);

impl Bytes<'_> {
    pub fn taken<const N: usize>(&mut self) -> Option<[u8; N]> {
        let (first, rest) = self.0.split_first_chunk()?;
        self.0 = rest;
        Some(*first)
    }

    fn one(&mut self) -> Option<u8> {
        self.taken().map(u8::from_be_bytes)
    }

    fn two(&mut self) -> Option<u16> {
        self.taken().map(u16::from_be_bytes)
    }

    fn four(&mut self) -> Option<u32> {
        self.taken().map(u32::from_be_bytes)
    }

    fn eight(&mut self) -> Option<u64> {
        self.taken().map(u64::from_be_bytes)
    }

    /// Two bytes that say how many entries follow, and the entries.
    fn counted<T>(&mut self, entry: impl Fn(&mut Self) -> Option<T>) -> Option<Vec<T>> {
        let count = self.two()?;
        (0..count).map(|_| entry(self)).collect()
    }
}
