//! Reading a model file or a hand-in: its records, and the first fault.

use crate::record::{Bytes, Mark, Record};

#[derive(Clone, Copy, PartialEq, Eq, Debug)]
pub enum Fault {
    Cut = 1,
    Mark = 2,
    Field = 3,
    After = 4,
}

#[derive(Clone, Copy, PartialEq, Eq, Debug)]
pub struct Refusal {
    pub fault: Fault,
    pub place: usize,
}

#[derive(Clone, Copy, PartialEq, Eq, Debug)]
pub enum Sort {
    Model,
    HandIn,
    Neither,
}

/// What was read of an input: its sort, each record with its offset, and why no more was read.
pub struct Reading {
    pub sort: Sort,
    pub records: Vec<(usize, Record)>,
    pub refusal: Option<Refusal>,
}

/// The first mark says whether an input is a model file or a hand-in.
pub fn read(input: &[u8]) -> Reading {
    let neither = |fault| {
        let refusal = Some(Refusal { fault, place: 0 });
        Reading { sort: Sort::Neither, records: Vec::new(), refusal }
    };
    match input.first_chunk().map(|name| Mark::named(*name)) {
        None => neither(Fault::Cut),
        Some(Some(Mark::Md)) => read_along(Sort::Model, ModelCourse::default(), input),
        Some(Some(Mark::Hd)) => read_along(Sort::HandIn, HandInCourse::default(), input),
        Some(_) => neither(Fault::Mark),
    }
}

/// Which records may come next.
trait Course {
    fn allows(&self, mark: Mark) -> bool;

    /// Goes on past an allowed record, unless one of its fields, or its key, may not stand here.
    fn passes(&mut self, mark: Mark, record: &Record) -> bool;
}

fn read_along(sort: Sort, mut course: impl Course, input: &[u8]) -> Reading {
    let mut records = Vec::new();
    let mut left = Bytes(input);
    let refusal = loop {
        let place = input.len() - left.0.len();
        if let Some((_, Record::Zz)) = records.last() {
            let more = !left.0.is_empty();
            break more.then_some(Refusal { fault: Fault::After, place });
        }
        match next_record(&mut course, &mut left) {
            Ok(record) => records.push((place, record)),
            Err(fault) => break Some(Refusal { fault, place }),
        }
    };
    Reading { sort, records, refusal }
}

fn next_record(course: &mut impl Course, left: &mut Bytes) -> Result<Record, Fault> {
    let name = left.taken().ok_or(Fault::Cut)?;
    let mark = Mark::named(name).filter(|mark| course.allows(*mark)).ok_or(Fault::Mark)?;
    let record = Record::taken(mark, left).ok_or(Fault::Cut)?;
    let fits = record.is_in_range() && course.passes(mark, &record);
    if fits { Ok(record) } else { Err(Fault::Field) }
}

/// In a model file exactly one mark may come at each point.
#[derive(Default)]
struct ModelCourse {
    /// The number of states, once MD has said it.
    states: Option<u16>,
    states_to_come: u16,
    choices_to_come: u16,
}

impl ModelCourse {
    fn due(&self) -> Mark {
        match (self.states, self.choices_to_come, self.states_to_come) {
            (None, ..) => Mark::Md,
            (_, 0, 0) => Mark::Zz,
            (_, 0, _) => Mark::St,
            _ => Mark::Ch,
        }
    }
}

impl Course for ModelCourse {
    fn allows(&self, mark: Mark) -> bool {
        mark == self.due()
    }

    fn passes(&mut self, _: Mark, record: &Record) -> bool {
        match record {
            Record::Md { states, .. } => {
                self.states = Some(*states);
                self.states_to_come = *states;
            }
            Record::St { choices, .. } => {
                self.states_to_come -= 1;
                self.choices_to_come = *choices;
            }
            Record::Ch { gifts } => {
                self.choices_to_come -= 1;
                return gifts.iter().all(|gift| Some(gift.target) < self.states);
            }
            _ => {}
        }
        true
    }
}

/// A hand-in's records come in blocks of one mark each, of ascending keys.
#[derive(Default)]
struct HandInCourse {
    /// The blocks of the hand-in's kind, from the one that was begun last, once HD has said the kind.
    blocks: Option<&'static [Mark]>,
    /// The last record in the block that was begun last.
    last: Option<(Mark, (u16, u8, u16))>,
}

fn blocks_of(kind: u8) -> &'static [Mark] {
    match kind {
        1 => &[Mark::Ce],
        2 => &[Mark::Fl],
        3 => &[Mark::Pc, Mark::Pm],
        4 => &[Mark::Rw, Mark::Wf],
        _ => &[],
    }
}

impl Course for HandInCourse {
    fn allows(&self, mark: Mark) -> bool {
        match self.blocks {
            None => mark == Mark::Hd,
            Some(blocks) => mark == Mark::Zz || blocks.contains(&mark),
        }
    }

    fn passes(&mut self, mark: Mark, record: &Record) -> bool {
        match (record, self.blocks) {
            (Record::Hd { kind, .. }, _) => {
                self.blocks = Some(blocks_of(*kind));
                true
            }
            (Record::Zz, _) | (_, None) => true,
            (_, Some(blocks)) => {
                let begun = blocks.iter().position(|block| *block == mark).unwrap_or(0);
                self.blocks = Some(&blocks[begun..]);
                let before = self.last.replace((mark, record.key()));
                before.is_none_or(|(block, key)| block != mark || key < record.key())
            }
        }
    }
}
