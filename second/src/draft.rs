//! A file as a list of records in bytes, from which inputs are made. Fields may be out of range here.

pub type Draft = Vec<Vec<u8>>;

/// The offset of a record, or of the end for an index past the last one.
pub fn offset(draft: &Draft, index: usize) -> usize {
    draft.iter().take(index).map(Vec::len).sum()
}

fn record(mark: &str, fields: &[&[u8]]) -> Vec<u8> {
    [mark.as_bytes(), &fields.concat()].concat()
}

/// A count in two bytes, and the entries.
fn counted<T>(entries: &[T], entry: impl Fn(&T) -> Vec<u8>) -> Vec<u8> {
    let count = u16::try_from(entries.len()).expect("no record has so many entries");
    [count.to_be_bytes().to_vec(), entries.iter().flat_map(entry).collect()].concat()
}

pub fn md(states: u16, denominator: u16) -> Vec<u8> {
    record("MD", &[&states.to_be_bytes(), &denominator.to_be_bytes()])
}

pub fn st(goal: u8, choices: u16) -> Vec<u8> {
    record("ST", &[&[goal], &choices.to_be_bytes()])
}

/// Entries: target, weight.
pub fn ch(entries: &[(u16, u16)]) -> Vec<u8> {
    let entry = |(target, weight): &(u16, u16)| [target.to_be_bytes(), weight.to_be_bytes()].concat();
    record("CH", &[&counted(entries, entry)])
}

pub fn hd(kind: u8, side: u8) -> Vec<u8> {
    record("HD", &[&[kind], &[side]])
}

pub fn ce(state: u16, claim: u32) -> Vec<u8> {
    record("CE", &[&state.to_be_bytes(), &claim.to_be_bytes()])
}

pub fn fl(state: u16, claim: u32) -> Vec<u8> {
    record("FL", &[&state.to_be_bytes(), &claim.to_be_bytes()])
}

pub fn pc(state: u16, class: u8) -> Vec<u8> {
    record("PC", &[&state.to_be_bytes(), &[class]])
}

pub fn pm(state: u16, choice: u16, partner: u16) -> Vec<u8> {
    record("PM", &[&state.to_be_bytes(), &choice.to_be_bytes(), &partner.to_be_bytes()])
}

pub fn rw(state: u16, row: u64) -> Vec<u8> {
    record("RW", &[&state.to_be_bytes(), &row.to_be_bytes()])
}

/// The key: state, high state, choice. Entries: target, high target, amount.
pub fn wf(key: (u16, u8, u16), partner: u16, entries: &[(u16, u8, u16)]) -> Vec<u8> {
    let (state, high_state, choice) = key;
    let entry = |(target, high_target, amount): &(u16, u8, u16)| {
        [&target.to_be_bytes()[..], &[*high_target], &amount.to_be_bytes()].concat()
    };
    let entries = counted(entries, entry);
    record("WF", &[&state.to_be_bytes(), &[high_state], &choice.to_be_bytes(), &partner.to_be_bytes(), &entries])
}

pub fn zz() -> Vec<u8> {
    record("ZZ", &[])
}

/// One record of each mark.
pub fn one_of_each() -> Draft {
    vec![
        md(2, 4),
        st(0, 1),
        ch(&[(0, 1), (1, 3)]),
        hd(1, 0),
        ce(0, 5),
        fl(0, 5),
        pc(0, 1),
        pm(0, 0, 1),
        rw(0, 6),
        wf((0, 1, 0), 0, &[(0, 1, 2), (0, 2, 2)]),
        zz(),
    ]
}
