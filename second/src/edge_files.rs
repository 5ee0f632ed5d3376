//! Files at the edges of the rules, each with the refusal that it has to meet, worked out by hand.

use crate::draft::{Draft, ce, ch, fl, hd, md, offset, one_of_each, pc, pm, rw, st, wf, zz};
use crate::reader::{Fault, Refusal};

pub struct Edge {
    pub name: String,
    pub input: Vec<u8>,
    pub refusal: Option<Refusal>,
}

pub fn all() -> Vec<Edge> {
    let mut edges = Edges(Vec::new());
    edges.openings();
    for (name, draft) in whole_files() {
        edges.whole(name, &draft);
        edges.cut_everywhere(name, &draft);
        edges.strange_marks(name, &draft);
        edges.bytes_after(name, &draft);
    }
    for (name, before, record) in faulty_records() {
        edges.faulty(name, &before, &record);
    }
    for (name, before, record) in misplaced_records() {
        edges.misplaced(name, &before, &record);
    }
    edges.short_files();
    edges.counts_without_entries();
    edges.large_files();
    edges.0
}

struct Edges(Vec<Edge>);

impl Edges {
    fn push(&mut self, name: String, input: Vec<u8>, refusal: Option<(Fault, usize)>) {
        let refusal = refusal.map(|(fault, place)| Refusal { fault, place });
        self.0.push(Edge { name, input, refusal });
    }

    fn whole(&mut self, name: &str, draft: &Draft) {
        self.push(format!("{name}, whole"), draft.concat(), None);
    }

    /// What stands at offset 0 and begins neither sort of file.
    fn openings(&mut self) {
        for short in ["", "M", "H", "Z", "\0", "?"] {
            self.push(format!("only {short:?}"), short.as_bytes().to_vec(), Some((Fault::Cut, 0)));
        }
        for strange in ["??", "md", "hd", "DM", "MZ", "HM", "\0\0", " MD\0\x02\0\x04ZZ", "\nHD\x05\0ZZ"] {
            self.push(format!("opens with {strange:?}"), strange.as_bytes().to_vec(), Some((Fault::Mark, 0)));
        }
        for record in one_of_each().iter().filter(|record| !opens_a_file(record)) {
            let mark = record[..2].escape_ascii();
            self.push(format!("opens with {mark}"), record.clone(), Some((Fault::Mark, 0)));
            self.push(format!("only the mark {mark}"), record[..2].to_vec(), Some((Fault::Mark, 0)));
        }
    }

    /// Ended after each byte: the record in which the bytes end, or which is due there, is named.
    fn cut_everywhere(&mut self, name: &str, draft: &Draft) {
        let bytes = draft.concat();
        for (index, record) in draft.iter().enumerate() {
            let start = offset(draft, index);
            for length in start..start + record.len() {
                self.push(format!("{name}, cut to {length}"), bytes[..length].to_vec(), Some((Fault::Cut, start)));
            }
            let stray = [&bytes[..start], b"?"].concat();
            self.push(format!("{name}, a stray byte at {start}"), stray, Some((Fault::Cut, start)));
        }
    }

    /// A mark that is unknown or may not come, at each point: in a whole record, and in one that ends with its mark.
    fn strange_marks(&mut self, name: &str, draft: &Draft) {
        for (index, own) in draft.iter().enumerate() {
            let unknown = [b"??", &own[2..]].concat();
            self.strange(name, draft, index, &unknown);
            for foreign in one_of_each().iter().filter(|record| is_strange(draft, index, record)) {
                self.strange(name, draft, index, foreign);
            }
        }
    }

    fn strange(&mut self, name: &str, draft: &Draft, index: usize, record: &[u8]) {
        let (before, after) = draft.split_at(index);
        let place = offset(draft, index);
        let mark = record[..2].escape_ascii();
        let input = [&before.concat(), record, &after.concat()].concat();
        self.push(format!("{name}, {mark} at {place}"), input, Some((Fault::Mark, place)));
        let input = [&before.concat(), &record[..2]].concat();
        self.push(format!("{name}, only the mark {mark} at {place}"), input, Some((Fault::Mark, place)));
    }

    fn bytes_after(&mut self, name: &str, draft: &Draft) {
        let bytes = draft.concat();
        for more in [b"\0", b"Z", &b"ZZ"[..], b"??", b"CE", &bytes] {
            let input = [&bytes, more].concat();
            self.push(format!("{name}, {} bytes after ZZ", more.len()), input, Some((Fault::After, bytes.len())));
        }
    }

    /// Refused by 3 if it is complete, with whatever after it; by 1 if its last byte is missing.
    fn faulty(&mut self, name: &str, before: &Draft, record: &[u8]) {
        let place = offset(before, before.len());
        let field = Some((Fault::Field, place));
        let complete = [&before.concat(), record].concat();
        self.push(format!("{name}, at the end"), complete.clone(), field);
        self.push(format!("{name}, before ZZ"), [&complete[..], b"ZZ"].concat(), field);
        self.push(format!("{name}, before a strange mark"), [&complete[..], b"??"].concat(), field);
        let shorter = complete[..complete.len() - 1].to_vec();
        self.push(format!("{name}, cut"), shorter, Some((Fault::Cut, place)));
    }

    /// Refused by 2, complete or not.
    fn misplaced(&mut self, name: &str, before: &Draft, record: &[u8]) {
        let place = offset(before, before.len());
        for length in 2..=record.len() {
            let input = [&before.concat(), &record[..length]].concat();
            self.push(format!("{name}, {length} bytes of it"), input, Some((Fault::Mark, place)));
        }
    }

    /// Files that end where a record is due.
    fn short_files(&mut self) {
        let files: [(&str, Draft); 6] = [
            ("all states missing", vec![md(65_535, 1)]),
            ("a state missing", vec![md(2, 1), st(0, 0)]),
            ("all choices missing", vec![md(1, 1), st(0, 65_535)]),
            ("a choice missing", vec![md(1, 1), st(0, 2), ch(&[(0, 1)])]),
            ("ZZ missing after no states", vec![md(0, 0)]),
            ("ZZ missing after HD", vec![hd(5, 0)]),
        ];
        for (name, draft) in files {
            let end = offset(&draft, draft.len());
            self.push(name.to_string(), draft.concat(), Some((Fault::Cut, end)));
        }
    }

    /// Counts of entries that the bytes do not hold, with a bad field before the end.
    fn counts_without_entries(&mut self) {
        for count in [1_u16, 2, 255, 256, 65_535] {
            let head = [md(1, 4), st(0, 1)].concat();
            let record = [b"CH", &count.to_be_bytes()[..], &[0, 9, 0]].concat();
            self.push(format!("CH of {count} entries"), [&head[..], &record].concat(), Some((Fault::Cut, head.len())));
            let head = hd(4, 0);
            let record = [b"WF\0\0\0\0\0\0\0", &count.to_be_bytes()[..], &[0, 0, 0, 0]].concat();
            self.push(format!("WF of {count} entries"), [&head[..], &record].concat(), Some((Fault::Cut, head.len())));
        }
    }

    fn large_files(&mut self) {
        let all_targets: Vec<(u16, u16)> = (0..65_535).map(|target| (target, target.max(1))).collect();
        let wide = vec![md(65_535, 65_535), st(0, 4), ch(&all_targets), ch(&all_targets), ch(&all_targets), ch(&all_targets)];
        let end = offset(&wide, wide.len());
        self.push("an offset of seven digits".to_string(), [&wide.concat(), &st(1, 0)[..]].concat(), Some((Fault::Cut, end + 5)));
        self.push("a fault at seven digits".to_string(), [&wide.concat(), &st(2, 0)[..]].concat(), Some((Fault::Field, end)));

        for states in [255, 256, 257, 65_535] {
            let mut many = vec![md(states, 1), st(0, 1), ch(&[(0, 1), (states - 1, 1)])];
            many.extend((1..states).map(|state| st((state % 2) as u8, 0)));
            many.push(zz());
            self.whole(&format!("{states} states"), &many);
        }

        let entries: Vec<(u16, u8, u16)> = (0..65_535).map(|i| (i / 256, (i % 256) as u8, 1)).collect();
        self.whole("65535 amounts", &vec![hd(4, 0), wf((65_535, 255, 65_535), 65_535, &entries), zz()]);
        let mut broken = entries;
        broken[65_534] = broken[65_533];
        self.faulty("65535 amounts, the last one twice", &vec![hd(4, 0)], &wf((0, 0, 0), 0, &broken));
    }
}

fn opens_a_file(record: &[u8]) -> bool {
    record.starts_with(b"MD") || record.starts_with(b"HD")
}

/// May no record with this mark stand at this point of a file? Other sorts of file, and orders of blocks, are left out.
fn is_strange(draft: &Draft, index: usize, record: &[u8]) -> bool {
    let kind = draft[0][2];
    let may_come: &[&[u8]] = match (index, &draft[0][..2], kind) {
        (0, ..) => &[b"MD", b"HD"],
        (_, b"MD", _) => &[&draft[index][..2]],
        (_, _, 1) => &[b"CE", b"ZZ"],
        (_, _, 2) => &[b"FL", b"ZZ"],
        (_, _, 3) => &[b"PC", b"PM", b"ZZ"],
        (_, _, 4) => &[b"RW", b"WF", b"ZZ"],
        _ => &[b"ZZ"],
    };
    !may_come.contains(&&record[..2])
}

/// Files that read whole; together they have every mark.
fn whole_files() -> Vec<(&'static str, Draft)> {
    const CLAIM: u32 = 1_048_576;
    let (x, y) = (ch(&[(0, 3), (1, 1)]), ch(&[(0, 2), (1, 2)]));
    let (u, v) = (ch(&[(0, 1), (2, 3)]), ch(&[(2, 4)]));
    vec![
        ("a model", vec![md(2, 4), st(0, 2), x, y, st(1, 0), zz()]),
        ("a model with targets up to the last", vec![md(3, 4), st(0, 0), st(0, 1), u, st(1, 1), v, zz()]),
        ("no states", vec![md(0, 7), zz()]),
        ("denominator 0", vec![md(1, 0), st(1, 1), ch(&[(0, 1)]), zz()]),
        ("no states, denominator 0", vec![md(0, 0), zz()]),
        ("a choice without targets", vec![md(1, 1), st(0, 2), ch(&[]), ch(&[]), zz()]),
        ("weights above the denominator", vec![md(2, 1), st(0, 1), ch(&[(0, 2), (1, 65_535)]), st(0, 0), zz()]),
        ("low ceilings", vec![hd(1, 0), ce(0, 0), ce(1, CLAIM), ce(255, 1), ce(256, 65_536), ce(65_535, 9), zz()]),
        ("high ceilings", vec![hd(1, 1), ce(7, CLAIM - 1), zz()]),
        ("no ceilings", vec![hd(1, 0), zz()]),
        ("low floors", vec![hd(2, 0), fl(0, CLAIM), fl(255, 0), fl(256, 65_535), zz()]),
        ("high floors", vec![hd(2, 1), fl(65_535, 1), zz()]),
        ("no floors", vec![hd(2, 1), zz()]),
        ("classes", vec![hd(3, 0), pc(0, 0), pc(5, 255), pm(0, 0, 9), pm(0, 1, 65_535), pm(2, 0, 0), pm(256, 255, 256), zz()]),
        ("classes without matches", vec![hd(3, 0), pc(1, 1), pc(256, 0), zz()]),
        ("matches without classes", vec![hd(3, 0), pm(1, 1, 1), pm(1, 256, 0), zz()]),
        ("neither classes nor matches", vec![hd(3, 0), zz()]),
        (
            "a relation",
            vec![
                hd(4, 0),
                rw(0, 0),
                rw(1, 6),
                rw(9, 1 << 63 | 1),
                wf((0, 1, 2), 3, &[(0, 1, 2), (0, 2, 1), (1, 0, 65_535)]),
                wf((0, 1, 3), 0, &[]),
                wf((0, 2, 0), 65_535, &[(255, 255, 1), (256, 0, 256)]),
                wf((1, 0, 0), 0, &[(7, 63, 1)]),
                zz(),
            ],
        ),
        ("rows alone", vec![hd(4, 0), rw(255, u64::MAX), rw(256, 1 << 32), rw(65_535, 0xff), zz()]),
        ("amounts alone", vec![hd(4, 0), wf((255, 9, 9), 0, &[]), wf((256, 0, 0), 0, &[(255, 0, 1), (256, 0, 1)]), zz()]),
        ("neither rows nor amounts", vec![hd(4, 0), zz()]),
        ("carry", vec![hd(5, 0), zz()]),
    ]
}

/// A record of which a field is out of range, or the order broken, after records that read.
fn faulty_records() -> Vec<(&'static str, Draft, Vec<u8>)> {
    const ABOVE: u32 = 1_048_577;
    let at_choice = |states| vec![md(states, 4), st(0, 2), ch(&[(0, 4)])];
    let ceilings = || vec![hd(1, 1), ce(3, 5), ce(256, 5)];
    let floors = || vec![hd(2, 0), fl(3, 5), fl(256, 5)];
    let classes = || vec![hd(3, 0), pc(3, 5), pc(256, 5)];
    let matches = || vec![hd(3, 0), pc(9, 9), pm(3, 7, 0), pm(256, 7, 0)];
    let rows = || vec![hd(4, 0), rw(3, 5), rw(256, 5)];
    let amounts = || vec![hd(4, 0), rw(9, 9), wf((3, 5, 7), 0, &[]), wf((256, 5, 7), 0, &[])];
    let flows = |entries: &[(u16, u8, u16)]| wf((257, 0, 0), 0, entries);
    vec![
        ("ST of goal 2", vec![md(1, 1)], st(2, 0)),
        ("ST of goal 255", vec![md(2, 1), st(1, 0)], st(255, 1)),
        ("CH of weight 0", at_choice(9), ch(&[(0, 0)])),
        ("CH of last weight 0", at_choice(9), ch(&[(0, 1), (1, 1), (2, 0)])),
        ("CH of target n", at_choice(9), ch(&[(0, 1), (9, 1)])),
        ("CH of target n alone", at_choice(1), ch(&[(1, 1)])),
        ("CH of target n, 256 states", at_choice(256), ch(&[(255, 1), (256, 1)])),
        ("CH of target 65535", at_choice(65_535), ch(&[(65_534, 1), (65_535, 1)])),
        ("CH of falling targets", at_choice(300), ch(&[(256, 1), (255, 1)])),
        ("CH of late falling targets", at_choice(9), ch(&[(2, 1), (5, 1), (4, 1)])),
        ("CH of a target twice", at_choice(9), ch(&[(2, 1), (2, 3)])),
        ("HD of kind 0", vec![], hd(0, 0)),
        ("HD of kind 6", vec![], hd(6, 0)),
        ("HD of kind 255", vec![], hd(255, 1)),
        ("HD of kind 1, side 2", vec![], hd(1, 2)),
        ("HD of kind 2, side 255", vec![], hd(2, 255)),
        ("HD of kind 3, side 1", vec![], hd(3, 1)),
        ("HD of kind 4, side 1", vec![], hd(4, 1)),
        ("HD of kind 5, side 1", vec![], hd(5, 1)),
        ("HD of kind 5, side 2", vec![], hd(5, 2)),
        ("CE of a claim too large", ceilings(), ce(257, ABOVE)),
        ("CE of the largest number", ceilings(), ce(257, u32::MAX)),
        ("CE of a state twice", ceilings(), ce(256, 6)),
        ("CE of a state before", ceilings(), ce(255, 5)),
        ("FL of a claim too large", floors(), fl(257, ABOVE)),
        ("FL of the largest number", floors(), fl(257, u32::MAX)),
        ("FL of a state twice", floors(), fl(256, 6)),
        ("FL of a state before", floors(), fl(255, 5)),
        ("PC of a state twice", classes(), pc(256, 6)),
        ("PC of a state before", classes(), pc(255, 9)),
        ("PM of a key twice", matches(), pm(256, 7, 1)),
        ("PM of a choice before", matches(), pm(256, 6, 0)),
        ("PM of a state before", matches(), pm(255, 8, 0)),
        ("RW of a state twice", rows(), rw(256, 6)),
        ("RW of a state before", rows(), rw(255, 9)),
        ("WF of a key twice", amounts(), wf((256, 5, 7), 1, &[(0, 0, 1)])),
        ("WF of a choice before", amounts(), wf((256, 5, 6), 0, &[])),
        ("WF of a high state before", amounts(), wf((256, 4, 8), 0, &[])),
        ("WF of a state before", amounts(), wf((255, 6, 8), 0, &[])),
        ("WF of amount 0", amounts(), flows(&[(0, 0, 0)])),
        ("WF of last amount 0", amounts(), flows(&[(0, 0, 1), (0, 1, 1), (1, 0, 0)])),
        ("WF of falling targets", amounts(), flows(&[(256, 0, 1), (255, 1, 1)])),
        ("WF of falling high targets", amounts(), flows(&[(1, 128, 1), (1, 127, 1)])),
        ("WF of late falling high targets", amounts(), flows(&[(1, 1, 1), (1, 3, 1), (1, 2, 1)])),
        ("WF of an entry twice", amounts(), flows(&[(1, 1, 1), (1, 1, 2)])),
    ]
}

/// A record that may not come where it stands, after records that read.
fn misplaced_records() -> Vec<(&'static str, Draft, Vec<u8>)> {
    vec![
        ("ST without states", vec![md(0, 1)], st(0, 0)),
        ("a CH too many", vec![md(1, 1), st(0, 1), ch(&[])], ch(&[])),
        ("CH without choices", vec![md(1, 1), st(0, 0)], ch(&[])),
        ("an ST too many", vec![md(1, 1), st(0, 0)], st(0, 0)),
        ("ST while a choice is to come", vec![md(2, 1), st(0, 2), ch(&[])], st(0, 0)),
        ("ZZ while a choice is to come", vec![md(1, 1), st(0, 2), ch(&[])], zz()),
        ("ZZ while a state is to come", vec![md(65_535, 1), st(0, 0)], zz()),
        ("MD twice", vec![md(1, 1)], md(1, 1)),
        ("HD twice", vec![hd(1, 0)], hd(1, 0)),
        ("MD in a hand-in", vec![hd(3, 0), pc(0, 0)], md(0, 0)),
        ("PC after PM", vec![hd(3, 0), pc(0, 0), pm(0, 0, 0)], pc(1, 0)),
        ("PC after PM without PC", vec![hd(3, 0), pm(0, 0, 0)], pc(1, 0)),
        ("PC after PM, of a state twice", vec![hd(3, 0), pc(1, 0), pm(0, 0, 0)], pc(1, 0)),
        ("RW after WF", vec![hd(4, 0), rw(0, 1), wf((0, 0, 0), 0, &[])], rw(1, 1)),
        ("RW after WF without RW", vec![hd(4, 0), wf((0, 0, 0), 0, &[])], rw(1, 1)),
        ("FL among ceilings", vec![hd(1, 0), ce(0, 1)], fl(1, 1)),
        ("CE among floors", vec![hd(2, 0), fl(0, 1)], ce(1, 1)),
        ("FL of a claim too large among ceilings", vec![hd(1, 0)], fl(1, u32::MAX)),
        ("RW among classes", vec![hd(3, 0), pc(0, 0)], rw(1, 1)),
        ("PM in a relation", vec![hd(4, 0), rw(0, 0)], pm(1, 1, 1)),
        ("CE in a carry", vec![hd(5, 0)], ce(0, 0)),
    ]
}

#[cfg(test)]
mod tests {
    #[test]
    fn each_edge_is_read_as_worked_out() {
        for edge in super::all() {
            assert_eq!(crate::reader::read(&edge.input).refusal, edge.refusal, "{}", edge.name);
        }
    }
}
