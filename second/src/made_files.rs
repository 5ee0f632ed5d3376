//! Files drawn at random: well-formed ones of every kind, about half of them then damaged.

use crate::draft::{Draft, ce, ch, fl, hd, md, one_of_each, pc, pm, rw, st, wf, zz};
use crate::draws::Draws;
use crate::record::WHOLE_CLAIM;
use std::collections::BTreeSet;

pub fn file(draws: &mut Draws) -> Vec<u8> {
    let mut draft = match draws.one_of(&[0, 0, 0, 1, 2, 3, 3, 4, 4, 4, 5]) {
        0 => model(draws),
        kind => hand_in(draws, kind),
    };
    let damage = draws.below(8);
    if matches!(damage, 4 | 5) {
        damage_records(draws, &mut draft);
    }
    let mut bytes = draft.concat();
    if matches!(damage, 5..=7) {
        damage_bytes(draws, &mut bytes);
    }
    bytes
}

fn model(draws: &mut Draws) -> Draft {
    let states = draws.one_of(&[0, 1, 1, 2, 2, 3, 4, 7, 12, 40, 300]);
    let mut draft = vec![md(states, two(draws))];
    for _ in 0..states {
        let choices = draws.one_of(&[0, 1, 1, 2, 3]);
        draft.push(st(draws.below(2) as u8, choices));
        for _ in 0..choices {
            let targets = several(draws, |draws| draws.below(states.into()) as u16);
            let entries: Vec<_> = targets.into_iter().map(|target| (target, two(draws).max(1))).collect();
            draft.push(ch(&entries));
        }
    }
    draft.push(zz());
    draft
}

fn hand_in(draws: &mut Draws, kind: u8) -> Draft {
    let side = if kind <= 2 { draws.below(2) as u8 } else { 0 };
    let mut draft = vec![hd(kind, side)];
    match kind {
        1 => draft.extend(several(draws, two).into_iter().map(|state| ce(state, claim(draws)))),
        2 => draft.extend(several(draws, two).into_iter().map(|state| fl(state, claim(draws)))),
        3 => {
            draft.extend(several(draws, two).into_iter().map(|state| pc(state, draws.below(256) as u8)));
            let keys = several(draws, |draws| (two(draws), two(draws)));
            draft.extend(keys.into_iter().map(|(state, choice)| pm(state, choice, two(draws))));
        }
        4 => {
            draft.extend(several(draws, two).into_iter().map(|state| rw(state, row(draws))));
            let keys = several(draws, |draws| (two(draws), draws.below(4) as u8, two(draws)));
            draft.extend(keys.into_iter().map(|key| drawn_wf(draws, key)));
        }
        _ => {}
    }
    draft.push(zz());
    draft
}

fn drawn_wf(draws: &mut Draws, key: (u16, u8, u16)) -> Vec<u8> {
    let ends = several(draws, |draws| (two(draws), draws.below(256) as u8));
    let entries: Vec<_> = ends.into_iter().map(|(target, high)| (target, high, two(draws).max(1))).collect();
    wf(key, two(draws), &entries)
}

/// A few things in ascending order, none of them twice.
fn several<T: Ord>(draws: &mut Draws, one: impl Fn(&mut Draws) -> T) -> BTreeSet<T> {
    let count = draws.one_of(&[0, 1, 1, 2, 2, 3, 5, 12]);
    (0..count).map(|_| one(draws)).collect()
}

/// A number of two bytes, often a small one or one at a limit.
fn two(draws: &mut Draws) -> u16 {
    match draws.below(4) {
        0 => draws.below(65_536) as u16,
        1 => draws.one_of(&[0, 1, 2, 254, 255, 256, 257, 511, 512, 32_767, 32_768, 65_534, 65_535]),
        _ => draws.below(6) as u16,
    }
}

fn claim(draws: &mut Draws) -> u32 {
    let drawn = draws.below(u64::from(WHOLE_CLAIM) + 1) as u32;
    draws.one_of(&[0, 1, 65_535, 65_536, WHOLE_CLAIM - 1, WHOLE_CLAIM, drawn, drawn, drawn])
}

fn row(draws: &mut Draws) -> u64 {
    let bits = (0..draws.below(5)).fold(0, |row, _| row | 1 << draws.below(64));
    draws.one_of(&[0, 1, 6, 1 << 63, u64::MAX, bits, bits, bits])
}

/// Records swapped, doubled, taken away or put in, or a mark put in place of another.
fn damage_records(draws: &mut Draws, draft: &mut Draft) {
    let at = draws.index(draft.len());
    let foreign = draws.index(one_of_each().len());
    let foreign = one_of_each().swap_remove(foreign);
    match draws.below(8) {
        0 => {
            let other = draws.index(draft.len());
            draft.swap(at, other);
        }
        1 | 2 => draft.swap(at, at.saturating_sub(1)),
        3 | 4 => draft.insert(at, draft[at].clone()),
        5 => {
            draft.remove(at);
        }
        6 => draft.insert(at, foreign),
        _ => draft[at][..2].copy_from_slice(&foreign[..2]),
    }
}

/// A byte changed, taken away or put in, or bytes cut off or put at the end.
fn damage_bytes(draws: &mut Draws, bytes: &mut Vec<u8>) {
    if bytes.is_empty() {
        return;
    }
    let at = draws.index(bytes.len());
    let drawn = draws.below(256) as u8;
    let byte = draws.one_of(&[0, 1, 2, 255, bytes[at].wrapping_add(1), bytes[at].wrapping_sub(1), drawn]);
    match draws.below(7) {
        0 => {
            bytes.remove(at);
        }
        1 => bytes.insert(at, byte),
        2 => bytes.truncate(at),
        3 => bytes.extend((0..=draws.below(4)).map(|_| byte)),
        _ => bytes[at] = byte,
    }
}
