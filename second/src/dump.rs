//! What `dump` answers to a file: its records in words, and the verdict.

use crate::reader::{self, Fault, Reading, Refusal, Sort};
use crate::record::Record;
use std::fmt::Write;

pub fn answer(input: &[u8]) -> String {
    words(&reader::read(input), input.len())
}

/// A reading in words, of an input that is `length` bytes long.
pub fn words(reading: &Reading, length: usize) -> String {
    let mut out = String::new();
    out.push_str(match reading.sort {
        Sort::Model => "model file\n",
        Sort::HandIn => "hand-in\n",
        Sort::Neither => "neither a model file nor a hand-in\n",
    });
    let mut counts = Counts::default();
    for (offset, record) in &reading.records {
        let _ = writeln!(out, "{offset:>6} {}", record_words(record, &mut counts));
        for entry in entry_words(record) {
            let _ = writeln!(out, "         {entry}");
        }
    }
    let _ = match reading.refusal {
        None => writeln!(out, "read whole: {length} bytes"),
        Some(Refusal { fault, place }) => {
            writeln!(out, "refused by {} at place {place}: {} (reader)", fault as u8, fault_words(fault))
        }
    };
    out
}

/// How many ST there were, and how many CH since the last of them.
#[derive(Default)]
struct Counts {
    states: usize,
    choices: usize,
}

fn record_words(record: &Record, counts: &mut Counts) -> String {
    match record {
        Record::Md { states, denominator } => format!("MD states {states}, denominator {denominator}"),
        Record::St { goal, choices } => {
            let state = counts.states;
            *counts = Counts { states: state + 1, choices: 0 };
            let goal = if *goal == 1 { "goal" } else { "no goal" };
            format!("ST state {state}: {goal}, choices {choices}")
        }
        Record::Ch { gifts } => {
            let choice = counts.choices;
            counts.choices += 1;
            format!("CH state {}, choice {choice}: targets {}", counts.states - 1, gifts.len())
        }
        Record::Hd { kind, side } => {
            let side_word = if *side == 0 { "low" } else { "high" };
            format!("HD kind {kind} ({}), side {side} ({side_word})", kind_word(*kind))
        }
        Record::Ce { state, claim } => format!("CE state {state}: ceiling {claim}"),
        Record::Fl { state, claim } => format!("FL state {state}: floor {claim}"),
        Record::Pc { state, class } => format!("PC state {state}: class {class}"),
        Record::Pm { state, choice, partner } => format!("PM state {state}, choice {choice}: match {partner}"),
        Record::Rw { state, row } => format!("RW state {state}: related to{}", row_words(*row)),
        Record::Wf { state, high_state, choice, partner, flows } => {
            let entries = flows.len();
            format!("WF state {state}, high state {high_state}, choice {choice}: match {partner}, entries {entries}")
        }
        Record::Zz => "ZZ end".to_string(),
    }
}

fn entry_words(record: &Record) -> Vec<String> {
    match record {
        Record::Ch { gifts } => gifts.iter().map(|gift| format!("to {}: weight {}", gift.target, gift.weight)).collect(),
        Record::Wf { flows, .. } => flows
            .iter()
            .map(|flow| format!("to {} and high {}: amount {}", flow.target, flow.high_target, flow.amount))
            .collect(),
        _ => Vec::new(),
    }
}

fn kind_word(kind: u8) -> &'static str {
    match kind {
        1 => "ceilings",
        2 => "floors",
        3 => "classes",
        4 => "relation",
        _ => "carry",
    }
}

/// The high states of a row, each after a space.
fn row_words(row: u64) -> String {
    if row == 0 {
        return " nothing".to_string();
    }
    (0..64).filter(|high_state| row >> high_state & 1 == 1).map(|high_state| format!(" {high_state}")).collect()
}

fn fault_words(fault: Fault) -> &'static str {
    match fault {
        Fault::Cut => "the bytes end before the record is complete",
        Fault::Mark => "the mark is unknown or not allowed there",
        Fault::Field => "a field is out of its range, or the order does not ascend",
        Fault::After => "there are bytes after ZZ",
    }
}
