//! Another program's answers, held to ours.

use crate::draws::Draws;
use crate::reader::{self, Reading};
use crate::{chances, dump, edge_files, made_files, made_lines};
use std::io::{Error, Write};
use std::process::{Command, Stdio};

/// How much of a difference is shown.
const SHOWN_LINES: usize = 12;

/// Holds PROGRAM to `chances`. Says what was tried, or what differs.
pub fn chances(program: &str, count: u64, seed: u64) -> Result<String, String> {
    let mut draws = Draws::new(seed);
    let edges = made_lines::EDGES.iter().map(|line| line.as_bytes().to_vec());
    let drawn = (0..count).map(|_| made_lines::line(&mut draws));
    let mut tried = 0;
    let mut tables = 0;
    for line in edges.chain(drawn) {
        let wanted = chances::answer(&line);
        hold(program, &format!("{:?}", String::from_utf8_lossy(&line)), &line, &wanted)?;
        tried += 1;
        tables += u64::from(wanted.contains(" at least "));
    }
    Ok(format!("{tried} lines answered alike, {tables} of them with a table"))
}

/// Holds PROGRAM to `dump`. Says which verdicts were met, or what differs, or that a verdict was never met.
pub fn dump(program: &str, count: u64, seed: u64) -> Result<String, String> {
    let mut met = [0; 5];
    let mut try_out = |name: &str, input: &[u8], reading: &Reading| {
        met[reading.refusal.map_or(0, |refusal| refusal.fault as usize)] += 1;
        hold(program, name, input, &dump::words(reading, input.len()))
    };
    for edge in edge_files::all() {
        let reading = reader::read(&edge.input);
        if reading.refusal != edge.refusal {
            return Err(format!("{}: worked out {:?}, read {:?}", edge.name, edge.refusal, reading.refusal));
        }
        try_out(&edge.name, &edge.input, &reading)?;
    }
    let mut draws = Draws::new(seed);
    for index in 0..count {
        let input = made_files::file(&mut draws);
        try_out(&format!("drawn file {index} of seed {seed}"), &input, &reader::read(&input))?;
    }
    let [whole, by_1, by_2, by_3, by_4] = met;
    let tally = format!("{whole} read whole, refused by 1: {by_1}, by 2: {by_2}, by 3: {by_3}, by 4: {by_4}");
    if met.contains(&0) {
        return Err(format!("some verdict was never met: {tally}"));
    }
    Ok(format!("{} files answered alike: {tally}", met.iter().sum::<u64>()))
}

/// Runs PROGRAM on an input; an error if its answer is another than the one that is wanted. The input is kept then.
fn hold(program: &str, name: &str, input: &[u8], wanted: &str) -> Result<(), String> {
    let found = answer_of(program, input).map_err(|why| format!("{program} did not answer: {why}"));
    let why = match found {
        Ok(found) if found == wanted.as_bytes() => return Ok(()),
        Ok(found) => difference(wanted, &String::from_utf8_lossy(&found)),
        Err(why) => why,
    };
    let kept = std::env::temp_dir().join("second-input");
    let kept = match std::fs::write(&kept, input) {
        Ok(()) => format!("kept in {}", kept.display()),
        Err(why) => format!("not kept: {why}"),
    };
    Err(format!("on {name} (the input is {kept})\n{why}"))
}

/// Both texts, from the first line on in which they differ.
fn difference(wanted: &str, found: &str) -> String {
    let alike = lines(wanted).zip(lines(found)).take_while(|(a, b)| a == b).count();
    let rest = |text| lines(text).skip(alike).take(SHOWN_LINES).map(|line| format!("  {line:?}\n")).collect::<String>();
    format!("from line {} on wanted\n{}and found\n{}", alike + 1, rest(wanted), rest(found))
}

/// The lines of a text, each with its line feed.
fn lines(text: &str) -> impl Iterator<Item = &str> {
    text.split_inclusive('\n')
}

/// What PROGRAM prints on an input, which it is given while it may be printing already.
fn answer_of(program: &str, input: &[u8]) -> std::io::Result<Vec<u8>> {
    let mut child = Command::new(program).stdin(Stdio::piped()).stdout(Stdio::piped()).spawn()?;
    let stdin = child.stdin.take();
    let done = std::thread::scope(|scope| {
        // A program that has read what it wants may have gone already.
        scope.spawn(|| stdin.map(|mut stdin| stdin.write_all(input)));
        child.wait_with_output()
    })?;
    if !done.status.success() {
        return Err(Error::other(format!("it ended with {}", done.status)));
    }
    Ok(done.stdout)
}
