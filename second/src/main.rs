//! A second program for the same rules, written apart from the proved ones and sharing no code with them.
//!
//! `second chances` and `second dump` answer standard input as the programs of these names do.
//! `second compare chances PROGRAM COUNT SEED` makes lines, good and damaged, and holds PROGRAM's answers to its own;
//! `second compare dump PROGRAM COUNT SEED` does so with model files and hand-ins.

mod chances;
mod compare;
mod draft;
mod draws;
mod dump;
mod edge_files;
mod made_files;
mod made_lines;
mod reader;
mod record;
mod sheet;

use std::io::Read;
use std::process::ExitCode;

fn main() -> ExitCode {
    let words: Vec<String> = std::env::args().skip(1).collect();
    match words.iter().map(String::as_str).collect::<Vec<_>>().as_slice() {
        ["chances"] => answered(chances::answer),
        ["dump"] => answered(dump::answer),
        ["compare", "chances", program, count, seed] => compared(compare::chances, program, count, seed),
        ["compare", "dump", program, count, seed] => compared(compare::dump, program, count, seed),
        _ => usage(),
    }
}

fn answered(answer: fn(&[u8]) -> String) -> ExitCode {
    let mut input = Vec::new();
    if std::io::stdin().read_to_end(&mut input).is_err() {
        return ExitCode::FAILURE;
    }
    print!("{}", answer(&input));
    ExitCode::SUCCESS
}

fn compared(compare: fn(&str, u64, u64) -> Result<String, String>, program: &str, count: &str, seed: &str) -> ExitCode {
    let (Ok(count), Ok(seed)) = (count.parse(), seed.parse()) else {
        return usage();
    };
    match compare(program, count, seed) {
        Ok(tally) => {
            println!("second: {tally}");
            ExitCode::SUCCESS
        }
        Err(why) => {
            eprintln!("second: {why}");
            ExitCode::FAILURE
        }
    }
}

fn usage() -> ExitCode {
    eprintln!("usage: second chances | second dump | second compare (chances | dump) PROGRAM COUNT SEED");
    ExitCode::from(2)
}
