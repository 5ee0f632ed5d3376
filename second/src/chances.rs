//! What `chances` answers to a line.

use crate::sheet::{Graph, graph};
use std::fmt::Write;

const BAD_LINE: &str = "bad line: six whole numbers are wanted, E M D a b N, each from 0 to 4294967295\n";

/// The six numbers of the first line, if that is what it holds.
fn numbers(input: &[u8]) -> Option<[u64; 6]> {
    let line = input.split(|b| *b == b'\n').next().unwrap_or(&[]);
    let words: Vec<&[u8]> =
        line.split(|b| matches!(b, b' ' | b'\t' | b'\r')).filter(|word| !word.is_empty()).collect();
    let found: Vec<u64> = words.iter().map(|word| number(word)).collect::<Option<_>>()?;
    found.try_into().ok()
}

fn number(word: &[u8]) -> Option<u64> {
    let text = std::str::from_utf8(word).ok()?;
    if !text.bytes().all(|b| b.is_ascii_digit()) {
        return None;
    }
    let significant = text.trim_start_matches('0');
    if significant.len() > 10 {
        return None;
    }
    let n: u64 = if significant.is_empty() { 0 } else { significant.parse().ok()? };
    (n <= u64::from(u32::MAX)).then_some(n)
}

pub fn answer(input: &[u8]) -> String {
    let Some([e, m, d, a, b, n]) = numbers(input) else {
        return BAD_LINE.to_string();
    };
    let mut out = String::new();
    let _ = writeln!(
        out,
        "Retry sheet: events {e}, resends of each {m}. Of {d} sendings {a} lose the request and {b} the receipt."
    );
    match graph(e, m, d, a, b) {
        None => out.push_str(
            "refused by 6 at place 0: the number of states is not 1 to 256, or the denominator not 1 to 65535 (opening of source K)\n\
             A sheet has states only within its limits: E 1 to 255, M up to 255, D 1 to 65535, a + b up to D, 2 x E x (M + 1) + 3 up to 256.\n",
        ),
        Some(model) => table(&mut out, &model, n),
    }
    out
}

fn table(out: &mut String, model: &Graph, steps: u64) {
    out.push_str("Chances of a double count within n steps from state 0, whatever the server does:\n");
    out.push_str("   n               least             largest                  of at least  at most\n");
    let mut low: Vec<u128> = model.goal.iter().map(|g| u128::from(*g)).collect();
    let mut high = low.clone();
    let mut whole: u128 = 1;
    for n in 0..=steps {
        if n > 0 {
            whole *= model.denominator;
            if n > 1000 || whole > 1 << 62 {
                let _ = writeln!(
                    out,
                    "{n:>4} refused by 18 at place 0: more than 1000 steps, or a power of the denominator above 2^62 (exact values)"
                );
                return;
            }
            low = stepped(model, &low, whole, |offers| offers.min());
            high = stepped(model, &high, whole, |offers| offers.max());
        }
        let down = low[0] * 1_000_000 / whole;
        let up = (high[0] * 1_000_000).div_ceil(whole);
        let _ = writeln!(out, "{n:>4} {:>19} {:>19} {whole:>19} {} {}", low[0], high[0], decimal(down), decimal(up));
    }
}

/// The values of all states after one step more; `pick` takes the least or the largest offer.
fn stepped(
    model: &Graph,
    values: &[u128],
    whole: u128,
    pick: impl Fn(&mut dyn Iterator<Item = u128>) -> Option<u128>,
) -> Vec<u128> {
    (0..values.len())
        .map(|s| {
            if model.goal[s] {
                return whole;
            }
            let mut offers = model.choices[s].iter().map(|row| row.iter().map(|(t, w)| w * values[*t]).sum());
            pick(&mut offers).unwrap_or(0)
        })
        .collect()
}

fn decimal(millionths: u128) -> String {
    format!("{}.{:06}", millionths / 1_000_000, millionths % 1_000_000)
}
