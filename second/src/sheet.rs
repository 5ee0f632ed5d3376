//! The retry sheet as an explicit graph: for each state its choices, for each choice its targets and weights.

use std::collections::BTreeMap;
use std::collections::HashMap;

/// Where the client stands.
#[derive(Clone, Copy, PartialEq, Eq, Hash, Debug)]
enum Standing {
    Sends { event: u64, used: u64, applied: bool },
    Finished,
    GivenUp,
    CountedTwice,
}

pub struct Graph {
    pub denominator: u128,
    pub goal: Vec<bool>,
    pub choices: Vec<Vec<BTreeMap<usize, u128>>>,
}

/// The graph of a sheet, with a loop at each end state; None where the numbers are out of their limits.
pub fn graph(events: u64, resends: u64, denominator: u64, request: u64, receipt: u64) -> Option<Graph> {
    if events == 0 || denominator == 0 || events > 255 || resends > 255 || denominator > 65_535 {
        return None;
    }
    if request + receipt > denominator {
        return None;
    }
    let mut standings = Vec::new();
    for event in 0..events {
        for used in 0..=resends {
            for applied in [false, true] {
                standings.push(Standing::Sends { event, used, applied });
            }
        }
    }
    standings.extend([Standing::Finished, Standing::GivenUp, Standing::CountedTwice]);
    if standings.len() > 256 {
        return None;
    }
    let number: HashMap<Standing, usize> = standings.iter().enumerate().map(|(i, s)| (*s, i)).collect();
    let rules = Rules { events, resends, denominator, request, receipt };
    let choices = standings
        .iter()
        .map(|standing| {
            let mut all: Vec<BTreeMap<usize, u128>> =
                rules.choices(*standing).iter().map(|gifts| collected(gifts, &number)).collect();
            if all.is_empty() {
                all.push(BTreeMap::from([(number[standing], u128::from(denominator))]));
            }
            all
        })
        .collect();
    let goal = standings.iter().map(|s| *s == Standing::CountedTwice).collect();
    Some(Graph { denominator: u128::from(denominator), goal, choices })
}

fn collected(gifts: &[(u64, Standing)], number: &HashMap<Standing, usize>) -> BTreeMap<usize, u128> {
    let mut row = BTreeMap::new();
    for (weight, standing) in gifts {
        *row.entry(number[standing]).or_insert(0) += u128::from(*weight);
    }
    row
}

struct Rules {
    events: u64,
    resends: u64,
    denominator: u64,
    request: u64,
    receipt: u64,
}

impl Rules {
    fn choices(&self, standing: Standing) -> Vec<Vec<(u64, Standing)>> {
        let Standing::Sends { event, used, applied } = standing else {
            return Vec::new();
        };
        let again = |applied| {
            if used == self.resends { Standing::GivenUp } else { Standing::Sends { event, used: used + 1, applied } }
        };
        let onward = if event + 1 == self.events {
            Standing::Finished
        } else {
            Standing::Sends { event: event + 1, used: 0, applied: false }
        };
        let lost = self.request + self.receipt;
        let through = (self.denominator - lost, onward);
        if !applied {
            return vec![vec![(self.request, again(false)), (self.receipt, again(true)), through]];
        }
        let remembers = vec![(lost, again(true)), through];
        let forgot = vec![(self.request, again(true)), (self.denominator - self.request, Standing::CountedTwice)];
        vec![remembers, forgot]
    }
}
