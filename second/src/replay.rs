//! Replay (01, "Listing and replay"): fires the given numbers one by one.

use std::fmt;

use crate::checks;
use crate::net::{self, Marking, ProductMarking};
use crate::{Refusal, Slips};

/// Why a replay stopped, in the order in which it is asked before each firing.
#[derive(Clone, Copy, Debug, PartialEq, Eq, PartialOrd, Ord)]
pub enum Stop {
    RunEnded,
    BudgetSpent,
    NotFirable,
    CapPassed,
}

impl fmt::Display for Stop {
    fn fmt(&self, out: &mut fmt::Formatter<'_>) -> fmt::Result {
        out.write_str(match self {
            Stop::RunEnded => "run ended",
            Stop::BudgetSpent => "budget spent",
            Stop::NotFirable => "not firable",
            Stop::CapPassed => "cap passed",
        })
    }
}

#[derive(Clone, Debug, PartialEq, Eq)]
pub struct Replay {
    pub fired: usize,
    pub marking: ProductMarking,
    pub is_final: bool,
    pub stop: Stop,
    pub explains: bool,
}

impl Replay {
    /// The report in words: how many were fired, the system's marking, the
    /// pattern's, whether that is final, why it stopped, whether it explains.
    pub fn words(&self) -> [String; 6] {
        let tokens = |marking: &Marking| {
            let words: Vec<String> = marking.iter().map(u32::to_string).collect();
            words.join(" ")
        };
        [
            format!("fired {}", self.fired),
            tokens(&self.marking.system),
            tokens(&self.marking.pattern),
            if self.is_final { "final" } else { "not final" }.into(),
            self.stop.to_string(),
            if self.explains { "explains" } else { "no" }.into(),
        ]
    }
}

/// Replays a run on a case file; refusals 2 to 7.
pub fn replay(file: &[u8], run: &[u8], budget: u16, slips: &Slips) -> Result<Replay, Refusal> {
    let case = checks::up_to_seven(file, slips)?;
    let mut marking = net::first_product_marking(&case);
    let mut fired = 0;
    let mut shown = Vec::new();
    let stop = loop {
        let Some(number) = run.get(fired).copied().map(usize::from) else {
            break Stop::RunEnded;
        };
        if fired == usize::from(budget) {
            break Stop::BudgetSpent;
        }
        if !net::firable(&case, number, &marking.system, slips) {
            break Stop::NotFirable;
        }
        let one = &case.system.transitions[number];
        let system = net::fire(one, &marking.system, slips);
        let pattern = net::follow(&case.pattern, one.label, &marking.pattern, slips).swap_remove(0);
        if net::passes_cap(&case.system, &system) || net::passes_cap(&case.pattern, &pattern) {
            break Stop::CapPassed;
        }
        if case.observable.contains(&one.label) {
            shown.push(one.label);
        }
        marking = ProductMarking { system, pattern };
        fired += 1;
    };
    let is_final = net::is_final(&case, &marking.pattern);
    let explains = stop == Stop::RunEnded && shown == case.log;
    Ok(Replay {
        fired,
        marking,
        is_final,
        stop,
        explains,
    })
}
