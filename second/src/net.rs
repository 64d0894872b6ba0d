//! Nets and firing (01, "Nets and firing" and "How the pattern follows"). A
//! marking counts tokens, place by place.

use crate::case::{Bounds, Case, Net, Transition, MOST_CAP};
use crate::Slips;

pub type Marking = Vec<u32>;

/// The system's marking with the pattern's.
#[derive(Clone, Debug, PartialEq, Eq, Hash, PartialOrd, Ord)]
pub struct ProductMarking {
    pub system: Marking,
    pub pattern: Marking,
}

pub fn first_marking(net: &Net) -> Marking {
    net.first_tokens
        .iter()
        .map(|tokens| u32::from(*tokens))
        .collect()
}

pub fn first_product_marking(case: &Case) -> ProductMarking {
    ProductMarking {
        system: first_marking(&case.system),
        pattern: first_marking(&case.pattern),
    }
}

/// Each input place holds at least one token; with no inputs, always.
pub fn enabled(one: &Transition, marking: &Marking) -> bool {
    one.inputs
        .iter()
        .all(|place| marking[usize::from(*place)] > 0)
}

/// Enabled, and no transition listed as higher is enabled. A number that is no
/// transition is never firable.
pub fn firable(case: &Case, number: usize, marking: &Marking, slips: &Slips) -> bool {
    let transitions = &case.system.transitions;
    let Some(one) = transitions.get(number) else {
        return false;
    };
    let blocks = |higher: usize| {
        if slips.higher_must_be_firable {
            // Ends, since this is asked only after refusal 3 has found no cycle.
            firable(case, higher, marking, slips)
        } else {
            enabled(&transitions[higher], marking)
        }
    };
    let mut above = case
        .pairs
        .iter()
        .filter(|pair| usize::from(pair.lower) == number);
    enabled(one, marking) && !above.any(|pair| blocks(usize::from(pair.higher)))
}

/// The marking after an enabled transition has fired: one token taken from each
/// input, then one put in each output.
pub fn fire(one: &Transition, marking: &Marking, slips: &Slips) -> Marking {
    let mut after = marking.clone();
    for place in &one.inputs {
        let tokens = &mut after[usize::from(*place)];
        *tokens = if slips.marking_is_a_set {
            0
        } else {
            *tokens - 1
        };
    }
    for place in &one.outputs {
        let tokens = &mut after[usize::from(*place)];
        *tokens = if slips.marking_is_a_set {
            1
        } else {
            *tokens + 1
        };
        if slips.cap_after_wrap {
            carry(&mut after, usize::from(*place));
        }
    }
    after
}

/// Only with the slip of asking the cap too late: a half of a byte that is past 15
/// begins anew, and the place before has one token more; before the first there is
/// none.
fn carry(marking: &mut Marking, place: usize) {
    if marking[place] > u32::from(MOST_CAP) {
        marking[place] = 0;
        if place > 0 {
            marking[place - 1] += 1;
            carry(marking, place - 1);
        }
    }
}

/// The cap is compared with a firing's result.
pub fn passes_cap(net: &Net, after: &Marking) -> bool {
    after.iter().any(|tokens| *tokens > u32::from(net.cap))
}

/// Where the pattern may stand after the system fired this label: it fires its
/// enabled transition of the label if there is one (by refusal 6 there are not
/// two), else it stays. So there is one answer, save with the slip of skipping.
pub fn follow(pattern: &Net, label: u8, marking: &Marking, slips: &Slips) -> Vec<Marking> {
    let mut of_label = pattern.transitions.iter().filter(|one| one.label == label);
    match of_label.find(|one| enabled(one, marking)) {
        None => vec![marking.clone()],
        Some(one) if slips.pattern_may_skip => vec![fire(one, marking, slips), marking.clone()],
        Some(one) => vec![fire(one, marking, slips)],
    }
}

/// A pattern marking is final if it meets all bounds of at least one QF.
pub fn is_final(case: &Case, pattern_marking: &Marking) -> bool {
    let meets = |bounds: &Vec<Bounds>| {
        bounds.iter().zip(pattern_marking).all(|(bound, tokens)| {
            u32::from(bound.least) <= *tokens && *tokens <= u32::from(bound.most)
        })
    };
    case.finals.iter().any(meets)
}
