//! Cases with one fault or several at once, where the refusal that a call asks
//! first must speak.

use crate::case::{Case, Net};
use crate::known::{arcs, bounds, changed_hub, pairs};

/// The ground of one refusal. An early one shows only in a first record or a
/// first marking, a late one only further on, so that the order in which they
/// are met is not always the order in which they are asked.
#[derive(Clone, Copy, Debug, PartialEq, Eq)]
pub struct Fault {
    pub number: u8,
    pub late: bool,
}

/// Of these refusals, in the order in which a call asks them: none, each alone,
/// every two, and each with all that come after it; early and late.
pub fn fault_sets(order: &[u8]) -> Vec<Vec<Fault>> {
    let both = |number: u8| [false, true].map(|late| Fault { number, late });
    let mut sets = vec![vec![]];
    for (at, first) in order.iter().enumerate() {
        let later = &order[at + 1..];
        for one in both(*first) {
            sets.push(vec![one]);
            let others = later.iter().flat_map(|number| both(*number));
            sets.extend(others.map(|other| vec![one, other]));
            if later.len() > 1 {
                let rest = later.iter().map(|number| Fault {
                    number: *number,
                    ..one
                });
                sets.push([one].into_iter().chain(rest).collect());
            }
        }
    }
    sets
}

/// Whether the fault of this number is among them, and if so whether it is late.
pub fn fault(faults: &[Fault], number: u8) -> Option<bool> {
    let found = faults.iter().find(|one| one.number == number);
    found.map(|one| one.late)
}

/// H4 with those of the faults that a case file can have: 2 to 10.
pub fn with_faults(faults: &[Fault]) -> Case {
    changed_hub(|case| {
        // In order, since a full place has to know the cap that 4 or 8 sets.
        for number in 2..=10 {
            if let Some(late) = fault(faults, number) {
                add_fault(case, number, late);
            }
        }
    })
}

/// The places of the hub, and of its pattern, that have the token at first and
/// in the end.
const FIRST: u8 = 0;
const LAST: u8 = 2;

fn add_fault(case: &mut Case, number: u8, late: bool) {
    let patterned = &mut case.pattern.transitions;
    match (number, late) {
        (2, false) => case.system.transitions[0].label = 32,
        (2, true) => case.log.push(1),
        (3, false) => case.pairs = pairs(&[(1, 2), (2, 1)]),
        (3, true) => case.pairs = pairs(&[(4, 4)]),
        // 81 markings.
        (4, _) => {
            add_moving_over(&mut case.pattern, &[8, 8], 8, 10, late);
            extend_finals(case);
        }
        (5, _) => {
            add_full_place(&mut case.pattern, 9, late);
            extend_finals(case);
        }
        (6, false) => patterned.push(arcs(2, &[FIRST], &[1])),
        (6, true) => patterned.extend([arcs(13, &[LAST], &[LAST]), arcs(13, &[LAST], &[LAST])]),
        // The first marking is final too, and what follows is not.
        (7, false) => {
            case.finals.push(bounds(&[(1, 1)]));
            extend_finals(case);
        }
        (7, true) => patterned.push(arcs(12, &[LAST], &[FIRST])),
        // 512 markings, and the hub's own.
        (8, _) => add_moving_over(&mut case.system, &[7, 7, 7], 15, 6, late),
        (9, _) => add_full_place(&mut case.system, 5, late),
        // A label that no transition has.
        (10, _) => {
            case.observable.push(31);
            let at = if late { case.log.len() } else { 0 };
            case.log.insert(at, 31);
        }
        _ => unreachable!("{number} is no fault of a case"),
    }
}

/// Tokens that move over, from the start or once the last place is reached.
fn add_moving_over(net: &mut Net, tokens: &[u8], cap: u8, label: u8, late: bool) {
    net.cap = cap;
    for (count, label) in tokens.iter().zip(label..) {
        let from = net.first_tokens.len() as u8;
        net.first_tokens.extend([*count, 0]);
        net.transitions.push(if late {
            arcs(label, &[LAST, from], &[LAST, from + 1])
        } else {
            arcs(label, &[from], &[from + 1])
        });
    }
}

/// A place at the cap, into which one more token is put.
fn add_full_place(net: &mut Net, label: u8, late: bool) {
    let full = net.first_tokens.len() as u8;
    let from = if late { LAST } else { FIRST };
    net.first_tokens.push(net.cap);
    net.transitions.push(arcs(label, &[from], &[from, full]));
}

/// Gives each QF bounds for the places that it lacks: any count will do.
fn extend_finals(case: &mut Case) {
    let any = bounds(&[(0, case.pattern.cap)])[0];
    for one in &mut case.finals {
        one.resize(case.pattern.first_tokens.len(), any);
    }
}
