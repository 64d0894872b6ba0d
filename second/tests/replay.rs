//! Replay: each reason to stop, what is reported with it, and its refusals.

mod common;
use common::*;

use second::case::{self, Case};
use second::known::{arcs, counter_case, hub, hub_case, pair};
use second::net::ProductMarking;
use second::replay::{replay, Replay, Stop};
use second::{Refusal, Slips};

fn replayed(case: &Case, run: &[u8], budget: u16) -> Result<Replay, Refusal> {
    replay(&case::bytes(case), run, budget, &Slips::default())
}

fn done(
    fired: usize,
    (system, pattern): ([u32; 3], [u32; 3]),
    is_final: bool,
    stop: Stop,
    explains: bool,
) -> Result<Replay, Refusal> {
    let marking = ProductMarking {
        system: system.to_vec(),
        pattern: pattern.to_vec(),
    };
    Ok(Replay {
        fired,
        marking,
        is_final,
        stop,
        explains,
    })
}

const PAIRED: [u32; 3] = [1, 0, 0];
const AWAY: [u32; 3] = [0, 1, 0];
const CROSSED: [u32; 3] = [0, 0, 1];

#[test]
fn the_run_ends() {
    let h4 = hub(&[0, 3]);
    let whole = done(3, (CROSSED, [0, 0, 1]), true, Stop::RunEnded, true);
    assert_eq!(replayed(&h4, &[0, 2, 4], 65_535), whole);
    // Run ended is asked before budget spent.
    assert_eq!(replayed(&h4, &[0, 2, 4], 3), whole);
    assert_eq!(
        replayed(&h4, &[0, 1, 3], 9),
        done(3, (PAIRED, [1, 0, 0]), false, Stop::RunEnded, true)
    );
    assert_eq!(
        replayed(&h4, &[0, 1], 9),
        done(2, (PAIRED, [1, 0, 0]), false, Stop::RunEnded, false)
    );
    assert_eq!(
        replayed(&h4, &[], 0),
        done(0, (PAIRED, [1, 0, 0]), false, Stop::RunEnded, false)
    );
    assert_eq!(
        replayed(&hub(&[]), &[], 0),
        done(0, (PAIRED, [1, 0, 0]), false, Stop::RunEnded, true)
    );
    // More is seen than the log says.
    let more = done(4, (AWAY, [1, 0, 0]), false, Stop::RunEnded, false);
    assert_eq!(replayed(&h4, &[0, 1, 3, 0], 9), more);
}

#[test]
fn the_budget_is_spent() {
    let h4 = hub(&[0, 3]);
    assert_eq!(
        replayed(&h4, &[0, 2, 4], 2),
        done(2, (CROSSED, [0, 1, 0]), false, Stop::BudgetSpent, false)
    );
    assert_eq!(
        replayed(&h4, &[0, 2, 4], 0),
        done(0, (PAIRED, [1, 0, 0]), false, Stop::BudgetSpent, false)
    );
    // Budget spent is asked before not firable, and a stopped run explains
    // nothing even where what was fired does.
    let stopped = done(3, (CROSSED, [0, 0, 1]), true, Stop::BudgetSpent, false);
    assert_eq!(replayed(&h4, &[0, 2, 4, 99], 3), stopped);
}

#[test]
fn the_next_is_not_firable() {
    let h4 = hub(&[0, 3]);
    assert_eq!(
        replayed(&h4, &[0, 0], 9),
        done(1, (AWAY, [1, 0, 0]), false, Stop::NotFirable, false)
    );
    let stopped = done(3, (CROSSED, [0, 0, 1]), true, Stop::NotFirable, false);
    assert_eq!(replayed(&h4, &[0, 2, 4, 5], 9), stopped);
    assert_eq!(replayed(&h4, &[0, 2, 4, 255], 9), stopped);
    // Enabled, but a higher one is too.
    assert_eq!(
        replayed(&hub_case(6), &[0, 1], 9),
        done(1, (AWAY, [1, 0, 0]), false, Stop::NotFirable, false)
    );
}

#[test]
fn the_cap_is_passed() {
    let mut case = hub(&[0, 3]);
    case.system.transitions[3].outputs = vec![0, 1];
    // Refusal 9 is not among replay's; the marking is the one before the firing.
    assert_eq!(
        replayed(&case, &[3, 0], 9),
        done(1, ([1, 1, 0], [1, 0, 0]), false, Stop::CapPassed, false)
    );
    assert_eq!(
        replayed(&case, &[3, 0], 1),
        done(1, ([1, 1, 0], [1, 0, 0]), false, Stop::BudgetSpent, false)
    );
    // Not firable is asked before the cap.
    case.pairs = vec![pair(3, 0)];
    assert_eq!(
        replayed(&case, &[3, 0], 9),
        done(1, ([1, 1, 0], [1, 0, 0]), false, Stop::NotFirable, false)
    );
    // Input and output: the count is kept and the cap is not passed.
    assert_eq!(
        replayed(&hub(&[3, 3]), &[3, 3], 9),
        done(2, (PAIRED, [1, 0, 0]), false, Stop::RunEnded, true)
    );
}

#[test]
fn refusals_2_to_7_and_no_other() {
    assert_eq!(replayed(&hub(&[1]), &[0], 9), refused(2, 76));
    assert_eq!(replay(&[], &[0], 9, &Slips::default()), refused(2, 0));
    let mut case = hub(&[0, 3]);
    case.pairs = vec![pair(4, 4)];
    assert_eq!(replayed(&case, &[], 0), refused(3, 0));
    let mut case = hub(&[0, 3]);
    case.pattern.transitions.push(arcs(9, &[], &[0]));
    assert_eq!(replayed(&case, &[], 0), refused(5, 0));
    let mut case = hub(&[0, 3]);
    case.pattern.transitions.push(arcs(2, &[0], &[0]));
    assert_eq!(replayed(&case, &[], 0), refused(6, 0));
    let mut case = hub(&[0, 3]);
    case.pattern.transitions.push(arcs(9, &[2], &[0]));
    assert_eq!(replayed(&case, &[], 0), refused(7, 0));
    case.pattern.cap = 15;
    case.pattern.first_tokens = vec![10, 0, 0];
    assert_eq!(replayed(&case, &[], 0), refused(4, 0));
    // 10 is not asked: a log that nothing explains replays.
    assert!(replayed(&hub_case(7), &[0, 2], 9).is_ok());
    // Nor is 8.
    let mut large = hub(&[0, 3]);
    large.system.cap = 15;
    large.system.first_tokens.extend([15, 0, 0, 0]);
    for place in 3..6 {
        large
            .system
            .transitions
            .push(arcs(1, &[place], &[place + 1]));
    }
    assert_eq!(checks(&large), refused(8, 0));
    assert_eq!(
        replayed(&large, &[5, 6, 0, 7], 9).map(|done| done.fired),
        Ok(4)
    );
}

#[test]
fn long_runs() {
    let case = counter_case(8, &[1; 40]);
    let run = verdict(&case).expect("a verdict").other.expect("a run");
    assert_eq!(run.len(), 40 * 256);
    let whole = replayed(&case, &run, 65_535).expect("a replay");
    assert_eq!(
        (whole.fired, whole.stop, whole.explains),
        (run.len(), Stop::RunEnded, true)
    );
    let part = replayed(&case, &run, 10_239).expect("a replay");
    assert_eq!(
        (part.fired, part.stop, part.explains),
        (10_239, Stop::BudgetSpent, false)
    );
    // A run may be longer than any budget.
    let looped = replayed(&hub(&[3]), &[3; 70_000], 65_535).expect("a replay");
    assert_eq!((looped.fired, looped.stop), (65_535, Stop::BudgetSpent));
}
