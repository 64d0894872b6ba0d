//! Each slip is turned on, and some answer changes on a case of its own.

mod common;
use common::*;

use second::case::{self, Case, Net};
use second::corpus::halves;
use second::known::{arcs, bounds, chain_final, chain_pattern, hub_case, pair};
use second::replay::{self, Stop};
use second::{checks, packed, Slips};

fn right() -> Slips {
    Slips::default()
}

#[test]
fn stopping_at_the_last_log_line() {
    let h9 = hub_case(9);
    let slip = Slips {
        stop_at_last_log_line: true,
        ..right()
    };
    assert_eq!(slipped_verdict(&h9, &right()), ambiguous(&[0, 2], &[0]));
    assert_eq!(slipped_verdict(&h9, &slip), safe(&[0]));
}

#[test]
fn calling_an_unexplained_log_safe() {
    let h7 = hub_case(7);
    let slip = Slips {
        unexplained_is_safe: true,
        ..right()
    };
    assert_eq!(slipped_verdict(&h7, &right()), refused(10, 0));
    let called = slipped_verdict(&h7, &slip).expect("a verdict");
    assert_eq!(
        (called.kind, called.other),
        (second::judge::Kind::Safe, None)
    );
}

/// One place with these tokens and a pattern that waits for label 9.
fn one_place(tokens: u8, transitions: Vec<second::case::Transition>, log: &[u8]) -> Case {
    Case {
        system: Net {
            cap: 2,
            first_tokens: vec![tokens, 0],
            transitions,
        },
        pairs: vec![],
        observable: vec![0, 1, 2],
        pattern: chain_pattern(&[9]),
        finals: vec![chain_final(1)],
        log: log.to_vec(),
    }
}

#[test]
fn asking_whether_the_higher_one_is_firable() {
    // 0 over 1 and 1 over 2, all enabled: 1 is not firable, but it blocks 2.
    let keeps = |label: u8| arcs(label, &[0], &[0]);
    let mut case = one_place(1, vec![keeps(0), keeps(1), keeps(2)], &[2]);
    case.pairs = vec![pair(0, 1), pair(1, 2)];
    let slip = Slips {
        higher_must_be_firable: true,
        ..right()
    };
    assert_eq!(slipped_verdict(&case, &right()), refused(10, 0));
    assert_eq!(slipped_verdict(&case, &slip), safe(&[2]));
    // No pair is added either: 0 over 1 and 1 over 2 with 1 not enabled leave 2
    // firable, although 0 is enabled.
    case.system.transitions[1].inputs = vec![1];
    assert_eq!(slipped_verdict(&case, &right()), safe(&[2]));
}

#[test]
fn treating_a_marking_as_a_set() {
    let case = one_place(2, vec![arcs(0, &[0], &[])], &[0, 0]);
    let slip = Slips {
        marking_is_a_set: true,
        ..right()
    };
    assert_eq!(slipped_verdict(&case, &right()), safe(&[0, 0]));
    assert_eq!(slipped_verdict(&case, &slip), refused(10, 0));
    // Two tokens put one by one count as two.
    let case = one_place(0, vec![arcs(0, &[], &[0])], &[]);
    assert_eq!(slipped_verdict(&case, &right()), refused(9, 0));
    assert_eq!(slipped_verdict(&case, &slip), safe(&[]));
}

#[test]
fn letting_the_pattern_skip_an_event() {
    let h6 = hub_case(6);
    let slip = Slips {
        pattern_may_skip: true,
        ..right()
    };
    assert_eq!(slipped_verdict(&h6, &right()), faulty(&[0, 2, 4]));
    assert_eq!(
        slipped_verdict(&h6, &slip),
        ambiguous(&[0, 2, 4], &[0, 2, 4])
    );
    // A pattern that has to follow a label into a dead end can't wait for the
    // next one: label 0 leads off the way, and then 1 is not followed.
    let keeps = |label: u8| arcs(label, &[0], &[0]);
    let mut case = one_place(1, vec![keeps(0), keeps(1)], &[0, 1]);
    case.pattern = Net {
        cap: 1,
        first_tokens: vec![1, 0, 0],
        transitions: vec![arcs(0, &[0], &[1]), arcs(1, &[0], &[2])],
    };
    case.finals = vec![bounds(&[(0, 1), (0, 1), (1, 1)])];
    assert_eq!(slipped_verdict(&case, &right()), safe(&[0, 1]));
    assert_eq!(slipped_verdict(&case, &slip), ambiguous(&[0, 1], &[0, 1]));
}

#[test]
fn swapping_the_halves_of_a_byte() {
    let slip = Slips {
        halves_swapped: true,
        ..right()
    };
    let first_bytes = |case: &Case, slips: &Slips| -> Vec<u8> {
        let checked = checks::up_to_nine(&case::bytes(case), slips);
        let table = packed::table(&checked.expect("an accepted case").1, slips);
        table.chunks(12).map(|row| row[0]).collect()
    };
    let taken = one_place(2, vec![arcs(0, &[0], &[])], &[]);
    assert_eq!(first_bytes(&taken, &right()), [0x00, 0x10, 0x20]);
    assert_eq!(first_bytes(&taken, &slip), [0x00, 0x01, 0x02]);
    // The order is another one: two in the second place come before one in the first.
    let (in_first, in_second) = (one_marking(&[1, 0]), one_marking(&[0, 2]));
    let packed = |wide: &[u8; 24], slips: &Slips| packed::halved(wide, slips);
    assert!(in_second < in_first);
    assert!(packed(&in_second, &right()) < packed(&in_first, &right()));
    assert!(packed(&in_second, &slip) > packed(&in_first, &slip));
}

/// A byte for each of 24 places: these counts, and no tokens in all others.
fn one_marking(counts: &[u8]) -> [u8; 24] {
    let mut wide = [0; 24];
    wide[..counts.len()].copy_from_slice(counts);
    wide
}

#[test]
fn asking_the_cap_after_a_wrap() {
    let slip = Slips {
        cap_after_wrap: true,
        ..right()
    };
    for side in halves::sides() {
        // Up to 15 nothing shows; the one more is not refused any longer.
        assert_eq!(
            slipped_verdict(&side.within, &slip),
            slipped_verdict(&side.within, &right())
        );
        let refused = Err(side.refusal);
        assert_eq!(slipped_verdict(&side.past, &right()), refused);
        assert_ne!(slipped_verdict(&side.past, &slip), refused);
    }
    // The 16th token leaves none, and one in the place before.
    let mut case = one_place(0, vec![arcs(0, &[], &[1])], &[]);
    case.system.cap = 15;
    let fired = |slips: &Slips| {
        let done = replay::replay(&case::bytes(&case), &[0; 16], 16, slips).expect("replayed");
        (done.fired, done.marking.system, done.stop)
    };
    assert_eq!(fired(&right()), (15, vec![0, 15], Stop::CapPassed));
    assert_eq!(fired(&slip), (16, vec![1, 0], Stop::RunEnded));
}
