//! The cases that 01 has run by a program only, both sides of each limit, and
//! the order in which the refusals are asked.

mod common;
use common::*;

use second::case::{self, Bounds, Case, Net};
use second::corpus::{faults, sides};
use second::judge::{Kind, Listing, LEAST_WORK_ROOM};
use second::known::{
    add_gate, all_limits, arcs, bounds, chain_final, chain_pattern, changed_hub, counter_case, hub,
    hub_case, longest, moving_over, pair, priority_counter_case,
};
use second::Slips;

#[test]
fn pairs_that_close_a_cycle() {
    let mut case = hub(&[0, 3]);
    case.pairs = vec![pair(1, 2), pair(2, 1)];
    assert_eq!(verdict(&case), refused(3, 0));
    case.pairs = vec![pair(1, 2)];
    assert_eq!(verdict(&case), safe(&[0, 1, 3]));
    case.pairs = vec![pair(3, 3)];
    assert_eq!(verdict(&case), refused(3, 0));
    case.pairs = vec![pair(0, 1), pair(1, 2), pair(2, 3), pair(3, 1)];
    assert_eq!(verdict(&case), refused(3, 0));
    case.pairs = vec![pair(0, 1), pair(0, 2), pair(0, 3), pair(1, 3), pair(2, 3)];
    assert_eq!(checks(&case), checks(&hub(&[0, 3])));
}

#[test]
fn two_pattern_transitions_of_one_label() {
    let mut case = hub(&[0, 3]);
    case.pattern.transitions.push(arcs(2, &[0], &[2]));
    assert_eq!(verdict(&case), refused(6, 0));
    // Two that do the same are still two.
    case.pattern.transitions[2] = arcs(2, &[0], &[1]);
    assert_eq!(verdict(&case), refused(6, 0));
    // Never enabled together: no refusal.
    case.pattern.transitions[2] = arcs(2, &[1], &[2]);
    assert!(verdict(&case).is_ok());
    // In markings that the pattern reaches alone it counts, even where no run of
    // the system leads there.
    case.pattern.transitions[2] = arcs(9, &[0], &[1]);
    case.pattern.transitions.push(arcs(9, &[0], &[2]));
    assert_eq!(verdict(&case), refused(6, 0));
}

#[test]
fn a_final_marking_that_is_left() {
    let mut case = hub(&[0, 3]);
    case.pattern.transitions.push(arcs(0, &[2], &[0]));
    assert_eq!(verdict(&case), refused(7, 0));
    case.pattern.transitions[2] = arcs(0, &[2], &[2]);
    assert_eq!(verdict(&case), ambiguous(&[0, 2, 4], &[0, 1, 3]));
}

#[test]
fn a_system_that_passes_its_cap() {
    let mut case = hub(&[0, 3]);
    case.system.transitions[3].outputs = vec![0, 1];
    assert_eq!(verdict(&case), refused(9, 0));
    // Held back by a priority it is enabled but never firable.
    let mut held = hub(&[0, 3]);
    held.system.transitions.push(arcs(1, &[0], &[0, 1]));
    held.system.transitions.push(arcs(1, &[0], &[0]));
    held.pairs = vec![pair(6, 5)];
    assert_eq!(verdict(&held), ambiguous(&[0, 2, 4], &[0, 1, 3]));
}

#[test]
fn files_that_break_the_layout() {
    let file = case::bytes(&hub(&[0, 3]));
    assert_eq!(verdict_of_file(&[]), refused(2, 0));
    assert_eq!(verdict_of_file(&file[..82]), refused(2, 81));
    assert_eq!(verdict_of_file(&file[..81]), refused(2, 81));
    assert_eq!(
        verdict_of_file(&[file.as_slice(), &[0]].concat()),
        refused(2, 83)
    );
    assert_eq!(verdict(&hub(&[1])), refused(2, 76));
    assert_eq!(verdict(&hub(&[0, 1])), refused(2, 76));
}

#[test]
fn rooms_for_the_shown_runs() {
    let h4 = case::bytes(&hub(&[0, 3]));
    let found = ambiguous(&[0, 2, 4], &[0, 1, 3]);
    assert_eq!(with_rooms(&h4, LEAST_WORK_ROOM, 2, 3), refused(11, 3));
    assert_eq!(with_rooms(&h4, LEAST_WORK_ROOM, 3, 2), refused(11, 3));
    assert_eq!(with_rooms(&h4, LEAST_WORK_ROOM, 3, 3), found);
    // The matching run's room comes first.
    let h9 = case::bytes(&hub_case(9));
    assert_eq!(with_rooms(&h9, LEAST_WORK_ROOM, 1, 0), refused(11, 2));
    assert_eq!(with_rooms(&h9, LEAST_WORK_ROOM, 2, 0), refused(11, 1));
    assert_eq!(
        with_rooms(&h9, LEAST_WORK_ROOM, 2, 1),
        ambiguous(&[0, 2], &[0])
    );
    // A run that is not shown needs no room.
    let h2 = case::bytes(&hub(&[3]));
    assert_eq!(with_rooms(&h2, LEAST_WORK_ROOM, 0, 1), safe(&[3]));
    let h1 = case::bytes(&hub(&[]));
    assert_eq!(with_rooms(&h1, LEAST_WORK_ROOM, 0, 0), safe(&[]));
}

#[test]
fn work_rooms() {
    let file = case::bytes(&hub(&[0, 3]));
    assert_eq!(with_rooms(&file, 51_199, 3, 3), refused(1, 0));
    assert_eq!(
        with_rooms(&file, 51_200, 3, 3),
        ambiguous(&[0, 2, 4], &[0, 1, 3])
    );
    assert_eq!(with_rooms(&[], 51_199, 3, 3), refused(1, 0));
    let slips = Slips::default();
    assert_eq!(
        Listing::open(&file, 51_199, 25, &slips).err(),
        refused::<()>(1, 0).err()
    );
    assert_eq!(
        Listing::open(&file, 51_200, 25, &slips).err(),
        refused::<()>(12, 0).err()
    );
    assert!(Listing::open(&file, 51_200, 24, &slips).is_ok());
}

#[test]
fn listing_limits() {
    let h4 = hub(&[0, 3]);
    // Away and back in silence is not to be had, so the limit adds nothing.
    assert_eq!(list(&h4, 24).map(|all| all.len()), Ok(2));
    assert_eq!(list(&h4, 25), refused(12, 0));
    assert_eq!(list(&h4, u64::MAX), refused(12, 0));
    assert_eq!(list(&h4, 0), Ok(vec![]));
    assert_eq!(list(&hub(&[]), 0), Ok(vec![(false, vec![])]));
    // 24 labels fit in 24 firings; 25 do not.
    assert_eq!(list(&hub(&[3; 24]), 24), Ok(vec![(false, vec![3; 24])]));
    assert_eq!(list(&hub(&[3; 25]), 24), Ok(vec![]));
}

#[test]
fn logs_of_40_and_41_labels() {
    assert_eq!(verdict(&hub(&[3; 40])), safe(&[3; 40]));
    assert_eq!(verdict(&hub(&[3; 41])), refused(2, 76));
}

fn never_final(net: &Net) -> Vec<Vec<Bounds>> {
    // More tokens in the first place than it ever holds.
    let mut all = vec![Bounds { least: 0, most: 15 }; net.first_tokens.len()];
    all[0].least = 15;
    vec![all]
}

#[test]
fn pattern_markings_64_and_65() {
    let mut case = hub(&[0, 3]);
    for (tokens, count) in [
        (vec![7, 7], 64),
        (vec![3, 3, 3], 64),
        (vec![1, 1, 3, 3], 64),
        (vec![4, 12], 65),
    ] {
        case.pattern = moving_over(&tokens, 15, 0);
        case.finals = never_final(&case.pattern);
        let expected = if count <= 64 { None } else { Some(4) };
        assert_eq!(
            checks(&case).err().map(|refusal| refusal.number),
            expected,
            "{tokens:?}"
        );
    }
    // A firing past the cap is not followed: 64 markings stay 64, and it is 5.
    case.pattern = moving_over(&[7, 7], 15, 0);
    case.pattern.first_tokens.push(15);
    case.pattern.transitions.push(arcs(9, &[], &[4]));
    case.finals = never_final(&case.pattern);
    assert_eq!(checks(&case), refused(5, 0));
    // One token less in the full place: 128 markings, and 4 comes first.
    case.pattern.first_tokens[4] = 14;
    assert_eq!(checks(&case), refused(4, 0));
    case.pattern = Net {
        cap: 15,
        first_tokens: vec![0],
        transitions: vec![arcs(9, &[], &[0])],
    };
    case.finals = vec![bounds(&[(0, 15)])];
    assert_eq!(checks(&case), refused(5, 0));
    // Both input and output, the place keeps its count and passes no cap.
    case.pattern.first_tokens = vec![15];
    case.pattern.transitions = vec![arcs(9, &[0], &[0])];
    assert!(checks(&case).is_ok());
}

#[test]
fn product_markings_512_and_513() {
    let mut case = hub(&[]);
    case.system = moving_over(&[7, 7, 7], 15, 0);
    case.observable = vec![];
    assert_eq!(checks(&case).err(), None);
    case.pattern = chain_pattern(&[20]);
    case.finals = vec![chain_final(1)];
    assert_eq!(checks(&case), Ok(512));
    add_gate(&mut case.system, 9);
    assert_eq!(checks(&case), refused(8, 0));
    // The pattern counts too: 256 markings, each with two of the pattern.
    case.system = moving_over(&[15, 15], 15, 0);
    case.system.transitions.push(arcs(20, &[], &[]));
    assert_eq!(checks(&case), Ok(512));
    case.pattern = chain_pattern(&[20, 20]);
    case.finals = vec![chain_final(2)];
    assert_eq!(checks(&case), refused(8, 0));
}

#[test]
fn refusals_speak_in_order() {
    let mut case = hub(&[0, 0]);
    // 10: nothing explains the log, and no room would do for 11.
    case.pairs = vec![pair(2, 1)];
    assert_eq!(
        with_rooms(&case::bytes(&case), LEAST_WORK_ROOM, 0, 0),
        refused(10, 0)
    );
    // 9 before 10.
    case.system.transitions.push(arcs(5, &[], &[0]));
    assert_eq!(verdict(&case), refused(9, 0));
    // 8 before 9.
    let places = case.system.first_tokens.len() as u8;
    case.system.cap = 15;
    for extra in 0..3 {
        case.system.first_tokens.extend([7, 0]);
        case.system
            .transitions
            .push(arcs(6, &[places + 2 * extra], &[places + 2 * extra + 1]));
    }
    assert_eq!(verdict(&case), refused(8, 0));
    // 7 before 8, 6 before 7, 5 before 6, 4 before 5.
    case.pattern.transitions.push(arcs(0, &[2], &[0]));
    assert_eq!(verdict(&case), refused(7, 0));
    case.pattern.transitions.push(arcs(0, &[2], &[0]));
    assert_eq!(verdict(&case), refused(6, 0));
    case.pattern.transitions.push(arcs(9, &[2], &[1, 2]));
    assert_eq!(verdict(&case), refused(5, 0));
    case.pattern.first_tokens.extend([7, 0, 0]);
    case.pattern.cap = 7;
    case.finals[0].extend(bounds(&[(0, 7), (0, 7), (0, 7)]));
    case.pattern.transitions.push(arcs(10, &[3], &[4]));
    case.pattern.transitions.push(arcs(11, &[4], &[5]));
    assert_eq!(verdict(&case), refused(4, 0));
    // 3 before 4, and 2 before 3.
    case.pairs = vec![pair(1, 2), pair(2, 1)];
    assert_eq!(verdict(&case), refused(3, 0));
    case.finals.clear();
    let place = offset_of(&case, b"LG", 0);
    assert_eq!(verdict(&case), refused(2, place));
}

#[test]
fn the_first_of_several_faults_speaks() {
    for set in faults::fault_sets(&[2, 3, 4, 5, 6, 7, 8, 9, 10]) {
        let first = set.iter().map(|fault| fault.number).min();
        let said = verdict(&faults::with_faults(&set)).err();
        assert_eq!(said.map(|refusal| refusal.number), first, "{set:?}");
    }
}

#[test]
fn both_sides_of_the_layout() {
    for (number, sides) in sides::of_layout().into_iter().enumerate() {
        let [within, past] =
            [&sides.within, &sides.past].map(|case| case::read(&case::bytes(case)));
        assert_eq!(within.as_ref(), Ok(&sides.within), "limit {number}");
        assert_eq!(past, Err(sides.refusal), "limit {number}");
    }
}

#[test]
fn both_sides_of_the_checks() {
    for (number, sides) in sides::of_checks().into_iter().enumerate() {
        assert_eq!(checks(&sides.within).err(), None, "limit {number}");
        assert_eq!(checks(&sides.past), Err(sides.refusal), "limit {number}");
    }
}

#[test]
fn all_limits_at_once() {
    let case = all_limits(&[], false);
    let sizes = [
        case.system.first_tokens.len(),
        case.system.transitions.len(),
        case.pairs.len(),
        case.observable.len(),
        case.pattern.first_tokens.len(),
        case.pattern.transitions.len(),
        case.finals.len(),
        case.log.len(),
    ];
    assert_eq!(sizes, [16, 48, 32, 32, 8, 16, 8, 40]);
    assert_eq!(checks(&case), Ok(512));
    assert_eq!(checks(&all_limits(&[], true)), refused(8, 0));
    let kind = |silent: &[u8]| verdict(&all_limits(silent, false)).map(|found| found.kind);
    assert_eq!(kind(&[]), Ok(Kind::Safe));
    assert_eq!(kind(&[1]), Ok(Kind::Ambiguous));
    assert_eq!(kind(&[1, 20, 21]), Ok(Kind::Faulty));
}

#[test]
fn the_longest_file() {
    let case = longest();
    let file = case::bytes(&case);
    assert_eq!(file.len(), 2_496);
    assert_eq!(case::read(&file), Ok(case.clone()));
    assert_eq!(case::write(&case, 2_496), Ok(file.clone()));
    assert_eq!(case::write(&case, 2_495), refused(11, 2_496));
    assert_eq!(case::read(&file[..2_495]), refused(2, 2_494));
    assert_eq!(case::read(&file[..2_494]), refused(2, 2_494));
    let more = [file.as_slice(), b"E"].concat();
    assert_eq!(case::read(&more), refused(2, 2_496));
    assert_eq!(verdict(&case), faulty(&case.log));
}

#[test]
fn cases_that_no_file_reads_as() {
    let good = hub(&[0, 3]);
    assert_eq!(case::write(&good, 83).map(|file| file.len()), Ok(83));
    assert_eq!(case::write(&good, 82), refused(11, 83));
    for bad in [
        changed_hub(|case| case.log = vec![1]),
        changed_hub(|case| case.log = vec![3; 41]),
        changed_hub(|case| case.log = vec![3; 258]),
        changed_hub(|case| case.finals.clear()),
        changed_hub(|case| case.observable = vec![3, 0]),
        changed_hub(|case| case.system.transitions[0].inputs = vec![7]),
        changed_hub(|case| case.finals[0].push(Bounds { least: 0, most: 0 })),
        Case::default(),
    ] {
        assert_eq!(case::write(&bad, 0), refused(14, 0));
    }
}

#[test]
fn first_runs_of_more_than_a_thousand_firings() {
    // Eight bits: each clearing comes after 255 carries.
    let round: Vec<u8> = (0..255u32)
        .map(|count| count.trailing_ones() as u8)
        .chain([8])
        .collect();
    let runs = |rounds: usize| round.repeat(rounds);
    assert_eq!(checks(&counter_case(8, &[])), Ok(512));
    assert_eq!(verdict(&counter_case(8, &[1; 5])), safe(&runs(5)));
    assert_eq!(runs(5).len(), 1_280);
    // Label 2 is what the pattern waits for.
    let mut seen = vec![1; 8];
    seen.push(2);
    let longer = [runs(8), vec![9]].concat();
    assert_eq!(verdict(&counter_case(8, &seen)), faulty(&longer));
    let file = case::bytes(&counter_case(8, &seen));
    assert_eq!(
        with_rooms(&file, LEAST_WORK_ROOM, 2_048, 2_048),
        refused(11, 2_049)
    );
    let file = case::bytes(&counter_case(8, &seen[..8]));
    assert_eq!(
        with_rooms(&file, LEAST_WORK_ROOM, 2_048, 2_048),
        safe(&runs(8))
    );

    // All 512 markings 40 times over.
    let case = priority_counter_case(9, &[1; 40]);
    assert_eq!(checks(&case), Ok(512));
    let found = verdict(&case).expect("a verdict");
    let run = found.other.expect("a run");
    let round: Vec<u8> = (0..511u32)
        .map(|count| count.trailing_ones() as u8)
        .chain([9])
        .collect();
    assert_eq!(run, round.repeat(40));
    assert_eq!(run.len(), 20_480);
}
