//! Made files: the same ones for the same seed, of every kind, and short to list.

mod common;
use common::*;

use std::collections::BTreeMap;

use second::case;
use second::judge::LEAST_WORK_ROOM;
use second::make::{self, LISTED_LIMIT, MOST_LISTED};

/// The name of what a verdict with the program's rooms says.
fn outcome(file: &[u8]) -> String {
    match with_rooms(file, LEAST_WORK_ROOM, 2_048, 2_048) {
        Ok(verdict) => verdict.kind.to_string(),
        Err(refusal) => format!("refused {}", refusal.number),
    }
}

#[test]
fn every_verdict_and_refusal_is_met() {
    for seed in [1, 2024] {
        let mut met: BTreeMap<String, usize> = BTreeMap::new();
        for index in 0..600 {
            *met.entry(outcome(&make::file(seed, index))).or_default() += 1;
        }
        for word in ["faulty", "safe", "ambiguous"] {
            assert!(
                met.get(word).copied().unwrap_or(0) >= 20,
                "seed {seed}: {met:?}"
            );
        }
        for number in 2..=10 {
            let count = met.get(&format!("refused {number}")).copied().unwrap_or(0);
            assert!(count >= 5, "seed {seed}, refusal {number}: {met:?}");
        }
    }
    // Runs longer than the program's room are among them too.
    assert!((0..600).any(|index| outcome(&make::file(1, index)) == "refused 11"));
}

#[test]
fn files_stand_at_the_limits() {
    let mut most = [0; 6];
    let mut product = Vec::new();
    for index in 0..3_000 {
        let file = make::file(9, index);
        let Ok(case) = case::read(&file) else {
            continue;
        };
        let sizes = [
            case.system.first_tokens.len(),
            case.system.transitions.len(),
            case.pairs.len(),
            case.pattern.transitions.len(),
            case.finals.len(),
            case.log.len(),
        ];
        for (most, size) in most.iter_mut().zip(sizes) {
            *most = size.max(*most);
        }
        product.extend(checks(&case).ok());
    }
    assert_eq!(most, [16, 48, 32, 16, 8, 40]);
    assert_eq!(product.iter().max(), Some(&512));
}

#[test]
fn accepted_files_are_written_again_byte_for_byte() {
    let mut accepted = 0;
    for index in 0..1_200 {
        let file = make::file(3, index);
        if let Ok(case) = case::read(&file) {
            assert_eq!(case::write(&case, file.len()), Ok(file));
            accepted += 1;
        }
    }
    assert!(accepted >= 600);
}

#[test]
fn a_file_depends_on_seed_and_number_alone() {
    let some = |seed: u64| {
        (0..100)
            .map(|index| make::file(seed, index))
            .collect::<Vec<_>>()
    };
    assert_eq!(some(4), some(4));
    assert_ne!(some(4), some(5));
    let _ = make::file(u64::MAX, u64::MAX);
}

#[test]
fn listings_of_made_files_stay_short() {
    for index in 0..600 {
        if let Ok(listing) = open_file(&make::file(1, index), LISTED_LIMIT) {
            assert!(listing.count() <= MOST_LISTED);
        }
    }
}

#[test]
fn shown_runs_keep_within_the_bound() {
    for index in 0..600 {
        let file = make::file(12, index);
        let Ok(found) = verdict_of_file(&file) else {
            continue;
        };
        let case = case::read(&file).expect("an accepted case");
        let bound = checks(&case).expect("an accepted case") * (case.log.len() + 1) - 1;
        for run in found.matching.iter().chain(&found.other) {
            assert!(run.len() <= bound && bound <= 20_991);
        }
    }
}
