//! Files for the checks 2 to 9, each with the table that an accepted one has.

use super::faults::{fault_sets, with_faults};
use super::sides::{self, BothSides};
use super::{halves, meanings, with_length, Entry};
use crate::case::{self, Case};
use crate::known::{all_limits, hub_case, longest};
use crate::{bench, checks, make, packed, Slips};

const SEED: u64 = 0x6368_6563;
const RANDOM: u64 = 1_000;

pub struct Checked(Vec<u8>);

impl Entry for Checked {
    fn bytes(&self) -> Vec<u8> {
        [with_length(&self.0), with_length(&table(&self.0))].concat()
    }

    fn answer(&self) -> String {
        match checks::up_to_nine(&self.0, &Slips::default()) {
            Err(refusal) => refusal.to_string(),
            Ok((_, product)) => format!("accepted {}", product.markings.len()),
        }
    }
}

/// The reachable product markings as they are stored, 12 bytes for each, in
/// ascending order of their bytes. Empty for a refusal.
fn table(file: &[u8]) -> Vec<u8> {
    let slips = Slips::default();
    let checked = checks::up_to_nine(file, &slips);
    checked.map_or(Vec::new(), |(_, product)| packed::table(&product, &slips))
}

pub fn entries() -> Vec<Checked> {
    let mut cases: Vec<_> = (1..=9).map(hub_case).collect();
    cases.extend(sides::of_checks().into_iter().flat_map(BothSides::cases));
    let faulty = fault_sets(&[2, 3, 4, 5, 6, 7, 8, 9]);
    cases.extend(faulty.iter().map(|faults| with_faults(faults)));
    cases.extend(meanings::cases());
    cases.extend([longest(), all_limits(&[1], false), all_limits(&[1], true)]);
    cases.extend(halves());
    cases.extend([bench::dense(1), bench::ring(1)]);
    let by_hand = cases.iter().map(case::bytes);
    let random = (0..RANDOM).map(|index| make::file(SEED, index));
    by_hand.chain(random).map(Checked).collect()
}

/// One case of each net: the checks do not ask for the log.
fn halves() -> Vec<Case> {
    let mut cases: Vec<Case> = Vec::new();
    for case in halves::cases() {
        let same_net = |one: &Case| (&one.system, &one.pattern) == (&case.system, &case.pattern);
        if !cases.iter().any(same_net) {
            cases.push(case);
        }
    }
    cases
}
