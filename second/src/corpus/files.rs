//! Files for the reader and the writer: good ones, and ones that break the
//! layout in each way there is.

use super::sides::{self, BothSides};
use super::{with_length, Entry};
use crate::case::{self, Case, LONGEST_FILE};
use crate::known::{bounds, hub, longest, moves, pairs};
use crate::make;
use crate::random::Random;

const SEED: u64 = 0x6669_6c65;
const DAMAGED: u64 = 300;
/// Far more bytes than any file may have.
const MANY: usize = 100_000;

pub struct File(Vec<u8>);

impl Entry for File {
    fn bytes(&self) -> Vec<u8> {
        with_length(&self.0)
    }

    fn answer(&self) -> String {
        match case::read(&self.0).and_then(|case| case::write(&case, LONGEST_FILE)) {
            Err(refusal) => refusal.to_string(),
            Ok(written) => {
                assert_eq!(written, self.0, "nothing in a file can be said in two ways");
                format!("same {}", written.len())
            }
        }
    }
}

pub fn entries() -> Vec<File> {
    let mut files = Vec::new();
    for case in [hub(&[0, 3]), every_record()] {
        files.extend(beginnings(&case));
        files.extend(changed_bytes(&case));
        files.extend(moved_records(&case));
    }
    files.extend(marks_after_marks(&every_record()));
    files.extend(marks_in_other_case(&every_record()));
    let limits = sides::of_layout().into_iter().flat_map(BothSides::cases);
    files.extend(limits.map(|case| case::bytes(&case)));
    files.extend(much_too_long());
    files.extend((0..DAMAGED).map(|index| make::damaged_file(SEED, index)));
    files.into_iter().map(File).collect()
}

/// The hub with several of each record of which there may be several.
pub fn every_record() -> Case {
    let mut case = hub(&[0, 3, 3, 7]);
    case.system.transitions.push(moves(7, 2, 2));
    case.pairs = pairs(&[(0, 3), (2, 1), (2, 4)]);
    case.observable = vec![0, 3, 7];
    case.pattern.transitions.push(moves(7, 2, 2));
    case.finals.push(bounds(&[(0, 0), (0, 0), (1, 1)]));
    case.finals.push(bounds(&[(0, 1), (1, 1), (1, 1)]));
    case
}

/// The empty file, all beginnings and the whole file; one byte more.
fn beginnings(case: &Case) -> Vec<Vec<u8>> {
    let file = case::bytes(case);
    let mut all: Vec<Vec<u8>> = (0..=file.len()).map(|end| file[..end].to_vec()).collect();
    all.extend([0, b'E'].map(|byte| [file.as_slice(), &[byte]].concat()));
    all
}

fn changed_bytes(case: &Case) -> Vec<Vec<u8>> {
    let file = case::bytes(case);
    let mut all = Vec::new();
    for (at, byte) in file.iter().enumerate() {
        let mut others = vec![0, 1, byte.wrapping_add(1), 255];
        others.sort();
        others.dedup();
        for other in others.into_iter().filter(|other| other != byte) {
            let mut changed = file.clone();
            changed[at] = other;
            all.push(changed);
        }
    }
    all
}

/// Each record removed, doubled, and swapped with the one after it.
fn moved_records(case: &Case) -> Vec<Vec<u8>> {
    let records = case::records(case);
    let mut all = Vec::new();
    for number in 0..records.len() {
        let mut removed = records.clone();
        removed.remove(number);
        all.push(removed);
        let mut doubled = records.clone();
        doubled.insert(number, records[number].clone());
        all.push(doubled);
        if number + 1 < records.len() {
            let mut swapped = records.clone();
            swapped.swap(number, number + 1);
            all.push(swapped);
        }
    }
    all.into_iter().map(|records| records.concat()).collect()
}

/// Each mark after each mark: a record of each kind put in everywhere, and each
/// stretch of records left out.
fn marks_after_marks(case: &Case) -> Vec<Vec<u8>> {
    let records = case::records(case);
    let mut all = Vec::new();
    for at in 0..=records.len() {
        for one in first_of_each_kind(&records) {
            let mut more = records.clone();
            more.insert(at, records[one].clone());
            all.push(more.concat());
        }
        for end in at + 1..=records.len() {
            all.push([records[..at].concat(), records[end..].concat()].concat());
        }
    }
    all
}

fn first_of_each_kind(records: &[Vec<u8>]) -> Vec<usize> {
    (0..records.len())
        .filter(|number| *number == 0 || records[number - 1][..2] != records[*number][..2])
        .collect()
}

/// Small letters for one of a mark's letters or both, and the two exchanged.
fn marks_in_other_case(case: &Case) -> Vec<Vec<u8>> {
    let records = case::records(case);
    let mut all = Vec::new();
    for number in first_of_each_kind(&records) {
        let [one, other] = [0, 1].map(|letter| records[number][letter]);
        let [small, other_small] = [one, other].map(|letter| letter.to_ascii_lowercase());
        for mark in [
            [small, other],
            [one, other_small],
            [small, other_small],
            [other, one],
        ] {
            let mut changed = records.clone();
            changed[number][..2].copy_from_slice(&mark);
            all.push(changed.concat());
        }
    }
    all
}

fn much_too_long() -> Vec<Vec<u8>> {
    let hub_file = case::bytes(&hub(&[0, 3]));
    let mut all = beginnings(&longest()).split_off(LONGEST_FILE - 1);
    all.push(vec![0; MANY]);
    all.push(Random::new(SEED, 0).numbers(MANY, MANY, 256));
    all.push([hub_file, vec![0; MANY]].concat());
    all
}
