//! What the tests share: short ways of asking, and of saying what is expected.
#![allow(dead_code)]

use second::case::{self, Case};
use second::checks;
use second::judge::{self, Kind, Listing, Rooms, Run, Verdict, LEAST_WORK_ROOM};
use second::{Refusal, Slips};

pub const AMPLE: usize = 30_000;

pub fn refused<T>(number: u8, beside: usize) -> Result<T, Refusal> {
    Err(Refusal { number, beside })
}

pub fn with_rooms(
    file: &[u8],
    work: usize,
    matching: usize,
    other: usize,
) -> Result<Verdict, Refusal> {
    judge::verdict(
        file,
        Rooms {
            work,
            matching,
            other,
        },
        &Slips::default(),
    )
}

pub fn verdict_of_file(file: &[u8]) -> Result<Verdict, Refusal> {
    with_rooms(file, LEAST_WORK_ROOM, AMPLE, AMPLE)
}

pub fn verdict(case: &Case) -> Result<Verdict, Refusal> {
    verdict_of_file(&case::bytes(case))
}

pub fn slipped_verdict(case: &Case, slips: &Slips) -> Result<Verdict, Refusal> {
    let rooms = Rooms {
        work: LEAST_WORK_ROOM,
        matching: AMPLE,
        other: AMPLE,
    };
    judge::verdict(&case::bytes(case), rooms, slips)
}

/// The first of 2 to 9 that speaks, or the count of reachable product markings.
pub fn checks(case: &Case) -> Result<usize, Refusal> {
    checks::up_to_nine(&case::bytes(case), &Slips::default())
        .map(|(_, product)| product.markings.len())
}

pub fn faulty(run: &[u8]) -> Result<Verdict, Refusal> {
    Ok(Verdict {
        kind: Kind::Faulty,
        matching: Some(run.to_vec()),
        other: None,
    })
}

pub fn safe(run: &[u8]) -> Result<Verdict, Refusal> {
    Ok(Verdict {
        kind: Kind::Safe,
        matching: None,
        other: Some(run.to_vec()),
    })
}

pub fn ambiguous(matching: &[u8], other: &[u8]) -> Result<Verdict, Refusal> {
    Ok(Verdict {
        kind: Kind::Ambiguous,
        matching: Some(matching.to_vec()),
        other: Some(other.to_vec()),
    })
}

pub fn open_file(file: &[u8], limit: u64) -> Result<Listing, Refusal> {
    Listing::open(file, LEAST_WORK_ROOM, limit, &Slips::default())
}

/// All explanations as (matching, run).
pub fn list(case: &Case, limit: u64) -> Result<Vec<(bool, Run)>, Refusal> {
    let listing = open_file(&case::bytes(case), limit)?;
    let all = listing.all().map(|one| (one.matching, one.run)).collect();
    Ok(all)
}

/// Where each record of the case's file begins.
pub fn offsets(case: &Case) -> Vec<usize> {
    let mut at = 0;
    let begin = |record: Vec<u8>| {
        at += record.len();
        at - record.len()
    };
    case::records(case).into_iter().map(begin).collect()
}

/// Where the nth record with this mark begins, counted from 0.
pub fn offset_of(case: &Case, mark: &[u8; 2], nth: usize) -> usize {
    let records = case::records(case);
    let marked = offsets(case)
        .into_iter()
        .zip(&records)
        .filter(|(_, record)| record.starts_with(mark));
    marked
        .map(|(at, _)| at)
        .nth(nth)
        .expect("the record is there")
}

/// Bytes without rhyme, for tests that only ask that nothing breaks.
pub struct Noise(pub u64);

impl Noise {
    pub fn under(&mut self, limit: u64) -> u64 {
        self.0 ^= self.0 << 13;
        self.0 ^= self.0 >> 7;
        self.0 ^= self.0 << 17;
        (self.0 >> 11) % limit
    }

    pub fn bytes(&mut self, count: u64) -> Vec<u8> {
        (0..count).map(|_| self.under(256) as u8).collect()
    }
}
