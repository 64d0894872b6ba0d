//! What each command prints of a case file, as bytes.

use crate::case::{self, LONGEST_FILE};
use crate::checks;
use crate::judge::{self, Listing, Rooms, LEAST_WORK_ROOM, MOST_LIMIT, RUN_ROOM};
use crate::replay;
use crate::{Refusal, Slips};

fn refused(refusal: Refusal) -> Vec<u8> {
    format!("{refusal}\n").into_bytes()
}

/// The verdict's word and a line for each shown run.
pub fn verdict(file: &[u8]) -> Vec<u8> {
    let rooms = Rooms {
        work: LEAST_WORK_ROOM,
        matching: RUN_ROOM,
        other: RUN_ROOM,
    };
    match judge::verdict(file, rooms, &Slips::default()) {
        Err(refusal) => refused(refusal),
        Ok(verdict) => {
            let runs = verdict.shown().map(|one| format!("{one}\n"));
            format!("{}\n{}", verdict.kind, runs.collect::<String>()).into_bytes()
        }
    }
}

/// A line for each explanation within the limit, then the end.
pub fn list(file: &[u8], limit: u64) -> Vec<u8> {
    match Listing::open(file, LEAST_WORK_ROOM, limit, &Slips::default()) {
        Err(refusal) => refused(refusal),
        Ok(listing) => {
            let lines = listing.all().map(|one| format!("{one}\n"));
            format!("{}end\n", lines.collect::<String>()).into_bytes()
        }
    }
}

/// The first explanation later than a given run, or the first of all.
pub fn next(file: &[u8], limit: u64, after: Option<&[u8]>) -> Vec<u8> {
    let listing = Listing::open(file, LEAST_WORK_ROOM, limit, &Slips::default());
    match listing.and_then(|open| open.next(after, MOST_LIMIT as usize)) {
        Err(refusal) => refused(refusal),
        Ok(None) => b"end\n".to_vec(),
        Ok(Some(one)) => format!("{one}\n").into_bytes(),
    }
}

/// The five lines of a replay.
pub fn replay(file: &[u8], budget: u16, run: &[u8]) -> Vec<u8> {
    match replay::replay(file, run, budget, &Slips::default()) {
        Err(refusal) => refused(refusal),
        Ok(done) => {
            let [fired, system, pattern, is_final, stop, explains] = done.words();
            format!("{fired}\nmarking {system} | {pattern}\n{is_final}\n{stop}\n{explains}\n")
                .into_bytes()
        }
    }
}

/// The file, read and written again.
pub fn rewrite(file: &[u8]) -> Vec<u8> {
    match case::read(file).and_then(|case| case::write(&case, LONGEST_FILE)) {
        Err(refusal) => refused(refusal),
        Ok(file) => file,
    }
}

/// Whether the checks 2 to 9 let the file pass.
pub fn checks(file: &[u8]) -> Vec<u8> {
    match checks::up_to_nine(file, &Slips::default()) {
        Err(refusal) => refused(refusal),
        Ok((_, product)) => format!("accepted {}\n", product.markings.len()).into_bytes(),
    }
}
