//! Single calls of the listing, alone and one after another.

use super::faults::{fault, fault_sets, with_faults, Fault};
use super::{halves, meanings, number, with_length, Entry, WORK_ROOMS};
use crate::case::{self, Case};
use crate::judge::{Listing, Run, LEAST_WORK_ROOM, MOST_LIMIT};
use crate::known::{all_limits, counter_case, hub, hub_case, longest, sequences};
use crate::{make, Slips};

const SEED: u64 = 0x6c69_7374;
const RANDOM: u64 = 300;
const RANDOM_LIMIT: usize = make::LISTED_LIMIT as usize;
/// No more calls than this for one random case.
const MOST_CALLS: usize = 40;
/// As long as a log of these cases may be, and one more than 15.
const HALVES_LIMIT: usize = 16;
/// Room for any run that the limit allows.
const RUN_ROOM: usize = MOST_LIMIT as usize;
/// The greatest limit that an entry can hold.
const FAR_OVER: usize = 0xFF_FF_FF;

pub struct Listed {
    limit: usize,
    after: Option<Run>,
    run_room: usize,
    work_room: usize,
    file: Vec<u8>,
}

impl Listed {
    fn start(file: Vec<u8>, limit: usize) -> Listed {
        Listed {
            limit,
            after: None,
            run_room: RUN_ROOM,
            work_room: LEAST_WORK_ROOM,
            file,
        }
    }

    fn after(file: Vec<u8>, limit: usize, run: &[u8]) -> Listed {
        Listed {
            after: Some(run.to_vec()),
            ..Listed::start(file, limit)
        }
    }
}

impl Entry for Listed {
    fn bytes(&self) -> Vec<u8> {
        let mut bytes = number::<3>(self.limit).to_vec();
        bytes.push(u8::from(self.after.is_some()));
        bytes.extend(number::<2>(self.run_room));
        bytes.extend(number::<3>(self.work_room));
        bytes.extend(with_length(self.after.as_deref().unwrap_or(&[])));
        bytes.extend(with_length(&self.file));
        bytes
    }

    fn answer(&self) -> String {
        let limit = self.limit as u64;
        let listing = Listing::open(&self.file, self.work_room, limit, &Slips::default());
        match listing.and_then(|open| open.next(self.after.as_deref(), self.run_room)) {
            Err(refusal) => refusal.to_string(),
            Ok(None) => "end".into(),
            Ok(Some(one)) => one.to_string(),
        }
    }
}

pub fn entries() -> Vec<Listed> {
    // H10, H11 and H12.
    let mut all = [(4, 3), (4, 2), (5, 5)]
        .into_iter()
        .flat_map(|(number, limit)| steps(case::bytes(&hub_case(number)), limit))
        .collect::<Vec<_>>();
    all.extend(limits());
    all.extend(given_runs());
    all.extend(rooms());
    let faulty = fault_sets(&[1, 12, 2, 3, 4, 5, 6, 7, 8, 9, 13, 11]);
    all.extend(faulty.iter().map(|faults| with_all_faults(faults)));
    for case in meanings::cases() {
        all.extend(steps(case::bytes(&case), 3));
    }
    all.extend(
        halves()
            .iter()
            .map(|case| Listed::start(case::bytes(case), HALVES_LIMIT)),
    );
    for index in 0..RANDOM {
        all.extend(steps(make::file(SEED, index), RANDOM_LIMIT));
    }
    all
}

/// Asked from the start, and then after each run given, to the end.
fn steps(file: Vec<u8>, limit: usize) -> Vec<Listed> {
    let mut all = vec![Listed::start(file.clone(), limit)];
    if let Ok(open) = Listing::open(&file, LEAST_WORK_ROOM, limit as u64, &Slips::default()) {
        let given = open.all().take(MOST_CALLS - 1);
        all.extend(given.map(|one| Listed::after(file.clone(), limit, &one.run)));
    }
    all
}

/// Those whose log the limit leaves room for.
fn halves() -> Vec<Case> {
    let mut cases = halves::cases();
    cases.retain(|case| case.log.len() <= HALVES_LIMIT);
    cases
}

fn limits() -> Vec<Listed> {
    let mut all = Vec::new();
    let cases = [
        hub(&[]),
        hub(&[0, 3]),
        hub(&[0, 3, 0]),
        // As long as the limits below, or longer by one.
        hub(&[3; 23]),
        hub(&[3; 24]),
        hub(&[3; 25]),
        hub(&[3; 40]),
        // Nothing explains it.
        hub_case(7),
    ];
    // 259 and 65,539 would be 3 if bytes of them were lost.
    let limits = [0, 1, 2, 3, 4, 23, 24, 25, 255, 256, 259, 65_539, FAR_OVER];
    for file in cases.iter().map(case::bytes) {
        all.extend(limits.map(|limit| Listed::start(file.clone(), limit)));
    }
    all.push(Listed::start(vec![], FAR_OVER));
    all.push(Listed::start(vec![], 24));
    // One way only, of 16 firings and more, up to the limit.
    all.extend(steps(case::bytes(&counter_case(4, &[1])), 24));
    all.extend(steps(case::bytes(&counter_case(4, &[1, 2])), 23));
    // All limits of a case; the log of 40 labels is longer than the listing's.
    for case in [longest(), all_limits(&[], false)] {
        for length in [0, 1, 24, 25, 40] {
            let mut shorter = case.clone();
            shorter.log.truncate(length);
            all.push(Listed::start(case::bytes(&shorter), 24));
        }
    }
    all
}

fn given_runs() -> Vec<Listed> {
    let mut all = Vec::new();
    // Every run of up to three numbers, one of which is no transition.
    let h4 = case::bytes(&hub_case(4));
    let runs = sequences(&[0, 1, 2, 3, 4, 5], 3);
    all.extend(runs.iter().map(|run| Listed::after(h4.clone(), 3, run)));
    for (limit, runs) in [
        // Longer than the limit, and at it.
        (
            3,
            vec![vec![0, 1, 3, 0], vec![0; 4], vec![4; 3], vec![0; 300]],
        ),
        (
            4,
            vec![vec![0, 1, 3, 0], vec![4; 4], vec![4; 5], vec![0, 1, 3]],
        ),
        (0, vec![vec![], vec![0], vec![5]]),
        (
            24,
            vec![vec![4; 24], vec![4; 25], vec![0; 24], vec![5; 24], vec![]],
        ),
        // Lengths that would be 3 and 0 if bytes of them were lost.
        (3, vec![vec![0; 259], vec![0; 256], vec![0; 65_539]]),
        // No transition, wherever it stands, beside what would come too late.
        (
            3,
            vec![
                vec![255],
                vec![48],
                vec![0, 1, 255],
                vec![4, 4, 5],
                vec![5; 4],
            ],
        ),
        (25, vec![vec![], vec![255], vec![0; 26]]),
    ] {
        all.extend(runs.iter().map(|run| Listed::after(h4.clone(), limit, run)));
    }
    let h5 = case::bytes(&hub_case(5));
    for run in [
        &[][..],
        &[4],
        &[0, 1, 2, 4],
        &[0, 1, 3, 0],
        &[0, 1, 3, 1],
        &[4; 4],
        &[0, 1, 3, 0, 0],
        &[0, 1, 3, 0, 1],
        &[0, 1, 3, 0, 2],
        &[4; 5],
    ] {
        for limit in [4, 5, 24] {
            all.push(Listed::after(h5.clone(), limit, run));
        }
    }
    // Runs of the empty log: after the empty run there is nothing, or a silent
    // loop without end.
    let quiet = hub(&[]);
    let looped = Case {
        observable: vec![0],
        ..hub(&[])
    };
    for run in [&[][..], &[0], &[3], &[3, 3], &[3, 4], &[3; 24], &[4; 24]] {
        all.push(Listed::after(case::bytes(&quiet), 24, run));
        all.push(Listed::after(case::bytes(&looped), 24, run));
    }
    all
}

fn rooms() -> Vec<Listed> {
    let mut all = Vec::new();
    let cases = [hub(&[]), hub_case(4), hub_case(7), hub(&[3; 24])];
    for case in &cases {
        let file = case::bytes(case);
        for run_room in [0, 1, 2, 3, 4, 23, 24, 2_048] {
            all.push(Listed {
                run_room,
                ..Listed::start(file.clone(), 24)
            });
        }
        for work_room in WORK_ROOMS {
            all.push(Listed {
                work_room,
                ..Listed::start(file.clone(), 24)
            });
        }
    }
    // The end needs no room, and what is given none of its own.
    let h4 = case::bytes(&hub_case(4));
    for (run, run_room) in [(&[0, 2, 4], 0), (&[0, 1, 3], 2), (&[0, 1, 3], 3)] {
        all.push(Listed {
            run_room,
            ..Listed::after(h4.clone(), 3, run)
        });
    }
    all
}

fn with_all_faults(faults: &[Fault]) -> Listed {
    let mut one = Listed::start(case::bytes(&with_faults(faults)), 3);
    if let Some(late) = fault(faults, 1) {
        one.work_room = if late { LEAST_WORK_ROOM - 1 } else { 0 };
    }
    if let Some(late) = fault(faults, 12) {
        one.limit = if late { FAR_OVER } else { 25 };
    }
    // Too long for each limit that is not far over, or no transition at the end.
    one.after = fault(faults, 13).map(|late| if late { vec![0, 48] } else { vec![0; 26] });
    // H4's first explanation needs three bytes.
    if let Some(late) = fault(faults, 11) {
        one.run_room = if late { 2 } else { 0 };
    }
    one
}
