//! Files for the verdict, with the rooms that are lent.

use super::faults::{fault, fault_sets, with_faults, Fault};
use super::sides::{self, BothSides};
use super::{halves, meanings, number, with_length, Entry, WORK_ROOMS};
use crate::case::{self, Case};
use crate::judge::{self, Rooms, LEAST_WORK_ROOM, RUN_ROOM};
use crate::known::{
    all_limits, chain_final, chain_pattern, changed_hub, counter_case, hub, hub_case, longest,
    moves, pairs, priority_counter_case, sequences,
};
use crate::{bench, make, Slips};

const SEED: u64 = 0x7665_7264;
const RANDOM: u64 = 2_000;

pub struct Judged {
    rooms: Rooms,
    file: Vec<u8>,
}

impl Judged {
    /// With the rooms of the program `verdict`.
    fn file(file: Vec<u8>) -> Judged {
        let rooms = Rooms {
            work: LEAST_WORK_ROOM,
            matching: RUN_ROOM,
            other: RUN_ROOM,
        };
        Judged { rooms, file }
    }

    fn case(case: &Case) -> Judged {
        Judged::file(case::bytes(case))
    }
}

impl Entry for Judged {
    fn bytes(&self) -> Vec<u8> {
        let mut bytes = number::<2>(self.rooms.matching).to_vec();
        bytes.extend(number::<2>(self.rooms.other));
        bytes.extend(number::<3>(self.rooms.work));
        bytes.extend(with_length(&self.file));
        bytes
    }

    fn answer(&self) -> String {
        match judge::verdict(&self.file, self.rooms, &Slips::default()) {
            Err(refusal) => refusal.to_string(),
            Ok(verdict) => {
                let runs = verdict.shown().map(|one| format!(" {one}"));
                format!("{}{}", verdict.kind, runs.collect::<String>())
            }
        }
    }
}

pub fn entries() -> Vec<Judged> {
    let mut all: Vec<Judged> = (1..=9)
        .map(|number| Judged::case(&hub_case(number)))
        .collect();
    all.extend(run_by_a_program_only());
    all.extend(work_rooms());
    all.extend(witness_rooms());
    let faulty = fault_sets(&[1, 2, 3, 4, 5, 6, 7, 8, 9, 10, 11]);
    all.extend(faulty.iter().map(|faults| with_all_faults(faults)));
    let limits = sides::of_checks().into_iter().flat_map(BothSides::cases);
    let cases = [meanings::cases(), limits.collect(), logs(), long_runs()].concat();
    all.extend(cases.iter().map(Judged::case));
    all.extend(halves::cases().iter().map(Judged::case));
    all.extend([bench::dense(40), bench::ring(40)].iter().map(Judged::case));
    all.extend((0..RANDOM).map(|index| Judged::file(make::file(SEED, index))));
    all
}

/// What 01 names beside its table, as far as the verdict says it.
fn run_by_a_program_only() -> Vec<Judged> {
    let file = case::bytes(&hub(&[0, 3]));
    let more = [file.as_slice(), &[0]].concat();
    let files = [vec![], file[..82].to_vec(), more];
    let cases = [
        changed_hub(|case| case.pairs = pairs(&[(1, 2), (2, 1)])),
        changed_hub(|case| case.pattern.transitions.push(moves(2, 0, 2))),
        changed_hub(|case| case.pattern.transitions.push(moves(0, 2, 0))),
        changed_hub(|case| case.system.transitions[3].outputs = vec![0, 1]),
        hub(&[1]),
        hub(&[3; 40]),
        hub(&[3; 41]),
    ];
    let cases = cases.iter().map(case::bytes);
    files.into_iter().chain(cases).map(Judged::file).collect()
}

fn work_rooms() -> Vec<Judged> {
    let mut all = Vec::new();
    for file in [
        case::bytes(&hub_case(4)),
        case::bytes(&hub_case(7)),
        case::bytes(&longest()),
        vec![],
    ] {
        for work in WORK_ROOMS {
            let mut one = Judged::file(file.clone());
            one.rooms.work = work;
            all.push(one);
        }
    }
    all
}

/// Both rooms on both sides of what each must hold, for verdicts of each kind.
fn witness_rooms() -> Vec<Judged> {
    let mut all = Vec::new();
    for case in [
        hub_case(1),
        hub_case(4),
        hub_case(6),
        hub_case(8),
        hub_case(9),
        counter_case(8, &[1; 5]),
        // Matching from the first label 2 on, and 257 firings long.
        counter_case(8, &[2, 1]),
        // Safe until the counter has been round in silence.
        silent_round(),
    ] {
        let one = Judged::case(&case);
        let shown = judge::verdict(&one.file, one.rooms, &Slips::default()).expect("a verdict");
        for matching in rooms_around(&shown.matching) {
            for other in rooms_around(&shown.other) {
                let rooms = Rooms {
                    matching,
                    other,
                    ..one.rooms
                };
                let file = one.file.clone();
                all.push(Judged { rooms, file });
            }
        }
    }
    all
}

/// None, one byte, one less than the run needs, what it needs, one more, and
/// far more.
fn rooms_around(run: &Option<judge::Run>) -> Vec<usize> {
    let needed = run.as_ref().map_or(0, Vec::len);
    let mut rooms = vec![0, 1, needed.saturating_sub(1), needed, needed + 1, RUN_ROOM];
    rooms.sort();
    rooms.dedup();
    rooms
}

/// A counter of eight bits that clears itself in silence, which the pattern
/// waits for: a run matches after 256 silent firings, and the log is empty.
fn silent_round() -> Case {
    Case {
        observable: vec![2],
        pattern: chain_pattern(&[1]),
        finals: vec![chain_final(1)],
        ..counter_case(8, &[])
    }
}

fn with_all_faults(faults: &[Fault]) -> Judged {
    let mut one = Judged::case(&with_faults(faults));
    if let Some(late) = fault(faults, 1) {
        one.rooms.work = if late { LEAST_WORK_ROOM - 1 } else { 0 };
    }
    // Both runs of H4 need three bytes.
    match fault(faults, 11) {
        Some(false) => one.rooms.matching = 2,
        Some(true) => one.rooms.other = 2,
        None => {}
    }
    one
}

/// Logs of 0, 1 and 40 labels, and all short ones of the hub.
fn logs() -> Vec<Case> {
    let mut all: Vec<Case> = [1, 39, 40].map(|count| hub(&vec![3; count])).into();
    // Detached and returned again and again; crossed in the end, or never.
    let mut back_and_forth = vec![0; 40];
    all.push(hub(&back_and_forth));
    back_and_forth[39] = 3;
    all.push(hub(&back_and_forth));
    all.extend(sequences(&[0, 3], 5).iter().map(|log| hub(log)));
    all
}

fn long_runs() -> Vec<Case> {
    let rounds = |count: usize, end: &[u8]| counter_case(8, &[&vec![1; count], end].concat());
    vec![
        // 1,280 firings, and matching 1,281.
        rounds(5, &[]),
        rounds(5, &[2]),
        // 2,048 firings, which the rooms just hold, and one more.
        rounds(8, &[]),
        rounds(7, &[2, 1]),
        rounds(8, &[2]),
        // 10,240 and 20,480, which no room here holds.
        rounds(40, &[]),
        priority_counter_case(9, &[1; 40]),
        priority_counter_case(9, &[1; 4]),
        silent_round(),
        longest(),
        all_limits(&[], false),
        all_limits(&[1], false),
        all_limits(&[1, 20, 21], false),
    ]
}
