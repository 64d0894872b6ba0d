//! Runs to be replayed, each with a budget.

use super::faults::{fault_sets, with_faults};
use super::sides::{self, BothSides};
use super::{halves, meanings, number, with_length, Entry};
use crate::case::{self, Case, Net};
use crate::judge::{self, Rooms, Run, LEAST_WORK_ROOM, RUN_ROOM};
use crate::known::{
    all_limits, arcs, changed_hub, counter_case, hub, hub_case, longest, moves, pairs,
    priority_counter_case, sequences,
};
use crate::make;
use crate::random::Random;
use crate::replay::{self, Stop};
use crate::Slips;

const SEED: u64 = 0x7265_706c;
const RANDOM: u64 = 600;
const MOST_BUDGET: u16 = u16::MAX;
/// Longer than any budget.
const MANY: usize = 70_000;

pub struct Replayed {
    budget: u16,
    run: Run,
    file: Vec<u8>,
}

impl Replayed {
    fn new(case: &Case, run: &[u8], budget: u16) -> Replayed {
        Replayed {
            budget,
            run: run.to_vec(),
            file: case::bytes(case),
        }
    }
}

impl Entry for Replayed {
    fn bytes(&self) -> Vec<u8> {
        let mut bytes = number::<2>(usize::from(self.budget)).to_vec();
        bytes.extend(with_length(&self.run));
        bytes.extend(with_length(&self.file));
        bytes
    }

    fn answer(&self) -> String {
        match replay::replay(&self.file, &self.run, self.budget, &Slips::default()) {
            Err(refusal) => refusal.to_string(),
            Ok(done) => done.words().join(" | "),
        }
    }
}

pub fn entries() -> Vec<Replayed> {
    let mut all = short_runs();
    all.extend(stops());
    all.extend(shown_labels());
    all.extend(long_runs());
    all.extend(refusals());
    for case in meanings::cases() {
        let explains = explanation(&case, RUN_ROOM).unwrap_or_default();
        let runs = [&explains, &[0][..], &[0, 0], &[1, 0], &[2]];
        all.extend(runs.map(|run| Replayed::new(&case, run, MOST_BUDGET)));
    }
    for case in halves::cases() {
        let explains = explanation(&case, RUN_ROOM).unwrap_or_default();
        // One more than any place of it can give or take.
        let runs = [&explains, &[0; 16][..]];
        all.extend(runs.map(|run| Replayed::new(&case, run, MOST_BUDGET)));
    }
    all.extend((0..RANDOM).map(random));
    all
}

/// The first matching explanation, or else the first other one.
fn explanation(case: &Case, room: usize) -> Option<Run> {
    let rooms = Rooms {
        work: LEAST_WORK_ROOM,
        matching: room,
        other: room,
    };
    let verdict = judge::verdict(&case::bytes(case), rooms, &Slips::default()).ok()?;
    let first = verdict.shown().next();
    first.map(|one| one.run)
}

/// Every run of up to three numbers, one of which is no transition; and budgets
/// around the lengths of runs.
fn short_runs() -> Vec<Replayed> {
    let h4 = hub_case(4);
    let runs = sequences(&[0, 1, 2, 3, 4, 5], 3);
    let mut all: Vec<_> = runs.iter().map(|run| Replayed::new(&h4, run, 9)).collect();
    for run in [&[][..], &[0], &[5], &[0, 1, 3], &[0, 2, 4], &[0, 2, 4, 4]] {
        for budget in [0, 1, 2, 3, 4, 5, 255, 256, MOST_BUDGET] {
            all.push(Replayed::new(&h4, run, budget));
        }
    }
    for number in 1..=9 {
        let case = hub_case(number);
        let run = explanation(&case, RUN_ROOM).unwrap_or_default();
        all.push(Replayed::new(&case, &run, MOST_BUDGET));
    }
    all
}

/// Each reason to stop, and each before the one that is asked after it.
fn stops() -> Vec<Replayed> {
    let mut all = Vec::new();
    // No transition: beyond the last one, and numbers that none can have.
    for number in [4, 5, 47, 48, 254, 255] {
        for run in [&[number][..], &[0, 2, number], &[0, 2, 4, number]] {
            all.push(Replayed::new(&hub_case(4), run, 3));
            all.push(Replayed::new(&hub_case(4), run, 4));
        }
    }
    // Held back by a pair, and free to fire.
    for case in [hub_case(6), hub_case(8)] {
        for run in [&[0, 1][..], &[0, 2], &[0, 1, 3], &[0, 2, 4]] {
            all.push(Replayed::new(&case, run, 9));
        }
    }
    // Transition 3 puts a token into away as well, so that the next firing passes
    // the cap there; with 3 over 0 that next one is not even firable.
    for list in [&[][..], &[(3, 0)], &[(0, 3)]] {
        let passes = changed_hub(|case| {
            case.system.transitions[3].outputs = vec![0, 1];
            case.pairs = pairs(list);
        });
        for run in [
            &[3][..],
            &[3, 0],
            &[3, 3],
            &[3, 1],
            &[3, 2, 3, 1],
            &[0, 1, 3, 0],
        ] {
            for budget in [1, 2, 9] {
                all.push(Replayed::new(&passes, run, budget));
            }
        }
    }
    // A place that fills up to the greatest cap, and one beside it that is full.
    let fills = changed_hub(|case| {
        case.system = Net {
            cap: 15,
            first_tokens: vec![0, 15],
            transitions: vec![arcs(3, &[], &[0]), moves(3, 0, 1), moves(3, 1, 1)],
        };
    });
    for length in [14, 15, 16, 17] {
        for budget in [14, 15, 16, 17] {
            all.push(Replayed::new(&fills, &vec![0; length], budget));
        }
    }
    all.push(Replayed::new(&fills, &[2, 2, 0, 1], 9));
    all.push(Replayed::new(&fills, &[1], 9));
    all
}

/// What is shown against the log: too little, too much, and something else.
fn shown_labels() -> Vec<Replayed> {
    let mut all = Vec::new();
    for (log, runs) in [
        // One line short, just right, a label too many.
        (
            &[0, 3][..],
            vec![
                vec![0, 1],
                vec![0, 1, 3],
                vec![0, 1, 3, 3],
                vec![0, 2, 4, 4],
            ],
        ),
        // Silent firings before and after change nothing.
        (
            &[0],
            vec![vec![0], vec![0, 1], vec![0, 2], vec![0, 1, 0, 1]],
        ),
        // As many labels, but others, at the first place or the last.
        (&[0, 3], vec![vec![3, 0], vec![3, 3], vec![0, 1, 0]]),
        (&[3, 3, 3], vec![vec![0, 1, 3, 3], vec![3, 3, 0]]),
        // Other numbers of the same label show the same.
        (&[0, 3, 3], vec![vec![0, 2, 4, 4], vec![0, 1, 3, 3]]),
        (&[], vec![vec![], vec![3], vec![0], vec![0, 1]]),
        // Counts that would come round in one byte.
        (&[3], vec![vec![3; 1], vec![3; 257]]),
        (
            &[3; 40],
            vec![vec![3; 39], vec![3; 40], vec![3; 41], vec![3; 296]],
        ),
    ] {
        for run in runs {
            all.push(Replayed::new(&hub(log), &run, MOST_BUDGET));
        }
    }
    all
}

fn long_runs() -> Vec<Replayed> {
    // A silent loop lets a run go on for ever.
    let mut loops = hub(&[]);
    loops.system.transitions.push(moves(1, 0, 0));
    let longest_fired = usize::from(MOST_BUDGET);
    let mut all = Vec::new();
    for (length, budget) in [
        (MANY, 0),
        (MANY, 1),
        (MANY, MOST_BUDGET),
        (longest_fired, MOST_BUDGET),
        (longest_fired, MOST_BUDGET - 1),
        (longest_fired + 1, MOST_BUDGET),
    ] {
        all.push(Replayed::new(&loops, &vec![5; length], budget));
    }
    // What follows the loops still counts, and a late stop is met.
    let explains = [vec![5; longest_fired - 3], vec![0, 2, 4]].concat();
    let with_log = Case {
        log: vec![0, 3],
        ..loops.clone()
    };
    all.push(Replayed::new(&with_log, &explains, MOST_BUDGET));
    let mut stopped = vec![5; MANY];
    stopped[60_000] = 255;
    all.push(Replayed::new(&loops, &stopped, MOST_BUDGET));
    // First runs of 1,280, 10,240 and 20,480 firings, and of cases at all limits.
    for case in [
        counter_case(8, &[1; 5]),
        counter_case(8, &[1; 40]),
        priority_counter_case(9, &[1; 40]),
        all_limits(&[1], false),
        all_limits(&[], false),
        longest(),
    ] {
        let run = explanation(&case, usize::MAX).expect("a run explains the log");
        let length = run.len() as u16;
        for budget in [MOST_BUDGET, length, length - 1] {
            all.push(Replayed::new(&case, &run, budget));
        }
        all.push(Replayed::new(&case, &run[..run.len() - 1], MOST_BUDGET));
    }
    all
}

/// Refusals 2 to 7, and what 8 to 10 would be, which replay does not ask.
fn refusals() -> Vec<Replayed> {
    let run = [0, 2, 4];
    let mut all = Vec::new();
    for faults in fault_sets(&[2, 3, 4, 5, 6, 7]) {
        all.push(Replayed::new(&with_faults(&faults), &run, 9));
    }
    for faults in fault_sets(&[8, 9, 10]) {
        let case = with_faults(&faults);
        // The last transition is the one that moves a token over or passes the cap.
        let last = case.system.transitions.len() as u8 - 1;
        for run in [&run[..], &[last], &[0, 2, last, last, last]] {
            all.push(Replayed::new(&case, run, 9));
        }
    }
    let file = case::bytes(&hub(&[0, 3]));
    let more = [file.as_slice(), &[0]].concat();
    for file in [vec![], file[..82].to_vec(), more] {
        for (run, budget) in [(vec![], 0), (run.to_vec(), 9)] {
            all.push(Replayed {
                budget,
                run,
                file: file.clone(),
            });
        }
    }
    let cases = sides::of_checks().into_iter().flat_map(BothSides::cases);
    all.extend(cases.map(|case| Replayed::new(&case, &run, 9)));
    all
}

/// A small case with a run that mostly goes far: an explanation or a walk, and
/// then often a change.
fn random(index: u64) -> Replayed {
    let file = make::file(SEED, index);
    let mut random = Random::new(!SEED, index);
    let run = match case::read(&file) {
        Err(_) => random.numbers(0, 6, 6),
        Ok(case) => random_run(&mut random, &case),
    };
    let budget = match random.under(5) {
        0 => random.under(run.len() + 1) as u16,
        1 => run.len() as u16,
        _ => MOST_BUDGET,
    };
    Replayed { budget, run, file }
}

fn random_run(random: &mut Random, case: &Case) -> Run {
    let explains = explanation(case, RUN_ROOM).filter(|_| random.chance(40));
    let steps = random.between(0, 30);
    let mut run = explains.unwrap_or_else(|| {
        let walked = make::walk(random, case, steps).run;
        if random.chance(50) {
            passing_the_cap(case, &walked).unwrap_or(walked)
        } else {
            walked
        }
    });
    let beyond = case.system.transitions.len() + 1;
    match random.under(6) {
        0 => drop(run.pop()),
        1 => run.push(random.under(beyond) as u8),
        2 if !run.is_empty() => {
            let at = random.under(run.len());
            run[at] = random.under(beyond) as u8;
        }
        _ => {}
    }
    run
}

/// As much of the run as there can be with a number after it that passes the
/// cap, if there is one.
fn passing_the_cap(case: &Case, run: &[u8]) -> Option<Run> {
    let file = case::bytes(case);
    let passes = |run: &Run| {
        let done = replay::replay(&file, run, MOST_BUDGET, &Slips::default());
        done.is_ok_and(|done| done.stop == Stop::CapPassed)
    };
    let numbers = 0..case.system.transitions.len() as u8;
    (0..=run.len()).rev().find_map(|length| {
        let longer = |number: u8| [&run[..length], &[number]].concat();
        numbers.clone().map(longer).find(passes)
    })
}
