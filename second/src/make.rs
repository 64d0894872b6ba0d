//! Made case files, for comparing programs: small random cases of many families,
//! cases at each limit of 01 and one past it, and damaged files. A file depends
//! on the seed and its own number alone.

use std::collections::BTreeSet;

use crate::case::{self, Bounds, Case, Net, Pair, Transition};
use crate::judge::{Listing, Run, LEAST_WORK_ROOM};
use crate::known::{
    add_gate, chain_final, chain_pattern, counter_case, hub, longest, moves, moving_over,
    priority_counter_case,
};
use crate::net;
use crate::random::Random;
use crate::Slips;

/// No made case has more explanations than this up to the limit below, so that
/// listings of made cases stay short.
pub const MOST_LISTED: u64 = 4_000;
pub const LISTED_LIMIT: u64 = 6;

/// The made file of this number.
pub fn file(seed: u64, index: u64) -> Vec<u8> {
    of_families(&FAMILIES, seed, index)
}

/// The damaged file of this number.
pub fn damaged_file(seed: u64, index: u64) -> Vec<u8> {
    of_families(&[damaged_bytes, damaged_records], seed, index)
}

fn of_families(families: &[Family], seed: u64, index: u64) -> Vec<u8> {
    let mut random = Random::new(seed, index);
    let family = families[(index % families.len() as u64) as usize];
    // A family that keeps giving too long listings falls back on the hub case.
    let tries = (0..50).map(|_| family(&mut random));
    let modest = tries.into_iter().find(|file| is_modest(file));
    modest.unwrap_or_else(|| case::bytes(&hub(&[0, 3])))
}

fn is_modest(file: &[u8]) -> bool {
    let listing = Listing::open(file, LEAST_WORK_ROOM, LISTED_LIMIT, &Slips::default());
    listing.map_or(true, |open| open.count() <= MOST_LISTED)
}

type Family = fn(&mut Random) -> Vec<u8>;

const FAMILIES: [Family; 20] = [
    |r| case::bytes(&hub_like(r)),
    |r| case::bytes(&moving(r)),
    |r| case::bytes(&with_pairs(r)),
    |r| case::bytes(&matched_walk(r)),
    |r| case::bytes(&silent_mishap(r)),
    |r| case::bytes(&branching_pattern(r)),
    |r| case::bytes(&wild_system(r)),
    |r| case::bytes(&wild_pattern(r)),
    |r| case::bytes(&left_final(r)),
    |r| case::bytes(&pattern_markings(r)),
    |r| case::bytes(&product_markings(r)),
    |r| case::bytes(&counter(r)),
    |r| case::bytes(&chained_pairs(r)),
    |r| case::bytes(&cycled_pairs(r)),
    |r| case::bytes(&at_the_cap(r)),
    |r| case::bytes(&unexplained(r)),
    |r| case::bytes(&at_a_limit(r)),
    |r| case::bytes(&past_a_limit(r)),
    damaged_bytes,
    damaged_records,
];

fn hub_like(random: &mut Random) -> Case {
    let mut case = hub(&[]);
    if random.chance(30) {
        let pair = *random.pick(&[(2, 1), (1, 2), (0, 3), (3, 0), (2, 4), (4, 2)]);
        case.pairs.push(Pair {
            higher: pair.0,
            lower: pair.1,
        });
    }
    if random.chance(25) {
        let labels = random.numbers(1, 3, 4);
        case.pattern = chain_pattern(&labels);
        case.finals = vec![chain_final(labels.len())];
    }
    if random.chance(20) {
        case.observable = (0..4).filter(|_| random.chance(50)).collect();
    }
    let length = random.between(0, 8);
    case.log = if random.chance(70) {
        walk(random, &case, length).log
    } else {
        any_log(random, &case, 4)
    };
    case
}

/// A system that moves tokens about without making any, so that no cap is
/// passed; a chain for a pattern; and mostly a log that some run has.
fn moving(random: &mut Random) -> Case {
    let (transitions, tokens) = (random.between(1, 6), random.between(1, 2));
    let mut case = moving_with(random, transitions, tokens);
    let length = random.between(0, 7);
    case.log = if random.chance(80) {
        walk(random, &case, length).log
    } else {
        any_log(random, &case, 3)
    };
    case
}

fn moving_with(random: &mut Random, transitions: usize, tokens: usize) -> Case {
    let places = random.between(1, 4);
    let mut first_tokens = vec![0; places];
    for _ in 0..tokens {
        first_tokens[random.under(places)] += 1;
    }
    let mut system = Net {
        cap: tokens as u8,
        first_tokens,
        transitions: Vec::new(),
    };
    for _ in 0..transitions {
        let one = moving_transition(random, &system);
        system.transitions.push(one);
    }
    // Mostly labels that occur in the system, so that there is much to follow.
    let mut labels = random.numbers(1, 3, 5);
    for label in &mut labels {
        if transitions > 0 && random.chance(70) {
            *label = random.pick(&system.transitions).label;
        }
    }
    let seen = *random.pick(&[30, 55, 80]);
    Case {
        system,
        pairs: Vec::new(),
        observable: (0..5).filter(|_| random.chance(seen)).collect(),
        finals: vec![chain_final(labels.len())],
        pattern: chain_pattern(&labels),
        log: Vec::new(),
    }
}

/// Takes as many tokens as it puts; mostly from a place where a token begins or
/// where an earlier transition puts one.
fn moving_transition(random: &mut Random, system: &Net) -> Transition {
    let places = system.first_tokens.len();
    let label = random.under(5) as u8;
    if places > 1 && random.chance(15) {
        return Transition {
            label,
            inputs: random.rising(2, places),
            outputs: random.rising(2, places),
        };
    }
    let begins = (0u8..)
        .zip(&system.first_tokens)
        .filter(|(_, tokens)| **tokens > 0)
        .map(|(place, _)| place);
    let put = system
        .transitions
        .iter()
        .flat_map(|one| one.outputs.iter().copied());
    let lively: Vec<u8> = begins.chain(put).collect();
    let from = if lively.is_empty() || random.chance(15) {
        random.under(places) as u8
    } else {
        *random.pick(&lively)
    };
    moves(label, from, random.under(places) as u8)
}

fn with_pairs(random: &mut Random) -> Case {
    let (transitions, tokens) = (random.between(2, 6), random.between(1, 3));
    let mut case = moving_with(random, transitions, tokens);
    let wanted = random.between(1, 4);
    case.pairs = acyclic_pairs(random, transitions, wanted);
    let length = random.between(0, 7);
    case.log = walk(random, &case, length).log;
    case
}

/// Pairs that point one way in some order of the transitions, and so can't
/// close a cycle.
fn acyclic_pairs(random: &mut Random, transitions: usize, wanted: usize) -> Vec<Pair> {
    let mut order: Vec<u8> = (0..transitions as u8).collect();
    random.shuffle(&mut order);
    let mut pairs = BTreeSet::new();
    for _ in 0..wanted {
        let (one, other) = (random.under(transitions), random.under(transitions));
        if one != other {
            pairs.insert(Pair {
                higher: order[one.min(other)],
                lower: order[one.max(other)],
            });
        }
    }
    pairs.into_iter().collect()
}

/// The pattern waits for labels that a walk has shown, so that the walk matches.
fn matched_walk(random: &mut Random) -> Case {
    let (transitions, tokens) = (random.between(1, 5), random.between(1, 2));
    let mut case = moving_with(random, transitions, tokens);
    let length = random.between(1, 6);
    let walked = walk(random, &case, length);
    case.log = walked.log;
    let mut labels: Vec<u8> = walked
        .labels
        .into_iter()
        .filter(|_| random.chance(50))
        .collect();
    labels.truncate(7);
    case.pattern = chain_pattern(&labels);
    case.finals = vec![chain_final(labels.len())];
    if random.chance(15) {
        count_occurrences(random, &mut case);
    }
    case
}

/// The pattern waits for something silent, so that it can't be told from the log.
fn silent_mishap(random: &mut Random) -> Case {
    let (transitions, tokens) = (random.between(2, 5), random.between(1, 2));
    let mut case = moving_with(random, transitions, tokens);
    let label = random.pick(&case.system.transitions).label;
    case.observable = (0..5)
        .filter(|one| *one != label && random.chance(80))
        .collect();
    case.pattern = chain_pattern(&[label]);
    case.finals = vec![chain_final(1)];
    let length = random.between(0, 6);
    case.log = walk(random, &case, length).log;
    case
}

/// A pattern that waits for one label several times, with many tokens in a place.
fn count_occurrences(random: &mut Random, case: &mut Case) {
    let times = random.between(1, 5) as u8;
    let label = random.under(5) as u8;
    let cap = times + random.between(0, 2) as u8;
    case.pattern = Net {
        cap,
        first_tokens: vec![times, 0],
        transitions: vec![moves(label, 0, 1)],
    };
    let wanted = Bounds {
        least: random.between(1, usize::from(times)) as u8,
        most: cap,
    };
    case.finals = vec![vec![
        Bounds {
            least: 0,
            most: cap,
        },
        wanted,
    ]];
}

fn branching_pattern(random: &mut Random) -> Case {
    let mut case = moving(random);
    let label = |random: &mut Random| random.under(5) as u8;
    let mut transitions = vec![moves(label(random), 0, 1), moves(label(random), 0, 2)];
    transitions.push(moves(label(random), 1, 3));
    transitions.push(moves(label(random), 2, 3));
    if random.chance(60) {
        transitions.push(moves(label(random), random.between(1, 2) as u8, 0));
    }
    random.shuffle(&mut transitions);
    case.pattern = Net {
        cap: 1,
        first_tokens: vec![1, 0, 0, 0],
        transitions,
    };
    let at = |place: usize| {
        (0..4)
            .map(|one| Bounds {
                least: u8::from(one == place),
                most: 1,
            })
            .collect::<Vec<_>>()
    };
    case.finals = vec![at(3)];
    if random.chance(30) {
        case.finals.push(at(random.between(1, 2)));
    }
    case
}

fn wild_net(
    random: &mut Random,
    most_places: usize,
    most_transitions: usize,
    most_cap: usize,
) -> Net {
    let places = random.between(1, most_places);
    let cap = random.between(1, most_cap) as u8;
    let first_tokens = (0..places)
        .map(|_| random.between(0, usize::from(cap)) as u8)
        .collect();
    let one = |random: &mut Random| Transition {
        label: random.under(6) as u8,
        inputs: random.some_rising(places),
        outputs: random.some_rising(places),
    };
    let count = random.between(0, most_transitions);
    Net {
        cap,
        first_tokens,
        transitions: (0..count).map(|_| one(random)).collect(),
    }
}

/// Any system at all: these often pass the cap or reach too many markings.
fn wild_system(random: &mut Random) -> Case {
    let mut case = moving(random);
    case.system = if random.chance(25) {
        wild_net(random, 16, 12, 15)
    } else {
        wild_net(random, 4, 5, 3)
    };
    case.observable = (0..6).filter(|_| random.chance(60)).collect();
    let transitions = case.system.transitions.len();
    if transitions > 1 && random.chance(30) {
        case.pairs = acyclic_pairs(random, transitions, 3);
    } else {
        case.pairs.clear();
    }
    let length = random.between(0, 6);
    case.log = walk(random, &case, length).log;
    case
}

/// Any pattern at all: these often meet 4 to 7.
fn wild_pattern(random: &mut Random) -> Case {
    let mut case = moving(random);
    case.pattern = wild_net(random, 4, 4, 4);
    let cap = usize::from(case.pattern.cap);
    let places = case.pattern.first_tokens.len();
    let bound = |random: &mut Random| {
        let most = random.between(0, cap);
        Bounds {
            least: random.between(0, most) as u8,
            most: most as u8,
        }
    };
    let count = random.between(1, 3);
    case.finals = (0..count)
        .map(|_| (0..places).map(|_| bound(random)).collect())
        .collect();
    case
}

/// A chain with a way on from its last place, to a place that is final as well
/// or is not, which is 7.
fn left_final(random: &mut Random) -> Case {
    let mut case = moving(random);
    let last = case.pattern.first_tokens.len() as u8 - 1;
    let to = random.between(0, usize::from(last) + 1) as u8;
    case.pattern.first_tokens.push(0);
    case.finals[0].push(Bounds { least: 0, most: 1 });
    case.pattern
        .transitions
        .push(moves(random.under(5) as u8, last, to));
    if random.chance(50) {
        let mut bounds = vec![Bounds { least: 0, most: 1 }; usize::from(last) + 2];
        bounds[usize::from(to)].least = 1;
        case.finals.push(bounds);
    }
    case
}

fn pattern_markings(random: &mut Random) -> Case {
    let mut case = moving(random);
    // 63, 64 (four times), 65, 66, 128 and 256 markings.
    let tokens: &[u8] = random.pick::<&[u8]>(&[
        &[6, 8],
        &[7, 7],
        &[3, 3, 3],
        &[15, 3],
        &[1, 1, 3, 3],
        &[4, 12],
        &[5, 10],
        &[7, 15],
        &[3, 3, 3, 3],
    ]);
    let most = tokens.iter().copied().max().unwrap_or(1);
    let first_label = random.under(5) as u8;
    case.pattern = moving_over(tokens, most, first_label);
    if random.chance(20) {
        // Puts a token where the cap already stands: 5, if 4 has not spoken.
        case.pattern.transitions.push(Transition {
            label: 9,
            inputs: vec![],
            outputs: vec![0],
        });
    }
    if random.chance(20) {
        case.pattern.transitions.push(moves(first_label, 2, 3));
    }
    let mut bounds = vec![Bounds { least: 0, most }; case.pattern.first_tokens.len()];
    // Moved over is final, and stays so; left over is not, which is 7 at times.
    let place = if random.chance(85) { 1 } else { 0 };
    bounds[place].least = 1;
    case.finals = vec![bounds];
    case
}

fn product_markings(random: &mut Random) -> Case {
    // 504, 512 (three times), 520, 256 and 128 markings of the system.
    let tokens: &[u8] = random.pick::<&[u8]>(&[
        &[6, 7, 8],
        &[7, 7, 7],
        &[15, 15, 1],
        &[3, 3, 3, 7],
        &[7, 4, 12],
        &[15, 15],
        &[7, 15],
    ]);
    let mut system = moving_over(tokens, 15, 0);
    if random.chance(40) {
        add_gate(&mut system, 5);
    }
    if random.chance(40) {
        // Something that the pattern can follow at any time: twice the markings.
        system.transitions.push(Transition {
            label: 6,
            inputs: vec![],
            outputs: vec![],
        });
    }
    if random.chance(15) {
        // Passes the cap at the end of the last move: 9, if 8 has not spoken.
        let full = system.first_tokens.len() as u8;
        system.first_tokens.push(15);
        system.transitions.push(Transition {
            label: 7,
            inputs: vec![1],
            outputs: vec![1, full],
        });
    }
    let mut case = Case {
        system,
        pairs: Vec::new(),
        observable: (0..8).filter(|_| random.chance(60)).collect(),
        pattern: chain_pattern(&[6]),
        finals: vec![chain_final(1)],
        log: Vec::new(),
    };
    let length = random.between(0, 40);
    case.log = walk(random, &case, length).log;
    case
}

fn counter(random: &mut Random) -> Case {
    if random.chance(30) {
        let (bits, clearings) = (random.between(1, 9) as u8, random.between(0, 40));
        return priority_counter_case(bits, &vec![1; clearings]);
    }
    let bits = random.between(1, 8) as u8;
    // Many clearings of many bits make runs near and past the room of a verdict.
    let log = if bits == 8 && random.chance(70) {
        let clearings = random.between(6, 10);
        let mut log = vec![1; clearings];
        log.extend(vec![2; random.between(0, 2)]);
        log
    } else {
        (0..random.between(0, 8))
            .map(|_| random.between(1, 2) as u8)
            .collect()
    };
    let mut case = counter_case(bits, &log);
    if random.chance(30) {
        case.pattern = chain_pattern(&[0, 1]);
        case.finals = vec![chain_final(2)];
    }
    case
}

/// Several transitions enabled at once, with pairs in a chain: the middle one
/// blocks the lowest, although it is blocked itself.
fn chained_pairs(random: &mut Random) -> Case {
    let transitions = random.between(3, 5);
    let mut case = moving_with(random, transitions, 2);
    let mut order: Vec<u8> = (0..transitions as u8).collect();
    random.shuffle(&mut order);
    let chain = order.windows(2).map(|two| Pair {
        higher: two[0],
        lower: two[1],
    });
    let length = random.between(2, 3);
    case.pairs = chain.take(length - 1).collect();
    case.pairs.sort();
    let steps = random.between(0, 6);
    case.log = if random.chance(70) {
        walk(random, &case, steps).log
    } else {
        any_log(random, &case, 2)
    };
    case
}

fn cycled_pairs(random: &mut Random) -> Case {
    let transitions = random.between(1, 6);
    let mut case = moving_with(random, transitions, 1);
    let length = random.between(1, transitions);
    let mut order: Vec<u8> = (0..transitions as u8).collect();
    random.shuffle(&mut order);
    order.truncate(length);
    let mut pairs: BTreeSet<Pair> = acyclic_pairs(random, transitions, 2).into_iter().collect();
    // Half of these leave the cycle open by one pair.
    let closed = random.chance(50);
    for step in 0..if closed { length } else { length - 1 } {
        pairs.insert(Pair {
            higher: order[step],
            lower: order[(step + 1) % length],
        });
    }
    case.pairs = pairs.into_iter().collect();
    let steps = random.between(0, 5);
    case.log = if closed {
        Vec::new()
    } else {
        walk(random, &case, steps).log
    };
    case
}

/// Places at the cap that are both input and output, or output alone.
fn at_the_cap(random: &mut Random) -> Case {
    let mut case = moving(random);
    let cap = case.system.cap;
    let full = case.system.first_tokens.len() as u8;
    case.system.first_tokens.push(cap);
    let mut keeps = moves(random.under(5) as u8, full, full);
    if random.chance(30) {
        keeps.inputs = vec![random.under(usize::from(full)) as u8];
    }
    case.system.transitions.push(keeps);
    let steps = random.between(0, 5);
    case.log = walk(random, &case, steps).log;
    case
}

fn unexplained(random: &mut Random) -> Case {
    let mut case = if random.chance(50) {
        moving(random)
    } else {
        with_pairs(random)
    };
    if case.observable.is_empty() {
        case.observable.push(random.under(5) as u8);
    }
    case.log = any_log(random, &case, 12);
    case
}

/// One thing in the case stands exactly at its limit.
fn at_a_limit(random: &mut Random) -> Case {
    near_limit(random, 0)
}

/// One thing in the case stands one past its limit, or breaks another rule of
/// the layout.
fn past_a_limit(random: &mut Random) -> Case {
    if random.chance(60) {
        near_limit(random, 1)
    } else {
        broken_rule(random)
    }
}

fn near_limit(random: &mut Random, past: u8) -> Case {
    let more = usize::from(past);
    let mut case = moving(random);
    match random.under(13) {
        0 => case.system.first_tokens.resize(16 + more, 0),
        1 => case.system.cap = 15 + past,
        2 => {
            let place = random.under(case.system.first_tokens.len());
            case.system.first_tokens[place] = case.system.cap + past;
        }
        3 => {
            case = moving_with(random, 48 + more, 1);
            case.observable = (0..5).collect();
            case.log = walk(random, &case, 5).log;
        }
        4 => {
            let label = 31 + past;
            case.system.transitions.push(moves(label, 0, 0));
            case.observable.push(label);
        }
        5 => {
            case = moving_with(random, 12, 2);
            let mut all: Vec<Pair> = (0..12)
                .flat_map(|higher| (higher + 1..12).map(move |lower| Pair { higher, lower }))
                .collect();
            random.shuffle(&mut all);
            all.truncate(32 + more);
            all.sort();
            case.pairs = all;
            case.log = walk(random, &case, 4).log;
        }
        6 => case.observable = (0..32 + past).collect(),
        7 => {
            case.pattern.first_tokens.resize(8 + more, 0);
            for bounds in &mut case.finals {
                bounds.resize(8 + more, Bounds { least: 0, most: 1 });
            }
        }
        8 => {
            let used = case.pattern.transitions.len();
            let spare = (0u8..).map(|number| moves(16 + number, 0, 0));
            case.pattern
                .transitions
                .extend(spare.take(16 + more - used));
        }
        9 => {
            let bounds = case.finals[0].clone();
            case.finals = vec![bounds; 8 + more];
        }
        10 => {
            let label = random.under(5) as u8;
            case.system.transitions = vec![Transition {
                label,
                inputs: vec![],
                outputs: vec![],
            }];
            case.observable = vec![label];
            case.log = vec![label; 40 + more];
            case.pairs.clear();
        }
        11 => {
            let places = case.system.first_tokens.len() as u8;
            let all: Vec<u8> = (0..places + past).collect();
            case.system.transitions.push(Transition {
                label: 4,
                inputs: all.clone(),
                outputs: all,
            });
        }
        _ => {
            case = longest();
            let skipped = random.under(40);
            case.log.truncate(40 - skipped);
            case.finals[0].iter_mut().for_each(|one| one.most += past);
        }
    }
    case
}

fn broken_rule(random: &mut Random) -> Case {
    let transitions = random.between(2, 5);
    let mut case = moving_with(random, transitions, 1);
    let pair = |higher: usize, lower: usize| Pair {
        higher: higher as u8,
        lower: lower as u8,
    };
    match random.under(11) {
        0 => case.pairs = vec![pair(0, transitions)],
        1 => case.pairs = vec![pair(transitions, 0)],
        2 => case.pairs = vec![pair(1, 0), pair(0, 1)],
        3 => case.pairs = vec![pair(0, 1), pair(0, 1)],
        4 => case.observable = vec![2, 1],
        5 => case.observable = vec![3, 3],
        6 => case.finals.clear(),
        7 => case.finals[0][0] = Bounds { least: 1, most: 0 },
        8 => {
            case.observable = vec![0, 2];
            case.log = vec![0, 2, 1];
        }
        9 => case.system.transitions[0].inputs = vec![0, 0],
        _ => case.pattern.first_tokens.clear(),
    }
    case
}

/// A good case of one of the small families, to be damaged.
fn any_small(random: &mut Random) -> Case {
    let family = *random.pick(&[
        hub_like,
        moving,
        with_pairs,
        matched_walk,
        branching_pattern,
        wild_pattern,
    ]);
    family(random)
}

fn damaged_bytes(random: &mut Random) -> Vec<u8> {
    let mut file = case::bytes(&any_small(random));
    for _ in 0..random.between(1, 2) {
        let at = random.under(file.len().max(1));
        match random.under(8) {
            0 => file.truncate(at),
            1 => file.extend(random.numbers(1, 4, 256)),
            2 => file.extend_from_slice(b"EN"),
            3 if !file.is_empty() => drop(file.remove(at)),
            4 => file.insert(at, random.under(256) as u8),
            5 if !file.is_empty() => file[at] = random.under(256) as u8,
            _ if !file.is_empty() => {
                let change = *random.pick(&[1u8, 255]);
                file[at] = file[at].wrapping_add(change);
            }
            _ => {}
        }
    }
    if random.chance(5) {
        file = random.numbers(0, 60, 256);
    }
    file
}

fn damaged_records(random: &mut Random) -> Vec<u8> {
    let mut records = case::records(&any_small(random));
    for _ in 0..random.between(1, 2) {
        let (one, other) = (random.under(records.len()), random.under(records.len()));
        match random.under(4) {
            0 if records.len() > 1 => drop(records.remove(one)),
            1 => records.insert(one, records[one].clone()),
            2 => records.swap(one, other),
            _ => {
                let moved = records.remove(one);
                records.insert(other.min(records.len()), moved);
            }
        }
    }
    records.concat()
}

pub struct Walk {
    pub run: Run,
    pub labels: Vec<u8>,
    pub log: Vec<u8>,
}

/// Fires at random within the cap, and notes what was fired and what is seen of
/// it, so that the log has an explanation.
pub fn walk(random: &mut Random, case: &Case, steps: usize) -> Walk {
    let slips = Slips::default();
    let mut marking = net::first_marking(&case.system);
    let mut run = Run::new();
    for _ in 0..steps {
        let after = |number: usize| net::fire(&case.system.transitions[number], &marking, &slips);
        let ways: Vec<usize> = (0..case.system.transitions.len())
            .filter(|number| net::firable(case, *number, &marking, &slips))
            .filter(|number| !net::passes_cap(&case.system, &after(*number)))
            .collect();
        if ways.is_empty() {
            break;
        }
        let number = *random.pick(&ways);
        marking = after(number);
        run.push(number as u8);
    }
    let label = |number: &u8| case.system.transitions[usize::from(*number)].label;
    let labels: Vec<u8> = run.iter().map(label).collect();
    let seen = labels
        .iter()
        .copied()
        .filter(|label| case.observable.contains(label));
    let log = seen.take(usize::from(case::MOST_LOG)).collect();
    Walk { run, labels, log }
}

/// Observable labels in any order, whether or not a run has them.
fn any_log(random: &mut Random, case: &Case, most: usize) -> Vec<u8> {
    let length = if case.observable.is_empty() {
        0
    } else {
        random.between(0, most)
    };
    (0..length)
        .map(|_| *random.pick(&case.observable))
        .collect()
}
