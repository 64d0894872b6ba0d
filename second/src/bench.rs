//! Named cases for measuring time: at the limits of 01 in what a verdict or a
//! listing has to go through, with long runs to show, and a small one beside
//! them; of those at the limits some are made of copies, some of transitions no
//! two of which are alike. The tests show that each is what is said of it here.

use crate::case::{Bounds, Case, Net, Pair, Transition, MOST_LOG};
use crate::known::{arcs, chain_final, chain_pattern, counter_case, hub_case, moves, pair};
use crate::random::Random;

/// What moves tokens and what the pattern waits for are silent.
const MOVE: u8 = 0;
const FLIP: u8 = 1;
/// The labels of `worst` and `deep` that can be observed.
const TICKS: [u8; 2] = [2, 3];

/// The transitions of these two: before the flip those that move the first pair of places over
/// and back in turn, after it those that move the second pair; then one that is
/// never enabled, and the ticks.
const COPIES: usize = 11;
const FLIPS: u8 = 2 * COPIES as u8;
const OVER: u8 = FLIPS + 1;
const BACK: u8 = OVER + 1;
const NEVER_ENABLED: u8 = FLIPS + 1 + 2 * COPIES as u8;
const FIRST_TICK: u8 = NEVER_ENABLED + 1;

#[derive(Clone, Copy, Debug, PartialEq, Eq)]
pub enum Bench {
    Worst { lines: u8 },
    Deep { lines: u8 },
    Dense { lines: u8 },
    Ring { lines: u8 },
    Long,
    Hub,
    Maze,
}

impl Bench {
    /// By its name; four of them have a log of so many lines, the others have none
    /// to choose.
    pub fn named(name: &str, lines: Option<u64>) -> Option<Bench> {
        let lines = match lines {
            None => None,
            Some(count) => Some(u8::try_from(count).ok().filter(|few| *few <= MOST_LOG)?),
        };
        match (name, lines) {
            ("worst", Some(lines)) => Some(Bench::Worst { lines }),
            ("deep", Some(lines)) => Some(Bench::Deep { lines }),
            ("dense", Some(lines)) => Some(Bench::Dense { lines }),
            ("ring", Some(lines)) => Some(Bench::Ring { lines }),
            ("long", None) => Some(Bench::Long),
            ("hub", None) => Some(Bench::Hub),
            ("maze", None) => Some(Bench::Maze),
            _ => None,
        }
    }

    pub fn case(self) -> Case {
        match self {
            Bench::Worst { lines } => worst(lines),
            Bench::Deep { lines } => deep(lines),
            Bench::Dense { lines } => dense(lines),
            Bench::Ring { lines } => ring(lines),
            Bench::Long => long(),
            Bench::Hub => hub_case(4),
            Bench::Maze => maze(),
        }
    }
}

/// 512 product markings, and every one of them at every position of the log; 44
/// of 48 transitions firable on average; pairs that never hold anything back, but
/// have to be looked at. The first runs are the ticks alone and a flip before
/// them. Both are met late among the runs of their length, since ticks have the
/// greatest numbers, and a flip has a greater one than half of the moves.
pub fn worst(lines: u8) -> Case {
    let never_enabled_over = (0..32).map(|lower| pair(NEVER_ENABLED, lower));
    at_the_limits(never_enabled_over.collect(), lines)
}

/// The same, but the one tick has to wait until all tokens of the second pair of
/// places have moved over, and the other until all are back. So the first runs
/// have 16 firings for each line, and go through nearly all lengths of runs.
pub fn deep(lines: u8) -> Case {
    let mut pairs = vec![pair(OVER, FIRST_TICK), pair(BACK, FIRST_TICK + 1)];
    pairs.extend((0..30).map(|lower| pair(NEVER_ENABLED, lower)));
    at_the_limits(pairs, lines)
}

fn at_the_limits(pairs: Vec<Pair>, lines: u8) -> Case {
    // What moves stands in the last places, so that two markings begin alike.
    let (full, empty) = (0, 15);
    let over_and_back = |from: u8| {
        let both = [moves(MOVE, from, from + 1), moves(MOVE, from + 1, from)];
        vec![both; COPIES].concat()
    };
    let mut transitions: Vec<Transition> = over_and_back(11);
    transitions.push(moves(FLIP, full, full));
    transitions.extend(over_and_back(13));
    transitions.push(moves(MOVE, empty, empty));
    transitions.extend(TICKS.map(|label| moves(label, full, full)));

    // The flip is followed once; of the label that moves tokens there are many
    // transitions, all of which lack the last place's token.
    let mut links = vec![arcs(MOVE, &[7], &[7]); 15];
    links.push(moves(FLIP, 5, 6));
    let holding = |place: usize| {
        let mut all = vec![Bounds { least: 0, most: 15 }; 8];
        all[place].least = 1;
        all
    };
    let mut finals = vec![holding(7); 7];
    finals.push(holding(6));

    Case {
        system: Net {
            cap: 15,
            first_tokens: [vec![15; 11], vec![15, 0, 15, 0], vec![0]].concat(),
            transitions,
        },
        pairs,
        observable: (TICKS[0]..32).collect(),
        pattern: Net {
            cap: 15,
            first_tokens: vec![15, 15, 15, 15, 15, 1, 0, 0],
            transitions: links,
        },
        finals,
        log: TICKS.into_iter().cycle().take(usize::from(lines)).collect(),
    }
}

/// 48 transitions no two of which do the same, 512 product markings, and every one of
/// them at every position of the log. Four pairs of places have three tokens each,
/// which go over and back: 256 markings, and twice as many with the pattern's. A
/// transition moves a token of one pair, two, three or all four, each over or back: of
/// the 80 ways there are, all 8 of one pair, all 24 of two, and 16 of the other 48.
/// Each also takes a token from some of eight full places and puts it back: those that
/// the binary digits of its number say. Of every four places the middle ones are full.
///
/// Moves of one pair are silent, one of four pairs is the flip that the pattern waits
/// for, and all others have one of 14 labels that the log may show. The 32 priorities
/// hold moves of two pairs back where some of three or four are enabled. The pattern
/// follows every label, taking tokens from full places and putting them back.
pub fn dense(lines: u8) -> Case {
    let ways = ways_of_dense();
    let label = |number: u8, moved: usize| match (number, moved) {
        (_, 1) => MOVE,
        (DENSE_FLIP, _) => FLIP,
        _ => DENSE_TICKS + number * 5 % DENSE_TICK_COUNT,
    };
    let transition = |(number, way): (u8, &[i8; 4])| {
        let mut one = arcs(label(number, moved_pairs(way)), &[], &[]);
        for (four, direction) in (0u8..).step_by(4).zip(way) {
            let (first, last) = (four, four + 3);
            match direction {
                1 => (one.inputs.push(first), one.outputs.push(last)),
                -1 => (one.inputs.push(last), one.outputs.push(first)),
                _ => ((), ()),
            };
        }
        let full = (0..8u8).filter(|digit| number >> digit & 1 == 1);
        // Places 1, 2, 5, 6, 9 and so on.
        for place in full.map(|digit| digit / 2 * 4 + 1 + digit % 2) {
            one.inputs.push(place);
            one.outputs.push(place);
        }
        one.inputs.sort();
        one.outputs.sort();
        one
    };
    // Each of the 16 last over two of the 24 before them.
    let held_back = |higher: u8| {
        let lowers = [0, 1].map(|one| 8 + (higher * 3 + one * 11) % 24);
        let (least, most) = (lowers[0].min(lowers[1]), lowers[0].max(lowers[1]));
        [pair(32 + higher, least), pair(32 + higher, most)]
    };
    // The labels that the pattern knows, each with other full places.
    let known = [MOVE]
        .into_iter()
        .chain(DENSE_TICKS..DENSE_TICKS + DENSE_TICK_COUNT);
    let followed = known.zip(1u8..).map(|(label, number)| {
        let full: Vec<u8> = (0..5).filter(|digit| number >> digit & 1 == 1).collect();
        arcs(label, &full, &full)
    });
    let mut links: Vec<Transition> = followed.collect();
    links.push(moves(FLIP, 5, 6));
    let at_least = |place: usize, least: u8| {
        let mut all = vec![Bounds { least: 0, most: 15 }; 8];
        all[place].least = least;
        all
    };
    let mut finals: Vec<Vec<Bounds>> = (1..8).map(|least| at_least(7, least)).collect();
    finals.push(at_least(6, 1));

    Case {
        system: Net {
            cap: 15,
            first_tokens: [3, 15, 15, 0].repeat(4),
            transitions: (0u8..).zip(&ways).map(transition).collect(),
        },
        pairs: (0..16).flat_map(held_back).collect(),
        observable: (DENSE_TICKS..32).collect(),
        pattern: Net {
            cap: 15,
            first_tokens: vec![15, 15, 15, 15, 15, 1, 0, 0],
            transitions: links,
        },
        finals,
        log: some_labels(DENSE_TICKS, DENSE_TICK_COUNT, lines),
    }
}

/// Of `dense`: the one that the pattern waits for, and the labels of the log.
const DENSE_FLIP: u8 = 47;
const DENSE_TICKS: u8 = 2;
const DENSE_TICK_COUNT: u8 = 14;

/// Which pairs a transition of `dense` moves over (1) or back (-1): all ways for one
/// pair and for two, and every third of the rest, which are 48.
fn ways_of_dense() -> Vec<[i8; 4]> {
    let all = (0..81).map(|number: i8| [number / 27, number / 9 % 3, number / 3 % 3, number % 3]);
    let all: Vec<[i8; 4]> = all.map(|digits| digits.map(|digit| digit - 1)).collect();
    let of = |least: usize, most: usize| {
        let moved = move |way: &&[i8; 4]| (least..=most).contains(&moved_pairs(way));
        all.iter().filter(moved).copied()
    };
    of(1, 1)
        .chain(of(2, 2))
        .chain(of(3, 4).step_by(3))
        .collect()
}

fn moved_pairs(way: &[i8; 4]) -> usize {
    way.iter().filter(|direction| **direction != 0).count()
}

/// Labels from the first on, in a fixed order without a simple rhyme.
fn some_labels(first: u8, count: u8, lines: u8) -> Vec<u8> {
    let mut random = Random::new(0x006c_6f67, u64::from(count));
    (0..lines)
        .map(|_| first + random.under(usize::from(count)) as u8)
        .collect()
}

/// Five tokens that move freely among six places: 252 markings, twice as many with
/// the pattern's, and each of these 504 at every position of the log. The six stand
/// in a ring that goes to and fro among the sixteen, so that the order of the markings
/// has nothing of the order in which they are met. There is a transition from each of
/// the six to each other: to the next and to the one before, in silence; across and
/// two on, with labels that the log may show; two back, in silence, with the label
/// that the pattern waits for.
pub fn ring(lines: u8) -> Case {
    let step = |far: usize, label: fn(u8) -> u8| {
        (0u8..6).map(move |at| {
            let to = RING[(usize::from(at) + far) % 6];
            moves(label(at), RING[usize::from(at)], to)
        })
    };
    let (next, before) = (step(1, |_| MOVE), step(5, |_| MOVE));
    let across = step(3, |at| 2 + at % 2);
    let two_on = step(2, |at| 4 + at % 2);
    let two_back = step(4, |_| FLIP);
    // The other places have other counts, which stay.
    let mut first_tokens: Vec<u8> = (0..16).collect();
    for place in RING {
        first_tokens[usize::from(place)] = 0;
    }
    first_tokens[usize::from(RING[0])] = 5;
    Case {
        system: Net {
            cap: 15,
            first_tokens,
            transitions: next
                .chain(before)
                .chain(across)
                .chain(two_on)
                .chain(two_back)
                .collect(),
        },
        pairs: vec![],
        observable: vec![2, 3, 4, 5],
        pattern: chain_pattern(&[FLIP]),
        finals: vec![chain_final(1)],
        log: some_labels(2, 4, lines),
    }
}

/// The places of `ring` in the order in which they follow one another.
const RING: [u8; 6] = [9, 2, 14, 3, 0, 8];

/// A counter of eight bits that is cleared seven times; what the pattern waits for
/// may happen at any time, in silence. The first runs have 1,792 and 1,793 firings.
pub fn long() -> Case {
    let mut case = counter_case(8, &[1; 7]);
    case.system.transitions.push(arcs(3, &[], &[]));
    case.pattern = chain_pattern(&[3]);
    case
}

/// For a listing up to 24 firings: the log's one label can be fired only after 15
/// moves of one transition and then eight of another, so there is one explanation,
/// of just 24 firings; but 45 others in all, which lead nowhere, can be fired in
/// silence at nearly any time, and have the smaller numbers.
pub fn maze() -> Case {
    let to_and_fro = [moves(0, 4, 5), moves(0, 5, 4)];
    let mut transitions: Vec<Transition> = to_and_fro.into_iter().cycle().take(45).collect();
    let (first, second, way_out) = (45, 46, 47);
    transitions.push(moves(1, 0, 1));
    transitions.push(moves(1, 2, 3));
    transitions.push(arcs(2, &[], &[]));
    Case {
        system: Net {
            cap: 15,
            first_tokens: vec![15, 0, 8, 0, 15, 0],
            transitions,
        },
        pairs: vec![
            pair(first, second),
            pair(first, way_out),
            pair(second, way_out),
        ],
        observable: vec![2],
        pattern: chain_pattern(&[2]),
        finals: vec![chain_final(1)],
        log: vec![2],
    }
}
