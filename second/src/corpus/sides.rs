//! Both sides of each limit: a case that just keeps it, and one that just does
//! not and is refused.

use crate::case::{Bounds, Case, Net, Pair};
use crate::known::{
    add_gate, all_limits, arcs, bounds, chain_final, chain_pattern, changed_hub, counter_case, hub,
    moves, moving_over, pair, pairs, priority_counter_case,
};
use crate::Refusal;

pub struct BothSides {
    pub within: Case,
    pub past: Case,
    pub refusal: Refusal,
}

impl BothSides {
    pub fn cases(self) -> [Case; 2] {
        [self.within, self.past]
    }
}

/// The limits of the layout: one case reads, the other is refused at a place.
pub fn of_layout() -> Vec<BothSides> {
    let sides = [
        net_limits(),
        transition_limits(),
        pair_and_label_limits(),
        final_and_log_limits(),
    ];
    let refused = |(within, past, place)| BothSides {
        within,
        past,
        refusal: Refusal {
            number: 2,
            beside: place,
        },
    };
    sides.into_iter().flatten().map(refused).collect()
}

/// A case that reads, one that does not, and the place.
type Layout = (Case, Case, usize);

// Where records of the hub's file begin.
const NT: usize = 0;
const FIRST_TR: usize = 7;
const LAST_TR: usize = 35;
const OB: usize = 42;
const PT: usize = 47;
const FIRST_PX: usize = 54;
const LAST_PX: usize = 61;
const QF: usize = 68;
const LG: usize = 76;

fn net_limits() -> Vec<Layout> {
    let places = |count| changed_hub(|case| case.system.first_tokens.resize(count, 0));
    let cap = |cap| changed_hub(|case| case.system.cap = cap);
    let tokens = |tokens| changed_hub(|case| case.system.first_tokens[2] = tokens);
    let pattern_places = |count| {
        changed_hub(|case| {
            case.pattern.first_tokens.resize(count, 0);
            case.finals[0].resize(count, Bounds { least: 0, most: 1 });
        })
    };
    let pattern_cap = |cap| changed_hub(|case| case.pattern.cap = cap);
    let pattern_tokens = |tokens| changed_hub(|case| case.pattern.first_tokens[2] = tokens);
    let one_place = |case: &mut Case| {
        case.system.first_tokens.truncate(1);
        case.system.transitions.clear();
        case.pattern.first_tokens.truncate(1);
        case.pattern.transitions.clear();
        case.finals[0].truncate(1);
    };
    let no_places = |case: &mut Case| {
        one_place(case);
        case.system.first_tokens.clear();
    };
    let no_pattern_places = |case: &mut Case| {
        one_place(case);
        case.pattern.first_tokens.clear();
        case.finals[0].clear();
    };
    vec![
        (places(16), places(17), NT),
        (cap(15), cap(16), NT),
        (cap(1), cap(0), NT),
        (tokens(1), tokens(2), NT),
        (pattern_places(8), pattern_places(9), PT),
        (pattern_cap(15), pattern_cap(16), PT),
        (pattern_cap(1), pattern_cap(0), PT),
        (pattern_tokens(1), pattern_tokens(2), PT),
        (changed_hub(one_place), changed_hub(no_places), NT),
        // Without its transitions and with one place, the system's part is short.
        (changed_hub(one_place), changed_hub(no_pattern_places), 10),
    ]
}

fn transition_limits() -> Vec<Layout> {
    let plain = arcs(3, &[], &[]);
    let count = |count| changed_hub(|case| case.system.transitions.resize(count, plain.clone()));
    let pattern_count =
        |count| changed_hub(|case| case.pattern.transitions.resize(count, plain.clone()));
    let label = |label| changed_hub(|case| case.system.transitions[4].label = label);
    let pattern_label = |label| changed_hub(|case| case.pattern.transitions[1].label = label);
    let first_48 = FIRST_TR + 5 * 7 + 43 * 5;
    let first_16 = FIRST_PX + 2 * 7 + 14 * 5;
    let mut all = vec![
        (count(48), count(49), first_48),
        // A count of them in one byte would come round.
        (count(0), count(256), first_48),
        (pattern_count(16), pattern_count(17), first_16),
        (pattern_count(0), pattern_count(256), first_16),
        (label(31), label(32), LAST_TR),
        (pattern_label(31), pattern_label(32), LAST_PX),
    ];
    // Each arc list, the record that has it, and the most places there are.
    type Arcs = fn(&mut Case) -> &mut Vec<u8>;
    let lists: [(Arcs, usize, u8); 4] = [
        (|case| &mut case.system.transitions[0].inputs, FIRST_TR, 16),
        (|case| &mut case.system.transitions[0].outputs, FIRST_TR, 16),
        (|case| &mut case.pattern.transitions[0].inputs, FIRST_PX, 8),
        (|case| &mut case.pattern.transitions[0].outputs, FIRST_PX, 8),
    ];
    for (arcs, place, most) in lists {
        let with = |list: &[u8]| changed_hub(|case| *arcs(case) = list.to_vec());
        let full = |count: u8| {
            changed_hub(|case| {
                case.system.first_tokens.resize(16, 0);
                case.pattern.first_tokens.resize(8, 0);
                case.finals[0].resize(8, Bounds { least: 0, most: 1 });
                *arcs(case) = (0..count).collect();
            })
        };
        // NT is longer by 13 places then, and PT, which comes before PX, by 5.
        let moved = if place < PT { 13 } else { 13 + 5 };
        all.extend([
            (with(&[2]), with(&[3]), place),
            (with(&[0, 1, 2]), with(&[0, 1, 2, 3]), place),
            (with(&[0, 2]), with(&[2, 0]), place),
            (with(&[]), with(&[1, 1]), place),
            (full(most), full(most + 1), place + moved),
        ]);
    }
    all
}

fn pair_and_label_limits() -> Vec<Layout> {
    // The hub has 5 transitions; 8 give room for 33 pairs.
    let count = |count| {
        let all = (0..8).flat_map(|higher| (0..8).map(move |lower| pair(higher, lower)));
        with_pairs(8, all.take(count).collect())
    };
    let listed = |list: &[(u8, u8)]| with_pairs(5, pairs(list));
    let observable = |list: Vec<u8>| changed_hub(|case| case.observable = list);
    let nothing_seen = |log: &[u8]| Case {
        observable: vec![],
        ..hub(log)
    };
    // Three more transitions of 5 bytes, then 32 pairs of 4.
    let first_32 = OB + 3 * 5 + 32 * 4;
    // A pair stands where OB does without one.
    let (first_pair, second_pair) = (OB, OB + 4);
    vec![
        (count(32), count(33), first_32),
        (
            listed(&[(0, 4), (1, 0)]),
            listed(&[(1, 0), (0, 4)]),
            second_pair,
        ),
        (
            listed(&[(1, 2), (1, 3)]),
            listed(&[(1, 3), (1, 2)]),
            second_pair,
        ),
        (listed(&[(0, 1)]), listed(&[(0, 1), (0, 1)]), second_pair),
        (listed(&[(4, 4)]), listed(&[(4, 5)]), first_pair),
        (listed(&[(4, 0)]), listed(&[(5, 0)]), first_pair),
        (
            observable((0..32).collect()),
            observable((0..33).collect()),
            OB,
        ),
        (observable(vec![0, 3, 31]), observable(vec![0, 3, 32]), OB),
        (observable(vec![0, 2, 3]), observable(vec![0, 3, 3]), OB),
        (observable(vec![0, 3]), observable(vec![3, 0]), OB),
        // OB is shorter by its two labels.
        (nothing_seen(&[]), nothing_seen(&[3]), LG - 2),
    ]
}

fn final_and_log_limits() -> Vec<Layout> {
    let count = |count| {
        changed_hub(|case| {
            let one = case.finals[0].clone();
            case.finals = vec![one; count];
        })
    };
    let bound = |least, most| changed_hub(|case| case.finals[0][1] = Bounds { least, most });
    vec![
        (count(8), count(9), QF + 8 * 8),
        (count(1), count(0), QF),
        (bound(1, 1), bound(1, 0), QF),
        (bound(0, 1), bound(0, 2), QF),
        (bound(0, 0), bound(255, 255), QF),
        (hub(&[3; 40]), hub(&[3; 41]), LG),
        (hub(&[]), hub(&[2]), LG),
        (hub(&[0, 3, 0]), hub(&[0, 3, 1]), LG),
        // The count comes round to 2, and 256 labels are left where EN is due.
        (hub(&[3; 2]), hub(&[3; 258]), LG + 5),
    ]
}

/// The limits that 3 to 9 ask for: one case is accepted, the other refused.
pub fn of_checks() -> Vec<BothSides> {
    let sides = [
        (3, cycles()),
        (4, pattern_markings()),
        (5, pattern_caps()),
        (6, labels_twice()),
        (7, finals_left()),
        (8, product_markings()),
        (9, system_caps()),
    ];
    let refused = |number: u8| {
        move |(within, past)| BothSides {
            within,
            past,
            refusal: Refusal::plain(number),
        }
    };
    sides
        .into_iter()
        .flat_map(|(number, cases)| cases.into_iter().map(refused(number)))
        .collect()
}

/// H4 with more transitions, which do nothing, and these pairs.
fn with_pairs(transitions: usize, pairs: Vec<Pair>) -> Case {
    changed_hub(|case| {
        case.system
            .transitions
            .resize(transitions, arcs(3, &[], &[]));
        case.pairs = pairs;
    })
}

/// Pairs that link these transitions one after another; if closed, the last with
/// the first too.
fn linked(order: &[u8], closed: bool) -> Vec<Pair> {
    let mut pairs: Vec<Pair> = order.windows(2).map(|two| pair(two[0], two[1])).collect();
    if closed {
        pairs.extend(order.last().map(|last| pair(*last, order[0])));
    }
    pairs.sort();
    pairs
}

fn cycles() -> Vec<(Case, Case)> {
    let mut all = Vec::new();
    // As many pairs on both sides: a chain takes one transition more.
    for length in [1, 2, 3, 32] {
        let orders: [fn(u8) -> Vec<u8>; 4] = [
            |count| (0..count).collect(),
            |count| (0..count).rev().collect(),
            // The highest numbers there are.
            |count| (48 - count..48).collect(),
            // Neither rising nor falling; 5 shares no factor with 32 or 33.
            |count| (0..count).map(|number| number * 5 % count).collect(),
        ];
        for order in orders {
            all.push((
                with_pairs(48, linked(&order(length + 1), false)),
                with_pairs(48, linked(&order(length), true)),
            ));
        }
    }
    // All 28 pairs that go one way among eight; then one that goes back.
    let one_way = (0..8).flat_map(|higher| (higher + 1..8).map(move |lower| pair(higher, lower)));
    let one_way: Vec<Pair> = one_way.collect();
    let back = [one_way.clone(), vec![pair(7, 0)]].concat();
    all.push((with_pairs(8, one_way), with_pairs(8, back)));
    // A way round that is no cycle; then a cycle with a way in and a way out.
    let round = pairs(&[(0, 1), (0, 2), (1, 3), (2, 3)]);
    let ways = pairs(&[(0, 1), (1, 2), (2, 3), (3, 1), (3, 4)]);
    all.push((with_pairs(5, round), with_pairs(5, ways)));
    all
}

/// H4 with this pattern, final once a token has come into place 1.
fn with_pattern(pattern: Net) -> Case {
    changed_hub(|case| {
        let any = Bounds {
            least: 0,
            most: pattern.cap,
        };
        let mut bounds = vec![any; pattern.first_tokens.len()];
        bounds[1].least = 1;
        case.finals = vec![bounds];
        case.pattern = pattern;
    })
}

/// 64 pattern markings and 65, or a few more.
fn pattern_markings() -> Vec<(Case, Case)> {
    let moving = |tokens: &[u8]| with_pattern(moving_over(tokens, 15, 0));
    let gated = |tokens: &[u8]| {
        let mut pattern = moving_over(tokens, 15, 0);
        add_gate(&mut pattern, 9);
        with_pattern(pattern)
    };
    vec![
        (moving(&[7, 7]), gated(&[7, 7])),
        (moving(&[3, 3, 3]), gated(&[3, 3, 3])),
        (moving(&[15, 3]), gated(&[15, 3])),
        (moving(&[1, 1, 3, 3]), moving(&[4, 12])),
        (moving(&[6, 8]), moving(&[5, 10])),
        (gated(&[6, 8]), moving(&[15, 15, 15, 15])),
    ]
}

fn pattern_caps() -> Vec<(Case, Case)> {
    let net = |cap: u8, first_tokens: &[u8], transitions: &[_]| {
        with_pattern(Net {
            cap,
            first_tokens: first_tokens.to_vec(),
            transitions: transitions.to_vec(),
        })
    };
    // The system never shows 30, but the pattern alone fires it.
    let over = |label: u8, met: u8| net(7, &[7, met], &[moves(label, 0, 1)]);
    let two = |full: u8| net(7, &[1, 0, full], &[arcs(0, &[0], &[1, 2])]);
    let full = |inputs: &[u8]| net(15, &[15, 0], &[arcs(0, inputs, &[0])]);
    // 64 markings both times: one past the cap is not reached, so 4 is silent.
    let many = |tokens: u8| net(8, &[tokens, 1, 7, 0], &[moves(0, 0, 1), moves(1, 2, 3)]);
    vec![
        (over(0, 0), over(0, 1)),
        (over(30, 0), over(30, 1)),
        (two(6), two(7)),
        (full(&[0]), full(&[])),
        (many(7), many(8)),
    ]
}

fn labels_twice() -> Vec<(Case, Case)> {
    let more = |more: &[_]| changed_hub(|case| case.pattern.transitions.extend_from_slice(more));
    // 16 transitions, and the last has the label of the first.
    let last = |from: u8| {
        changed_hub(|case| {
            let spare = (16..29).map(|label| arcs(label, &[], &[]));
            case.pattern.transitions.extend(spare);
            case.pattern.transitions.push(moves(2, from, 2));
        })
    };
    vec![
        (more(&[moves(2, 1, 2)]), more(&[moves(2, 0, 2)])),
        // Two that do the same are still two.
        (more(&[moves(2, 2, 2)]), more(&[moves(2, 0, 1)])),
        // The system never shows 13.
        (
            more(&[moves(13, 2, 2)]),
            more(&[moves(13, 2, 2), moves(13, 2, 2)]),
        ),
        (
            more(&[moves(13, 0, 0), moves(13, 1, 1)]),
            more(&[arcs(13, &[], &[]), moves(13, 1, 1)]),
        ),
        (last(1), last(0)),
    ]
}

fn finals_left() -> Vec<(Case, Case)> {
    let more = |to: u8| changed_hub(|case| case.pattern.transitions.push(moves(0, 2, to)));
    // Three to move over: two or three there are final, or two alone.
    let counted = |most: u8| Case {
        pattern: moving_over(&[3], 3, 0),
        finals: vec![bounds(&[(0, 3), (2, most)])],
        ..hub(&[0, 3])
    };
    // From a marking that meets one QF to one that meets another, or none.
    let other = |place: usize| {
        changed_hub(|case| {
            case.pattern.transitions.push(moves(13, 2, 1));
            case.finals.push(bounds(&[(0, 1); 3]));
            case.finals[1][place].least = 1;
        })
    };
    vec![
        (more(2), more(0)),
        (more(2), more(1)),
        (counted(3), counted(2)),
        (other(1), other(2)),
    ]
}

/// 512 product markings and 513, or more.
fn product_markings() -> Vec<(Case, Case)> {
    let quiet = |system: Net, labels: &[u8]| Case {
        system,
        pattern: chain_pattern(labels),
        finals: vec![chain_final(labels.len())],
        observable: vec![],
        ..hub(&[])
    };
    let gated = |mut system: Net| {
        add_gate(&mut system, 9);
        system
    };
    let moving = |tokens: &[u8]| moving_over(tokens, 15, 0);
    // Twice 256 by what the pattern has seen, which it can see at any time.
    let seen = || {
        let mut system = moving(&[15, 15]);
        system.transitions.push(arcs(20, &[], &[]));
        system
    };
    vec![
        (
            quiet(moving(&[7, 7, 7]), &[20]),
            quiet(gated(moving(&[7, 7, 7])), &[20]),
        ),
        (
            quiet(moving(&[15, 15, 1]), &[20]),
            quiet(gated(moving(&[15, 15, 1])), &[20]),
        ),
        (
            quiet(moving(&[3, 3, 3, 7]), &[20]),
            quiet(moving(&[7, 4, 12]), &[20]),
        ),
        (quiet(seen(), &[20]), quiet(gated(seen()), &[20])),
        (
            quiet(moving(&[15, 15]), &[20, 20]),
            quiet(seen(), &[20, 20]),
        ),
        (counter_case(8, &[1]), quiet(moving(&[15; 8]), &[20])),
        (
            priority_counter_case(9, &[1]),
            priority_counter_case(10, &[1]),
        ),
        (all_limits(&[], false), all_limits(&[], true)),
    ]
}

fn system_caps() -> Vec<(Case, Case)> {
    let outputs =
        |list: &[u8]| changed_hub(|case| case.system.transitions[3].outputs = list.to_vec());
    let over = |met: u8| {
        changed_hub(|case| {
            case.system = moving_over(&[7], 7, 0);
            case.system.first_tokens[1] = met;
        })
    };
    let full = |inputs: &[u8]| {
        changed_hub(|case| {
            case.system.first_tokens.push(1);
            case.system.transitions.push(arcs(1, inputs, &[3]));
        })
    };
    // Held back by a priority it is enabled but never firable.
    let held = |list: &[(u8, u8)]| {
        changed_hub(|case| {
            let more = [moves(1, 0, 0), arcs(1, &[0], &[0, 1])];
            case.system.transitions.extend(more);
            case.pairs = pairs(list);
        })
    };
    // 512 markings both times: one past the cap is not reached, so 8 is silent.
    let many = |tokens: u8| Case {
        system: Net {
            first_tokens: vec![tokens, 1, 7, 0, 7, 0],
            ..moving_over(&[7, 7, 7], 8, 0)
        },
        observable: vec![0],
        pattern: chain_pattern(&[20]),
        finals: vec![chain_final(1)],
        ..hub(&[0])
    };
    vec![
        (outputs(&[0]), outputs(&[0, 1])),
        (over(0), over(1)),
        (full(&[3]), full(&[])),
        (full(&[0, 3]), full(&[0])),
        (held(&[(5, 6)]), held(&[])),
        (held(&[(5, 6)]), held(&[(6, 5)])),
        (many(7), many(8)),
    ]
}
