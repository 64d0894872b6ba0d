//! Cases for two places in a byte (02, W-205): 15 tokens beside none, in the two
//! halves of a byte, on both sides of where a byte or a word ends, and where the
//! system's places end and the pattern's begin; firings that bring a place to 15
//! tokens, and ones that would bring it to 16. Both caps are 15.

use super::sides::BothSides;
use crate::case::{Bounds, Case, Net, Transition, MOST_CAP};
use crate::known::{arcs, moves};
use crate::Refusal;

const FULL: u8 = MOST_CAP;
const SYSTEM_PLACES: u8 = 16;
const PATTERN_PLACES: u8 = 8;
const LAST: u8 = SYSTEM_PLACES - 1;

/// Neighbours: in a byte, in two bytes, in two words of four bytes, and the last.
const IN_SYSTEM: [(u8, u8); 4] = [(0, 1), (1, 2), (7, 8), (14, 15)];
const IN_PATTERN: [(u8, u8); 3] = [(0, 1), (1, 2), (6, 7)];

/// Two neighbours of one net, one full and the other empty; and what all other
/// places of the net hold that have no part of their own: nothing or 15.
#[derive(Clone, Copy, Debug)]
struct Beside {
    full: u8,
    empty: u8,
    rest: u8,
}

/// Each of the two neighbours full, and both rests.
fn besides(neighbours: &[(u8, u8)]) -> Vec<Beside> {
    let turned = |(one, other): &(u8, u8)| [(*one, *other), (*other, *one)];
    let with_rest = |(full, empty): (u8, u8)| [0, FULL].map(|rest| Beside { full, empty, rest });
    let ways = neighbours.iter().flat_map(turned);
    ways.flat_map(with_rest).collect()
}

/// The first tokens of this many places: what is listed, and the rest.
fn tokens(places: u8, rest: u8, listed: &[(u8, u8)]) -> Vec<u8> {
    let mut all = vec![rest; usize::from(places)];
    for (place, count) in listed {
        all[usize::from(*place)] = *count;
    }
    all
}

fn net(first_tokens: Vec<u8>, transitions: &[Transition]) -> Net {
    Net {
        cap: MOST_CAP,
        first_tokens,
        transitions: transitions.to_vec(),
    }
}

/// Final with these bounds, and any count in all other places.
fn finals(places: u8, listed: &[(u8, u8, u8)]) -> Vec<Vec<Bounds>> {
    let any = Bounds {
        least: 0,
        most: MOST_CAP,
    };
    let mut all = vec![any; usize::from(places)];
    for (place, least, most) in listed {
        all[usize::from(*place)] = Bounds {
            least: *least,
            most: *most,
        };
    }
    vec![all]
}

/// This system with a pattern that waits for label 2, the rest of whose places
/// hold what the system's do not.
fn of_system(first_tokens: Vec<u8>, transitions: &[Transition], rest: u8) -> Case {
    let (waits, seen) = (3, 4);
    let listed = [(waits, 1), (seen, 0)];
    Case {
        system: net(first_tokens, transitions),
        pairs: vec![],
        observable: vec![],
        pattern: net(
            tokens(PATTERN_PLACES, FULL - rest, &listed),
            &[moves(2, waits, seen)],
        ),
        finals: finals(PATTERN_PLACES, &[(seen, 1, 1)]),
        log: vec![],
    }
}

/// This pattern with a system that can show 0 and 1 at any time, the rest of whose
/// places hold what the pattern's do not.
fn of_pattern(
    first_tokens: Vec<u8>,
    transitions: &[Transition],
    bounds: &[(u8, u8, u8)],
    rest: u8,
) -> Case {
    let places = first_tokens.len() as u8;
    Case {
        system: net(
            tokens(SYSTEM_PLACES, FULL - rest, &[(6, FULL)]),
            &[moves(0, 6, 6), moves(1, 6, 6)],
        ),
        pairs: vec![],
        observable: vec![],
        pattern: net(first_tokens, transitions),
        finals: finals(places, bounds),
        log: vec![],
    }
}

/// The same net with each of these: the observable labels and a log.
fn asked(case: &Case, questions: &[(&[u8], Vec<u8>)]) -> Vec<Case> {
    let with = |(observable, log): &(&[u8], Vec<u8>)| Case {
        observable: observable.to_vec(),
        log: log.clone(),
        ..case.clone()
    };
    questions.iter().map(with).collect()
}

/// So many of each label, one after the other.
fn times(parts: &[(usize, u8)]) -> Vec<u8> {
    let each = parts.iter().map(|(count, label)| vec![*label; *count]);
    each.collect::<Vec<_>>().concat()
}

pub fn cases() -> Vec<Case> {
    let mut all = Vec::new();
    all.extend(besides(&IN_SYSTEM).into_iter().flat_map(system_moves));
    all.extend(besides(&IN_PATTERN).into_iter().flat_map(pattern_moves));
    all.extend([0, FULL].into_iter().flat_map(system_beside_pattern));
    all.extend(half_used());
    all.extend(orders());
    all.extend(sides().into_iter().flat_map(BothSides::cases));
    all
}

/// 15 tokens go over one by one, and back. What needs a token of the one place or
/// the other can fire as long as there is one.
fn system_moves(Beside { full, empty, rest }: Beside) -> Vec<Case> {
    let over_and_back = [
        moves(0, full, empty),
        moves(1, empty, full),
        moves(2, empty, empty),
        moves(3, full, full),
    ];
    let first_tokens = tokens(SYSTEM_PLACES, rest, &[(full, FULL), (empty, 0)]);
    let case = of_system(first_tokens, &over_and_back, rest);
    asked(
        &case,
        &[
            // One has to go over unseen before 2.
            (&[2, 3], vec![2]),
            (&[2, 3], vec![3, 2, 3]),
            // All, with 2 in silence or not; one more than there are; and back.
            (&[0, 1], vec![0; 15]),
            (&[0, 1], vec![0; 16]),
            (&[0, 1], times(&[(15, 0), (15, 1)])),
            // 3 can fire up to the last token, and not after it.
            (&[0, 3], times(&[(14, 0), (1, 3)])),
            (&[0, 3], times(&[(15, 0), (1, 3)])),
        ],
    )
}

fn pattern_moves(Beside { full, empty, rest }: Beside) -> Vec<Case> {
    let (gate, seen) = far_in_pattern(full);
    // 15 tokens go over one by one, and then it is final.
    let over = of_pattern(
        tokens(PATTERN_PLACES, rest, &[(full, FULL), (empty, 0)]),
        &[moves(0, full, empty)],
        &[(full, 0, 0), (empty, FULL, FULL)],
        rest,
    );
    // One goes over, and then 1 is followed, which is not before.
    let one = of_pattern(
        tokens(
            PATTERN_PLACES,
            rest,
            &[(full, FULL), (empty, 0), (gate, 1), (seen, 0)],
        ),
        &[
            arcs(0, &rising([full, gate]), &[empty]),
            moves(1, empty, seen),
        ],
        &[(seen, 1, 1)],
        rest,
    );
    let mut all = asked(
        &over,
        &[
            (&[0], vec![0; 14]),
            (&[0], vec![0; 15]),
            (&[0], vec![0; 16]),
            (&[1], vec![]),
        ],
    );
    all.extend(asked(
        &one,
        &[
            (&[0, 1], vec![1]),
            (&[0, 1], vec![1, 0]),
            (&[0, 1], vec![1, 0, 1]),
            (&[1], vec![1, 1]),
        ],
    ));
    all
}

/// The system's last place beside the pattern's first: one fills up while the other
/// is emptied, or stays full or empty.
fn system_beside_pattern(rest: u8) -> Vec<Case> {
    let (far, far_in_pattern) = (7, 4);
    let mut all = Vec::new();
    for filled in [false, true] {
        let (from, to) = if filled { (far, LAST) } else { (LAST, far) };
        let system = net(
            tokens(SYSTEM_PLACES, rest, &[(from, FULL), (to, 0)]),
            &[moves(0, from, to), moves(1, to, from)],
        );
        let pattern = |from: u8, to: u8, transitions: &[Transition], bound| Case {
            system: system.clone(),
            pairs: vec![],
            observable: vec![],
            pattern: net(
                tokens(PATTERN_PLACES, rest, &[(from, FULL), (to, 0)]),
                transitions,
            ),
            finals: finals(PATTERN_PLACES, &[bound]),
            log: vec![],
        };
        let emptied = pattern(0, far_in_pattern, &[moves(0, 0, far_in_pattern)], (0, 0, 0));
        let filled = pattern(
            far_in_pattern,
            0,
            &[moves(0, far_in_pattern, 0)],
            (0, FULL, FULL),
        );
        let [full, empty] = [(0, 1), (1, 0)].map(|(from, to)| pattern(from, to, &[], (0, 1, FULL)));
        for case in [emptied, filled] {
            all.extend(asked(
                &case,
                &[
                    (&[0], vec![0; 14]),
                    (&[0], vec![0; 15]),
                    (&[1], vec![]),
                    (&[0, 1], times(&[(15, 0), (15, 1)])),
                ],
            ));
        }
        for case in [full, empty] {
            all.extend(asked(
                &case,
                &[(&[0], vec![0; 15]), (&[0, 1], times(&[(15, 0), (15, 1)]))],
            ));
        }
    }
    all
}

/// Odd counts of places, so that of the last byte one half is used; and one place.
fn half_used() -> Vec<Case> {
    let mut all = Vec::new();
    for (from, to) in [(13, 14), (14, 13)] {
        let first_tokens = tokens(15, 0, &[(from, FULL), (to, 0)]);
        let case = Case {
            pattern: net(
                tokens(7, FULL, &[(from - 8, FULL), (to - 8, 0)]),
                &[moves(0, from - 8, to - 8)],
            ),
            finals: finals(7, &[(to - 8, FULL, FULL)]),
            ..of_system(first_tokens, &[moves(0, from, to), moves(1, to, from)], 0)
        };
        all.extend(asked(
            &case,
            &[
                (&[0], vec![0; 15]),
                (&[0, 1], times(&[(15, 0), (15, 1), (1, 0)])),
            ],
        ));
    }
    let one_place = Case {
        pattern: net(vec![FULL], &[arcs(0, &[0], &[])]),
        finals: finals(1, &[(0, 0, 0)]),
        ..of_system(vec![FULL], &[arcs(0, &[0], &[]), moves(1, 0, 0)], 0)
    };
    all.extend(asked(
        &one_place,
        &[
            (&[0, 1], times(&[(14, 0), (1, 1)])),
            (&[0, 1], times(&[(14, 0), (1, 1), (1, 0)])),
            (&[0, 1], times(&[(15, 0), (1, 1)])),
        ],
    ));
    all
}

/// Counts that go through all values in high and in low halves, with one another
/// and against one another, so that many rows are to be put in order.
fn orders() -> Vec<Case> {
    let pairs_of_places = [
        [(0, 1), (2, 3)],
        [(1, 0), (3, 2)],
        [(1, 2), (15, 0)],
        [(7, 8), (14, 15)],
        [(15, 3), (4, 12)],
    ];
    let four = |[(one, other), (second, fourth)]: [(u8, u8); 2]| {
        let listed = [(one, FULL), (other, 0), (second, FULL), (fourth, 0)];
        let transitions = [
            moves(0, one, other),
            moves(1, second, fourth),
            moves(2, second, second),
        ];
        Case {
            observable: vec![1, 2],
            log: vec![1, 2, 1],
            ..of_system(tokens(SYSTEM_PLACES, 0, &listed), &transitions, 0)
        }
    };
    pairs_of_places.into_iter().map(four).collect()
}

/// A place that comes to 15 tokens, and one that would come to 16: refusal 9 for
/// the system, and 5 for the pattern.
pub fn sides() -> Vec<BothSides> {
    let mut all = Vec::new();
    for beside in besides(&IN_SYSTEM) {
        let feed = (beside.full + 8) % SYSTEM_PLACES;
        all.extend(fillings(beside, feed).map(|(within, past, one)| {
            let with = |listed: [(u8, u8); 3]| Case {
                observable: vec![0],
                log: vec![0, 0],
                ..of_system(
                    tokens(SYSTEM_PLACES, beside.rest, &listed),
                    std::slice::from_ref(&one),
                    beside.rest,
                )
            };
            both_sides(9, with(within), with(past))
        }));
    }
    for beside in besides(&IN_PATTERN) {
        let (feed, _) = far_in_pattern(beside.full);
        all.extend(fillings(beside, feed).map(|(within, past, one)| {
            let with = |listed: [(u8, u8); 3]| Case {
                observable: vec![0],
                log: vec![0, 0],
                ..of_pattern(
                    tokens(PATTERN_PLACES, beside.rest, &listed),
                    std::slice::from_ref(&one),
                    &[(beside.full, FULL, FULL)],
                    beside.rest,
                )
            };
            both_sides(5, with(within), with(past))
        }));
    }
    for other in [0, FULL] {
        all.extend(sides_of_the_last_and_the_first(other));
    }
    all
}

fn both_sides(number: u8, within: Case, past: Case) -> BothSides {
    BothSides {
        within,
        past,
        refusal: Refusal::plain(number),
    }
}

/// What three places hold, on both sides of the cap, and the transition that fires.
type Filling = ([(u8, u8); 3], [(u8, u8); 3], Transition);

/// The one that is called full comes to the cap from 13, alone or together with its
/// neighbour; or it is there and stays, while its neighbour comes to it.
fn fillings(Beside { full, empty, .. }: Beside, feed: u8) -> [Filling; 3] {
    let holding =
        |full_tokens, empty_tokens, fed| [(full, full_tokens), (empty, empty_tokens), (feed, fed)];
    [
        (holding(13, 0, 2), holding(13, 0, 3), moves(0, feed, full)),
        (
            holding(13, 0, 2),
            holding(14, 0, 2),
            arcs(0, &[feed], &rising([full, empty])),
        ),
        (
            holding(15, 13, 2),
            holding(15, 14, 2),
            arcs(0, &rising([full, feed]), &rising([full, empty])),
        ),
    ]
}

/// The system's last place is filled up beside a pattern whose first place holds
/// nothing or 15, and the other way round.
fn sides_of_the_last_and_the_first(other: u8) -> [BothSides; 2] {
    let system = |fed: u8| {
        let first_tokens = tokens(SYSTEM_PLACES, 0, &[(LAST, 13), (7, fed)]);
        Case {
            observable: vec![0],
            log: vec![0, 0],
            ..of_system(first_tokens, &[moves(0, 7, LAST)], FULL - other)
        }
    };
    let pattern = |fed: u8| {
        let first_tokens = tokens(PATTERN_PLACES, 0, &[(0, 13), (4, fed)]);
        Case {
            observable: vec![0],
            log: vec![0, 0],
            ..of_pattern(
                first_tokens,
                &[moves(0, 4, 0)],
                &[(0, FULL, FULL)],
                FULL - other,
            )
        }
    };
    [
        both_sides(9, system(2), system(3)),
        both_sides(5, pattern(2), pattern(3)),
    ]
}

/// Two places of the pattern that are no neighbours of this one.
fn far_in_pattern(place: u8) -> (u8, u8) {
    ((place + 4) % PATTERN_PLACES, (place + 5) % PATTERN_PLACES)
}

fn rising(mut places: [u8; 2]) -> [u8; 2] {
    places.sort();
    places
}
