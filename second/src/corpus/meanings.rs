//! Small cases for the points of 01's meaning where a program could slip: each
//! has an answer of its own if the point is missed.

use crate::case::{Case, Net, Transition};
use crate::known::{arcs, bounds, chain_final, chain_pattern, hub, moves, pairs};

/// Two places, the first with these tokens, cap 2; a pattern that waits for
/// label 9; labels 0 to 2 are observable.
fn two_places(tokens: u8, transitions: &[Transition], log: &[u8]) -> Case {
    Case {
        system: Net {
            cap: 2,
            first_tokens: vec![tokens, 0],
            transitions: transitions.to_vec(),
        },
        pairs: vec![],
        observable: vec![0, 1, 2],
        pattern: chain_pattern(&[9]),
        finals: vec![chain_final(1)],
        log: log.to_vec(),
    }
}

fn with_pairs(list: &[(u8, u8)], case: Case) -> Case {
    Case {
        pairs: pairs(list),
        ..case
    }
}

pub fn cases() -> Vec<Case> {
    [priorities(), markings(), patterns(), finals(), orders()].concat()
}

fn priorities() -> Vec<Case> {
    // The lower two lead to other markings, so that the count of these tells too.
    let three = |middle: u8, log: &[u8]| {
        let transitions = [moves(0, 0, 0), moves(1, middle, 1), arcs(2, &[0], &[])];
        with_pairs(&[(0, 1), (1, 2)], two_places(1, &transitions, log))
    };
    // The middle one is enabled, though not firable, and holds the lowest back.
    let held = [&[0][..], &[1], &[2]].map(|log| three(0, log));
    // With the middle one not enabled no pair is added: the lowest is firable.
    let freed = [&[0][..], &[1], &[2], &[0, 2, 0]].map(|log| three(1, log));
    // A longer chain of enabled ones: all but the highest are held back.
    let keeps: Vec<Transition> = (0..6).map(|number| moves(number % 3, 0, 0)).collect();
    let chain: Vec<(u8, u8)> = (0..5).map(|number| (number, number + 1)).collect();
    let longer = [&[0][..], &[1], &[2]].map(|log| with_pairs(&chain, two_places(1, &keeps, log)));
    // A higher one that is never enabled, and one that is only at first.
    let never = with_pairs(
        &[(1, 0)],
        two_places(1, &[moves(0, 0, 0), moves(1, 1, 1)], &[0, 0]),
    );
    let at_first = [moves(0, 0, 0), moves(1, 0, 1), moves(0, 1, 1)];
    let at_first =
        [&[0, 1][..], &[1, 0]].map(|log| with_pairs(&[(1, 0)], two_places(1, &at_first, log)));
    // Of two higher ones, one that is enabled is enough.
    let either = [moves(0, 0, 0), moves(1, 1, 1), moves(2, 0, 1)];
    let either = [&[(0, 2)][..], &[(1, 2)], &[(0, 2), (1, 2)]]
        .map(|pairs| with_pairs(pairs, two_places(1, &either, &[2, 1])));
    // The higher one has a greater number, and both show the same label.
    let same_label = with_pairs(
        &[(1, 0)],
        two_places(1, &[moves(0, 0, 0), moves(0, 0, 1)], &[0]),
    );
    let mut all = vec![never, same_label];
    all.extend(held.into_iter().chain(freed).chain(longer));
    all.extend(at_first.into_iter().chain(either));
    all
}

fn markings() -> Vec<Case> {
    let takes = [arcs(0, &[0], &[])];
    let puts = [arcs(0, &[], &[0])];
    let neither = [arcs(0, &[], &[])];
    // A second one, to be put over the first: it holds it back while a token is
    // there, or takes the token away again.
    let [held, in_turn] = [moves(1, 0, 0), arcs(1, &[0], &[])].map(|one| [puts[0].clone(), one]);
    let one_each = [arcs(0, &[0, 1], &[0]), moves(1, 0, 1)];
    vec![
        // Two tokens in an input place are taken one by one.
        two_places(2, &takes, &[0, 0]),
        two_places(2, &takes, &[0, 0, 0]),
        two_places(1, &takes, &[0, 0]),
        two_places(2, &[moves(0, 0, 1), moves(1, 1, 0)], &[0, 0, 1, 1, 0]),
        // No inputs: always enabled, and in the end past the cap.
        two_places(0, &puts, &[0]),
        two_places(2, &puts, &[]),
        with_pairs(&[(1, 0)], two_places(0, &held, &[0, 1])),
        with_pairs(&[(1, 0)], two_places(0, &held, &[0, 0])),
        with_pairs(&[(1, 0)], two_places(0, &in_turn, &[0, 1, 0, 1])),
        with_pairs(&[(1, 0)], two_places(2, &in_turn, &[1, 1, 0, 1])),
        // Neither inputs nor outputs.
        two_places(0, &neither, &[0, 0, 0]),
        two_places(2, &neither, &[0]),
        // Input and output at the cap, which keeps its count; and without a token.
        two_places(2, &[moves(0, 0, 0)], &[0, 0]),
        two_places(2, &[moves(0, 1, 1)], &[0]),
        two_places(2, &[arcs(0, &[0], &[0, 1]), arcs(1, &[1], &[])], &[0]),
        // Each of two inputs is needed.
        two_places(2, &one_each, &[1, 0]),
        two_places(2, &one_each, &[0]),
        // No transitions at all.
        two_places(1, &[], &[]),
        two_places(1, &[], &[0]),
    ]
}

/// One place and three loops on it, labels 0 to 2, with this pattern: final with
/// a token in the last place.
fn looped(first_tokens: &[u8], transitions: &[Transition], log: &[u8]) -> Case {
    let loops = [moves(0, 0, 0), moves(1, 0, 0), moves(2, 0, 0)];
    let mut last = bounds(&vec![(0, 2); first_tokens.len()]);
    last[first_tokens.len() - 1].least = 1;
    Case {
        pattern: Net {
            cap: 2,
            first_tokens: first_tokens.to_vec(),
            transitions: transitions.to_vec(),
        },
        finals: vec![last],
        ..two_places(1, &loops, log)
    }
}

fn patterns() -> Vec<Case> {
    let mut all = Vec::new();
    // It has to follow label 0 into a dead end, and then 1 is not followed.
    let dead_end = [moves(0, 0, 1), moves(1, 0, 2)];
    // It can go back before it is final.
    let goes_back = [moves(0, 0, 1), moves(1, 1, 0), moves(2, 1, 2)];
    // It branches, and both branches end in the last place.
    let branches = [
        moves(0, 0, 1),
        moves(1, 0, 2),
        moves(2, 1, 3),
        moves(0, 2, 3),
    ];
    let logs: [&[u8]; 7] = [&[], &[0], &[1], &[0, 1], &[1, 0], &[0, 2], &[0, 1, 0, 2]];
    for log in logs {
        all.push(looped(&[1, 0, 0], &dead_end, log));
        all.push(looped(&[1, 0, 0], &goes_back, log));
        all.push(looped(&[1, 0, 0, 0], &branches, log));
        // Two tokens, which have to come over both.
        let mut both = looped(&[2, 0], &[moves(0, 0, 1)], log);
        both.finals[0][1].least = 2;
        all.push(both);
    }
    // What it follows may be silent: the same with label 0 unseen.
    let unseen = looped(&[1, 0, 0], &goes_back, &[]);
    for log in [&[][..], &[1], &[2], &[1, 2], &[2, 1]] {
        all.push(Case {
            observable: vec![1, 2],
            log: log.to_vec(),
            ..unseen.clone()
        });
    }
    // No transitions; labels that the system never shows.
    all.push(looped(&[0, 0], &[], &[0]));
    all.push(looped(&[0, 1], &[], &[0]));
    all.push(looped(&[1, 0], &[moves(31, 0, 1)], &[0, 1]));
    all.push(looped(
        &[1, 0, 0],
        &[moves(0, 0, 1), moves(31, 1, 2)],
        &[0, 0],
    ));
    // No inputs (past the cap), no outputs, neither.
    all.push(looped(&[0, 0], &[arcs(31, &[], &[1])], &[]));
    for log in [&[0][..], &[0, 0]] {
        all.push(Case {
            finals: vec![bounds(&[(0, 0), (0, 2)])],
            ..looped(&[2, 0], &[arcs(0, &[0], &[])], log)
        });
    }
    all.push(looped(&[0, 0], &[arcs(0, &[], &[])], &[0]));
    // Input and output at the cap.
    all.push(looped(&[2, 0], &[arcs(0, &[0], &[0])], &[0, 0]));
    all
}

fn finals() -> Vec<Case> {
    let counted = |finals: &[(u8, u8)], log: &[u8]| Case {
        finals: finals.iter().map(|one| bounds(&[(0, 2), *one])).collect(),
        ..looped(&[2, 0], &[moves(0, 0, 1)], log)
    };
    let mut all = Vec::new();
    for log in [&[][..], &[0], &[0, 0], &[0, 0, 0]] {
        // One QF is enough, but all of its bounds are needed.
        all.push(counted(&[(1, 2)], log));
        all.push(counted(&[(2, 2)], log));
        all.push(counted(&[(1, 1), (2, 2)], log));
        all.push(counted(&[(0, 0), (1, 2)], log));
        all.push(Case {
            finals: vec![bounds(&[(0, 0), (2, 2)]), bounds(&[(2, 2), (2, 2)])],
            ..counted(&[], log)
        });
    }
    all
}

/// Which run is the first: shorter ones before smaller numbers, and the first
/// matching run may be the longer or the shorter of the two.
fn orders() -> Vec<Case> {
    let net = |places: usize, transitions: &[Transition]| Net {
        cap: 1,
        first_tokens: (0..places).map(|place| u8::from(place == 0)).collect(),
        transitions: transitions.to_vec(),
    };
    // Label 0 comes at once and the pattern follows; or after a silent 5, which
    // leads the pattern into a dead end: the matching run is the shorter.
    let shorter = [moves(5, 0, 1), moves(0, 1, 2), moves(0, 0, 3)];
    // The pattern waits for a silent 5 that comes before 0 or after it: the
    // matching run is the longer.
    let longer = [
        moves(0, 0, 1),
        moves(5, 0, 2),
        moves(0, 2, 3),
        moves(5, 1, 3),
    ];
    let with_dead_end = |system: Net| Case {
        system,
        observable: vec![0],
        pattern: net(3, &[moves(0, 0, 1), moves(5, 0, 2)]),
        finals: vec![bounds(&[(0, 1), (1, 1), (0, 1)])],
        ..hub(&[0])
    };
    let waiting = |system: Net, log: &[u8]| Case {
        system,
        observable: vec![0],
        pattern: chain_pattern(&[5]),
        finals: vec![chain_final(1)],
        ..hub(log)
    };
    // Smaller numbers lead the longer way round, and to the same end.
    let round = [
        moves(1, 0, 1),
        moves(1, 1, 2),
        moves(0, 2, 4),
        moves(1, 0, 3),
        moves(0, 3, 4),
    ];
    // Two ways of one length: the one whose first number is smaller has the
    // greater second one.
    let same_length = [
        moves(5, 1, 3),
        moves(1, 0, 2),
        moves(1, 0, 1),
        moves(5, 2, 3),
        moves(0, 3, 3),
    ];
    // Matching only through many silent firings after the last line.
    let tail: Vec<Transition> = [moves(0, 0, 1)]
        .into_iter()
        .chain((1..7).map(|place| moves(1, place, place + 1)))
        .chain([moves(5, 7, 7)])
        .collect();
    vec![
        with_dead_end(net(4, &shorter)),
        waiting(net(4, &longer), &[0]),
        waiting(net(5, &round), &[0]),
        waiting(net(4, &same_length), &[]),
        waiting(net(4, &same_length), &[0]),
        waiting(net(4, &same_length), &[0, 0]),
        waiting(net(8, &tail), &[0]),
    ]
}
