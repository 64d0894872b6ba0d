//! Cases made by hand, which made files, corpora and tests share: the hub case
//! of 01, cases at the limits, counters with long runs, and short ways to build.

use crate::case::{Bounds, Case, Net, Pair, Transition};

pub fn arcs(label: u8, inputs: &[u8], outputs: &[u8]) -> Transition {
    Transition {
        label,
        inputs: inputs.to_vec(),
        outputs: outputs.to_vec(),
    }
}

pub fn moves(label: u8, from: u8, to: u8) -> Transition {
    arcs(label, &[from], &[to])
}

pub fn pair(higher: u8, lower: u8) -> Pair {
    Pair { higher, lower }
}

/// Pairs by (higher, lower), in the order given.
pub fn pairs(list: &[(u8, u8)]) -> Vec<Pair> {
    let each = list.iter().copied();
    each.map(|(higher, lower)| pair(higher, lower)).collect()
}

/// Bounds by (least, most), place by place.
pub fn bounds(list: &[(u8, u8)]) -> Vec<Bounds> {
    let each = list.iter().copied();
    each.map(|(least, most)| Bounds { least, most }).collect()
}

/// The hub case of 01 with this log.
pub fn hub(log: &[u8]) -> Case {
    Case {
        system: Net {
            cap: 1,
            first_tokens: vec![1, 0, 0],
            transitions: vec![
                moves(0, 0, 1),
                moves(1, 1, 0),
                moves(2, 1, 2),
                moves(3, 0, 0),
                moves(3, 2, 2),
            ],
        },
        pairs: Vec::new(),
        observable: vec![0, 3],
        pattern: chain_pattern(&[2, 3]),
        finals: vec![chain_final(2)],
        log: log.to_vec(),
    }
}

/// H4 with a change.
pub fn changed_hub(change: impl FnOnce(&mut Case)) -> Case {
    let mut case = hub(&[0, 3]);
    change(&mut case);
    case
}

/// H1 to H9 of 01's table; H10 to H12 list H4 and H5.
pub fn hub_case(number: u8) -> Case {
    let with_pair = |log: &[u8], higher: u8, lower: u8| Case {
        pairs: vec![pair(higher, lower)],
        ..hub(log)
    };
    match number {
        1 => hub(&[]),
        2 => hub(&[3]),
        3 => hub(&[0]),
        4 => hub(&[0, 3]),
        5 => hub(&[0, 3, 0]),
        6 => with_pair(&[0, 3], 2, 1),
        7 => with_pair(&[0, 3, 0], 2, 1),
        8 => with_pair(&[0, 3], 1, 2),
        9 => Case {
            pattern: chain_pattern(&[2]),
            finals: vec![chain_final(1)],
            ..hub(&[0])
        },
        _ => panic!("H{number} is no case of its own"),
    }
}

/// A pattern that waits for these labels in order, moving one token along.
pub fn chain_pattern(labels: &[u8]) -> Net {
    let places = labels.len() as u8 + 1;
    let first_tokens = (0..places).map(|place| u8::from(place == 0)).collect();
    let along = (0u8..)
        .zip(labels)
        .map(|(place, label)| moves(*label, place, place + 1));
    Net {
        cap: 1,
        first_tokens,
        transitions: along.collect(),
    }
}

/// Final with the token in the last place of a chain of this many labels.
pub fn chain_final(labels: usize) -> Vec<Bounds> {
    let mut bounds = vec![Bounds { least: 0, most: 1 }; labels];
    bounds.push(Bounds { least: 1, most: 1 });
    bounds
}

/// Pairs of places, `tokens` of them in the first of each pair, that move over
/// one by one: a pair with n tokens has n + 1 markings, and the pairs multiply.
pub fn moving_over(tokens: &[u8], cap: u8, first_label: u8) -> Net {
    let first_tokens = tokens.iter().flat_map(|count| [*count, 0]).collect();
    let over = (0u8..)
        .zip(tokens)
        .map(|(pair, _)| moves(first_label + pair, 2 * pair, 2 * pair + 1));
    Net {
        cap,
        first_tokens,
        transitions: over.collect(),
    }
}

/// A gate that must open before anything else fires: one marking more.
pub fn add_gate(net: &mut Net, label: u8) {
    let closed = net.first_tokens.len() as u8;
    let open = closed + 1;
    for one in &mut net.transitions {
        one.inputs.push(open);
        one.outputs.push(open);
    }
    net.first_tokens.extend([1, 0]);
    net.transitions.push(moves(label, closed, open));
}

/// A case whose file is the longest there is. Each firing changes nothing, so
/// one product marking is reachable.
pub fn longest() -> Case {
    let all = |places: u8| (0..places).collect::<Vec<u8>>();
    let full = |places: u8| move |label: u8| arcs(label, &all(places), &all(places));
    Case {
        system: Net {
            cap: 15,
            first_tokens: vec![15; 16],
            transitions: (0..48).map(|number| full(16)(number % 32)).collect(),
        },
        pairs: (0..32).map(|number| pair(number, number + 16)).collect(),
        observable: (0..32).collect(),
        pattern: Net {
            cap: 15,
            first_tokens: vec![15; 8],
            transitions: (0..16).map(full(8)).collect(),
        },
        finals: (0..8)
            .map(|least| vec![Bounds { least, most: 15 }; 8])
            .collect(),
        log: (0..40).map(|number| number % 16).collect(),
    }
}

/// A case at all limits at once: all numbers of records, all caps, a log of 40
/// labels, 64 pattern markings and 512 product markings; with the gate, one
/// product marking more. All labels but the silent ones are observable. The log
/// shows label 0 five times, or seven if 20 and 21 are silent; the pattern is
/// final once it has seen 0 and 1 seven times together.
pub fn all_limits(silent: &[u8], gate: bool) -> Case {
    // Three tokens go to and fro (8 markings); all else changes nothing.
    let to_and_fro = |one: u8| {
        [
            moves(20, 2 * one, 2 * one + 1),
            moves(21, 2 * one + 1, 2 * one),
        ]
    };
    let mut system = Net {
        cap: 15,
        first_tokens: [vec![1, 0, 1, 0, 1, 0], vec![15; 8]].concat(),
        transitions: (0..3).flat_map(to_and_fro).collect(),
    };
    let loops = (0..41).map(|number| moves(number % 20, 6 + number % 8, 6 + number % 8));
    system.transitions.extend(loops);
    if gate {
        add_gate(&mut system, 31);
    } else {
        system.first_tokens.extend([15, 15]);
        system.transitions.push(moves(31, 15, 15));
    }

    let mut pattern = moving_over(&[7, 7], 15, 0);
    pattern.first_tokens.extend([15; 4]);
    let keeps = |label: u8| arcs(label, &[4, 5, 6, 7], &[4, 5, 6, 7]);
    pattern.transitions.extend((2..16).map(keeps));
    let together_seven = |zeros: u8| {
        let mut all = vec![Bounds { least: 0, most: 15 }; 8];
        all[1].least = zeros;
        all[3].least = 7 - zeros;
        all
    };

    let observable: Vec<u8> = (0..32).filter(|label| !silent.contains(label)).collect();
    // Labels of transitions that no pair holds back for ever.
    let shown = [0, 2, 15, 20, 16, 21, 17, 31].into_iter();
    let log = shown.filter(|label| observable.contains(label)).cycle();
    Case {
        system,
        pairs: (8..40).map(|number| pair(number, number + 1)).collect(),
        log: log.take(40).collect(),
        observable,
        pattern,
        finals: (0..8).map(together_seven).collect(),
    }
}

/// A binary counter of this many bits, two places for each, which counts in
/// silence (label 0). Once all bits are set, label 1 clears them; with all bits
/// clear, label 2 can be observed. So each 1 in the log takes 2^bits firings.
pub fn counter_case(bits: u8, log: &[u8]) -> Case {
    let (clear, set) = (|bit: u8| 2 * bit, |bit: u8| 2 * bit + 1);
    let carry = |bit: u8| {
        let inputs: Vec<u8> = (0..bit).map(set).chain([clear(bit)]).collect();
        let outputs: Vec<u8> = (0..bit).map(clear).chain([set(bit)]).collect();
        arcs(0, &inputs, &outputs)
    };
    let all_set: Vec<u8> = (0..bits).map(set).collect();
    let all_clear: Vec<u8> = (0..bits).map(clear).collect();
    let mut transitions: Vec<Transition> = (0..bits).map(carry).collect();
    transitions.push(arcs(1, &all_set, &all_clear));
    transitions.push(arcs(2, &all_clear, &all_clear));
    Case {
        system: Net {
            cap: 1,
            first_tokens: [1, 0].repeat(usize::from(bits)),
            transitions,
        },
        pairs: Vec::new(),
        observable: vec![1, 2],
        pattern: chain_pattern(&[2]),
        finals: vec![chain_final(1)],
        log: log.to_vec(),
    }
}

/// The same counter with one place for each bit, up to 512 markings. Carrying
/// into a bit outranks carrying into the bit below it, which stays enabled, so
/// exactly one transition is firable at a time; label 1 clears all bits.
pub fn priority_counter_case(bits: u8, log: &[u8]) -> Case {
    let below = |bit: u8| (0..bit).collect::<Vec<u8>>();
    let mut transitions: Vec<Transition> =
        (0..bits).map(|bit| arcs(0, &below(bit), &[bit])).collect();
    transitions.push(arcs(1, &below(bits), &[]));
    Case {
        system: Net {
            cap: 1,
            first_tokens: vec![0; usize::from(bits)],
            transitions,
        },
        pairs: (0..bits).map(|bit| pair(bit + 1, bit)).collect(),
        observable: vec![1],
        pattern: chain_pattern(&[2]),
        finals: vec![chain_final(1)],
        log: log.to_vec(),
    }
}

/// All sequences of these numbers up to a length: the shorter ones first, then
/// by the first place where they differ.
pub fn sequences(numbers: &[u8], longest: usize) -> Vec<Vec<u8>> {
    let mut all: Vec<Vec<u8>> = vec![vec![]];
    let mut of_one_length = 0..1;
    for _ in 0..longest {
        for at in of_one_length.clone() {
            let longer = numbers
                .iter()
                .map(|last| [all[at].as_slice(), &[*last]].concat());
            let longer: Vec<Vec<u8>> = longer.collect();
            all.extend(longer);
        }
        of_one_length = of_one_length.end..all.len();
    }
    all
}
