//! Two places in a byte: the order of packed markings, and the cases that the corpus
//! has for them.

mod common;
use common::*;

use second::case;
use second::corpus::halves;
use second::net::ProductMarking;
use second::{checks, packed, Slips};

fn halved(wide: &[u8; 24]) -> [u8; 12] {
    packed::halved(wide, &Slips::default())
}

/// Counts of tokens at random, often 0 and often 15.
fn some_tokens(noise: &mut Noise) -> [u8; 24] {
    std::array::from_fn(|_| match noise.under(4) {
        0 => 0,
        1 => 15,
        _ => noise.under(16) as u8,
    })
}

#[test]
fn a_byte_holds_an_even_place_high_and_the_next_low() {
    let rising: [u8; 24] = std::array::from_fn(|place| place as u8 % 16);
    let expected = [
        0x01, 0x23, 0x45, 0x67, 0x89, 0xAB, 0xCD, 0xEF, 0x01, 0x23, 0x45, 0x67,
    ];
    assert_eq!(halved(&rising), expected);
    // Places that a case has not are empty: the system's last ones, the pattern's.
    let few = ProductMarking {
        system: vec![15, 0, 7],
        pattern: vec![9],
    };
    let expected = [0xF0, 0x70, 0, 0, 0, 0, 0, 0, 0x90, 0, 0, 0];
    assert_eq!(halved(&packed::wide(&few)), expected);
}

/// Taken apart again, each packed marking is the one it was made of.
#[test]
fn no_two_markings_are_packed_alike() {
    let mut noise = Noise(205);
    for _ in 0..10_000 {
        let wide = some_tokens(&mut noise);
        let halves = halved(&wide).map(|byte| [byte / 16, byte % 16]);
        assert_eq!(halves.as_flattened(), wide);
    }
}

#[test]
fn the_order_of_packed_bytes_is_that_of_the_places() {
    let mut noise = Noise(512);
    for _ in 0..10_000 {
        let one = some_tokens(&mut noise);
        // At random, or the same but for one place, or but for two neighbours.
        let mut other = some_tokens(&mut noise);
        let at = noise.under(24) as usize;
        match noise.under(4) {
            0 => {}
            1 => {
                let count = other[at];
                other = one;
                other[at] = count;
            }
            _ => {
                let next = (at + 1).min(23);
                let counts = [other[at], other[next]];
                other = one;
                [other[at], other[next]] = counts;
            }
        }
        assert_eq!(halved(&one).cmp(&halved(&other)), one.cmp(&other));
    }
    // Every two counts in one byte, and on both sides of a byte's end.
    for at in [0, 1, 7, 14, 15, 16, 22] {
        for (first, second) in (0..=255).map(|both| (both / 16, both % 16)) {
            let mut one = [0; 24];
            one[at..at + 2].copy_from_slice(&[first, second]);
            for (first, second) in (0..=255).map(|both| (both / 16, both % 16)) {
                let mut other = [0; 24];
                other[at..at + 2].copy_from_slice(&[first, second]);
                assert_eq!(halved(&one).cmp(&halved(&other)), one.cmp(&other));
            }
        }
    }
}

#[test]
fn both_sides_of_fifteen() {
    for side in halves::sides() {
        assert!(checks(&side.within).is_ok(), "{:?}", side.within);
        assert_eq!(checks(&side.past), Err(side.refusal), "{:?}", side.past);
    }
    let count = |number: u8| {
        let sides = halves::sides();
        sides
            .iter()
            .filter(|side| side.refusal.number == number)
            .count()
    };
    assert_eq!([count(9), count(5)], [16 * 3 + 2, 12 * 3 + 2]);
}

/// Each of these neighbours is met as 15 beside 0 and as 0 beside 15, in a first
/// marking and in one that firings lead to.
#[test]
fn fifteen_beside_none() {
    let mut first = Vec::new();
    let mut reached = Vec::new();
    for case in halves::cases() {
        let Ok((_, product)) = checks::up_to_nine(&case::bytes(&case), &Slips::default()) else {
            continue;
        };
        let mut rows = product.markings.iter().map(packed::wide);
        first.extend(rows.next());
        reached.extend(rows);
    }
    for at in [0, 1, 7, 14, 15, 16, 17, 22] {
        for beside in [[0, 15], [15, 0]] {
            let has = |row: &[u8; 24]| row[at..at + 2] == beside;
            assert!(first.iter().any(has), "{at}");
            assert!(reached.iter().any(has), "{at}");
        }
    }
}
