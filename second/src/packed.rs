//! A product marking as it is stored (02, W-205): no count of tokens passes 15, so
//! two places go into a byte, and a marking into 12 bytes instead of 24.

use crate::case::{MOST_PATTERN_PLACES, MOST_SYSTEM_PLACES};
use crate::checks::Product;
use crate::net::ProductMarking;
use crate::Slips;

/// The places of both nets, whether or not a case has them all.
pub const PLACES: usize = MOST_SYSTEM_PLACES as usize + MOST_PATTERN_PLACES as usize;
pub const PACKED: usize = PLACES / 2;

/// A byte for each place: 16 of the system, then 8 of the pattern, with zeros for
/// places that the case has not.
pub fn wide(marking: &ProductMarking) -> [u8; PLACES] {
    let mut bytes = [0; PLACES];
    let (system, pattern) = bytes.split_at_mut(usize::from(MOST_SYSTEM_PLACES));
    for (net, places) in [(&marking.system, system), (&marking.pattern, pattern)] {
        for (place, tokens) in places.iter_mut().zip(net) {
            *place = u8::try_from(*tokens).expect("no count passes 15");
        }
    }
    bytes
}

/// Byte i holds place 2i in its high four bits and place 2i + 1 in its low four.
pub fn halved(wide: &[u8; PLACES], slips: &Slips) -> [u8; PACKED] {
    std::array::from_fn(|byte| {
        let (even, odd) = (wide[2 * byte], wide[2 * byte + 1]);
        assert!(even < 16 && odd < 16, "a half holds 15 at most");
        if slips.halves_swapped {
            odd << 4 | even
        } else {
            even << 4 | odd
        }
    })
}

/// The reachable product markings, packed, in ascending order of their bytes.
pub fn table(product: &Product, slips: &Slips) -> Vec<u8> {
    let row = |marking: &ProductMarking| halved(&wide(marking), slips);
    let mut rows: Vec<_> = product.markings.iter().map(row).collect();
    rows.sort();
    rows.concat()
}
