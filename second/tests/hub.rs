//! The hub case of 01: its bytes, and the table H1 to H12.

mod common;
use common::*;

use second::case;
use second::known::{bounds, hub, hub_case};

const HUB_FILE: &[u8] = b"NT\x03\x01\x01\x00\x00\
    TR\x00\x01\x00\x01\x01TR\x01\x01\x01\x01\x00TR\x02\x01\x01\x01\x02TR\x03\x01\x00\x01\x00TR\x03\x01\x02\x01\x02\
    OB\x02\x00\x03\
    PT\x03\x01\x01\x00\x00PX\x02\x01\x00\x01\x01PX\x03\x01\x01\x01\x02QF\x00\x01\x00\x01\x01\x01\
    LG\x02\x00\x03EN";

#[test]
fn the_file_has_83_bytes() {
    assert_eq!(HUB_FILE.len(), 83);
    assert_eq!(case::bytes(&hub(&[0, 3])), HUB_FILE);
    assert_eq!(case::read(HUB_FILE), Ok(hub(&[0, 3])));
    assert_eq!(case::write(&hub(&[0, 3]), 83), Ok(HUB_FILE.to_vec()));
}

#[test]
fn h1_to_h5_logs() {
    assert_eq!(verdict(&hub_case(1)), safe(&[]));
    assert_eq!(verdict(&hub_case(2)), safe(&[3]));
    assert_eq!(verdict(&hub_case(3)), safe(&[0]));
    assert_eq!(verdict(&hub_case(4)), ambiguous(&[0, 2, 4], &[0, 1, 3]));
    assert_eq!(verdict(&hub_case(5)), safe(&[0, 1, 3, 0]));
}

#[test]
fn h6_to_h8_priorities() {
    assert_eq!(verdict(&hub_case(6)), faulty(&[0, 2, 4]));
    assert_eq!(verdict(&hub_case(7)), refused(10, 0));
    assert_eq!(verdict(&hub_case(8)), safe(&[0, 1, 3]));
}

#[test]
fn h9_silent_firings_after_the_log() {
    let mut h9 = hub_case(9);
    assert_eq!(verdict(&h9), ambiguous(&[0, 2], &[0]));
    // With the hub's three places, one of them unused, it is the same.
    h9.pattern.first_tokens.push(0);
    h9.finals = vec![bounds(&[(0, 1), (1, 1), (0, 1)])];
    assert_eq!(verdict(&h9), ambiguous(&[0, 2], &[0]));
}

#[test]
fn h10_to_h12_listings() {
    let h4 = hub_case(4);
    assert_eq!(
        list(&h4, 3),
        Ok(vec![(false, vec![0, 1, 3]), (true, vec![0, 2, 4])])
    );
    assert_eq!(list(&h4, 2), Ok(vec![]));
    let h12 = vec![
        (false, vec![0, 1, 3, 0]),
        (false, vec![0, 1, 3, 0, 1]),
        (false, vec![0, 1, 3, 0, 2]),
    ];
    assert_eq!(list(&hub_case(5), 5), Ok(h12));
}
