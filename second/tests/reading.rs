//! The reader takes every string of bytes: it reads, or refusal 2 has a place
//! that can be checked.

mod common;
use common::*;

use second::case::{self, Case};
use second::known::{hub, longest, pair};

/// What must hold whatever the bytes are. A file that reads is written again
/// byte for byte; one that is refused has good records, and nothing else,
/// before the place.
fn read_soundly(file: &[u8]) -> Result<Case, usize> {
    match case::read(file) {
        Ok(case) => {
            assert_eq!(case::bytes(&case), file);
            Ok(case)
        }
        Err(refusal) => {
            assert_eq!(refusal.number, 2);
            let place = refusal.beside;
            assert!(place <= file.len());
            match case::read(&file[..place]) {
                Ok(_) => assert!(place < file.len(), "bytes are left over after EN"),
                Err(cut) => assert_eq!(cut.beside, place, "the records before the place are good"),
            }
            Err(place)
        }
    }
}

#[test]
fn all_beginnings_of_the_hub_file() {
    let case = hub(&[0, 3]);
    let file = case::bytes(&case);
    for length in 0..file.len() {
        let begins = offsets(&case).into_iter().filter(|at| *at <= length).max();
        assert_eq!(
            read_soundly(&file[..length]).err(),
            begins,
            "{length} bytes"
        );
    }
    let file = case::bytes(&longest());
    for length in 0..file.len() {
        let begins = offsets(&longest())
            .into_iter()
            .filter(|at| *at <= length)
            .max();
        assert_eq!(
            read_soundly(&file[..length]).err(),
            begins,
            "{length} bytes"
        );
    }
}

#[test]
fn each_byte_changed() {
    let mut with_pairs = hub(&[0, 3, 0]);
    with_pairs.pairs = vec![pair(0, 1), pair(2, 1)];
    for case in [hub(&[0, 3]), with_pairs] {
        let file = case::bytes(&case);
        for at in 0..file.len() {
            let record = offsets(&case)
                .into_iter()
                .filter(|begin| *begin <= at)
                .max()
                .expect("a record");
            for byte in [
                0,
                1,
                file[at].wrapping_add(1),
                file[at].wrapping_sub(1),
                255,
            ] {
                let mut changed = file.clone();
                changed[at] = byte;
                if let Err(place) = read_soundly(&changed) {
                    assert!(place >= record, "the records before are as they were");
                }
                if byte == 255 && file[at] != 255 {
                    // No field may be 255, and no mark has it.
                    assert_eq!(read_soundly(&changed), Err(record));
                }
            }
        }
    }
}

#[test]
fn marks_that_cannot_stand_there() {
    let case = hub(&[0, 3]);
    let records = case::records(&case);
    // Each record left out, and each doubled.
    for number in 0..records.len() {
        let mut out = records.clone();
        let gone = out.remove(number);
        let mark = [gone[0], gone[1]];
        let may_go = mark == *b"TR" || mark == *b"PX";
        let expected = if may_go {
            None
        } else {
            Some(offsets(&case)[number])
        };
        assert_eq!(
            read_soundly(&out.concat()).err(),
            expected,
            "without record {number}"
        );

        let mut doubled = records.clone();
        doubled.insert(number, records[number].clone());
        let may_double = may_go || mark == *b"QF";
        let after = offsets(&case)[number] + records[number].len();
        let expected = if may_double { None } else { Some(after) };
        assert_eq!(
            read_soundly(&doubled.concat()).err(),
            expected,
            "record {number} twice"
        );
    }
    let small = |text: &[u8]| read_soundly(text).err();
    assert_eq!(small(b"TR"), Some(0));
    assert_eq!(small(b"N"), Some(0));
    assert_eq!(small(b"nt\x01\x01\x00"), Some(0));
    assert_eq!(small(b"NT\x01\x01\x00"), Some(5));
    assert_eq!(small(b"NT\x01\x01\x00O"), Some(5));
    assert_eq!(small(b"NT\x01\x01\x00PR\x00\x00"), Some(5));
    assert_eq!(
        small(b"NT\x01\x01\x00OB\x00PT\x01\x01\x00QF\x00\x00LG\x00EN"),
        None
    );
    assert_eq!(
        small(b"NT\x01\x01\x00OB\x00PT\x01\x01\x00QF\x00\x00LG\x00ENEN"),
        Some(22)
    );
    assert_eq!(
        small(b"NT\x01\x01\x00OB\x00PT\x01\x01\x00QF\x00\x00LG\x00E"),
        Some(20)
    );
    assert_eq!(
        small(b"NT\x01\x01\x00OB\x00PT\x01\x01\x00QF\x00\x00EN"),
        Some(17)
    );
    assert_eq!(
        small(b"NT\x01\x01\x00OB\x00PT\x01\x01\x00LG\x00EN"),
        Some(13)
    );
}

#[test]
fn bytes_without_rhyme() {
    let mut noise = Noise(0x5eed);
    for _ in 0..2_000 {
        let length = noise.under(200);
        let _ = read_soundly(&noise.bytes(length));
    }
    // Marks and small numbers in any order go deeper.
    let marks = [
        b"NT", b"TR", b"PR", b"OB", b"PT", b"PX", b"QF", b"LG", b"EN",
    ];
    for _ in 0..20_000 {
        let mut file = Vec::new();
        for _ in 0..noise.under(20) {
            file.extend(marks[noise.under(9) as usize]);
            let length = noise.under(6);
            file.extend(noise.bytes(length).iter().map(|byte| byte % 4));
        }
        let _ = read_soundly(&file);
    }
    // Damaged in several places.
    let base = case::bytes(&hub(&[0, 3]));
    for _ in 0..20_000 {
        let mut file = base.clone();
        for _ in 0..=noise.under(3) {
            let at = noise.under(file.len() as u64) as usize;
            match noise.under(3) {
                0 => file[at] = noise.under(6) as u8,
                1 => drop(file.remove(at)),
                _ => file.insert(at, noise.under(6) as u8),
            }
        }
        let _ = read_soundly(&file);
        let _ = verdict_of_file(&file);
    }
}

#[test]
fn large_files_have_their_place() {
    let mut file = case::bytes(&longest());
    file.resize(100_000, b'E');
    assert_eq!(read_soundly(&file), Err(2_496));
    assert_eq!(read_soundly(&file[..2_497]), Err(2_496));
    assert_eq!(read_soundly(&vec![0; 100_000]), Err(0));
    let mut file = case::bytes(&hub(&[0, 3]));
    file.resize(100_000, 0);
    assert_eq!(read_soundly(&file), Err(83));
    // Records of one mark without end: the first one too many is the place.
    let mut file = b"NT\x01\x01\x00".to_vec();
    file.extend(b"TR\x00\x00\x00".repeat(20_000));
    assert_eq!(read_soundly(&file), Err(5 + 48 * 5));
}
