//! Cases in memory: what a file reads as is written as that file again, and
//! nothing else is.

use second::case;
use second::known::{all_limits, hub, hub_case, longest};
use second::memory::{Field, Memory};
use second::Refusal;

#[test]
fn a_case_has_its_file() {
    let hubs = (1..=9).map(hub_case);
    for case in hubs.chain([longest(), all_limits(&[1], false)]) {
        let memory = Memory::of(&case);
        let file = case::bytes(&case);
        assert_eq!(memory.file(), Some(file.clone()));
        assert_eq!(memory.write(file.len()), Ok(file.clone()));
        let short = Refusal {
            number: 11,
            beside: file.len(),
        };
        assert_eq!(memory.write(file.len() - 1), Err(short));
        assert_eq!(Memory::from_bytes(&memory.bytes()), memory);
    }
}

#[test]
fn the_size_is_that_of_readme() {
    assert_eq!(Memory::size(), 2_153);
}

/// Any one slot of H4 changed to any byte: a file that is given reads as the
/// changed case, and a byte in a slot that is unused is always refused.
#[test]
fn one_slot_changed() {
    let right = Memory::of(&hub(&[0, 3]));
    for field in Field::all() {
        for slot in 0..field.slots() {
            let now = right[field][slot];
            for byte in [0, 1, 2, 3, 31, 32, 255]
                .into_iter()
                .filter(|byte| *byte != now)
            {
                let mut changed = right.clone();
                changed[field][slot] = byte;
                match changed.write(usize::MAX) {
                    Ok(file) => {
                        assert!(!right.unused(field, slot), "{field:?} {slot}");
                        let read = case::read(&file).expect("a good file");
                        assert_eq!(Memory::of(&read), changed);
                    }
                    Err(refusal) => assert_eq!(refusal, Refusal::plain(14)),
                }
            }
        }
    }
}

/// One over each limit, with every slot full, is refused before the room is.
#[test]
fn counts_over_their_slots() {
    for field in Field::all().filter(|field| field.slots() == 1) {
        let mut memory = Memory::of(&longest());
        memory[field][0] += 1;
        assert_eq!(memory.write(0), Err(Refusal::plain(14)), "{field:?}");
    }
}
