//! Cases in memory for the writer, with the room that is lent: cases that files
//! read as, and ones that break each limit in turn.

use super::files::every_record;
use super::sides;
use super::{number, with_length, Entry};
use crate::case::{self, Case, LONGEST_FILE};
use crate::known::{all_limits, hub, hub_case, longest};
use crate::make;
use crate::memory::Field::{self, *};
use crate::memory::Memory;
use crate::random::Random;

const SEED: u64 = 0x7772_6974;
const RANDOM: usize = 120;
/// Longer than any file.
const MUCH_ROOM: usize = 4_096;

pub struct Written {
    room: usize,
    memory: Memory,
}

impl Entry for Written {
    fn bytes(&self) -> Vec<u8> {
        let mut bytes = number::<2>(self.room).to_vec();
        bytes.extend(with_length(
            &self.memory.write(self.room).unwrap_or_default(),
        ));
        bytes.extend(self.memory.bytes());
        bytes
    }

    fn answer(&self) -> String {
        match self.memory.write(self.room) {
            Err(refusal) => refusal.to_string(),
            Ok(file) => format!("written {}", file.len()),
        }
    }
}

pub fn entries() -> Vec<Written> {
    let mut all = Vec::new();
    for case in [hub_case(1), hub_case(4), every_record(), longest()] {
        all.extend(rooms_around(&case));
    }
    for case in sides::of_layout().into_iter().map(|side| side.within) {
        all.extend(just_enough(&case));
    }
    all.extend(just_enough(&all_limits(&[1], false)));
    let broken = [
        counts(),
        unused_slots(),
        fields(),
        pairs(),
        labels(),
        all_bytes_alike(),
    ];
    for memory in broken.into_iter().flatten() {
        // 14 is asked before 11, so the room never matters.
        let room = [MUCH_ROOM, LONGEST_FILE, 0][all.len() % 3];
        all.push(Written { room, memory });
    }
    all.extend(random_cases());
    all
}

/// None, one byte, one less than the file needs, what it needs, one more, what
/// the longest needs, and more.
fn rooms_around(case: &Case) -> Vec<Written> {
    let needed = case::bytes(case).len();
    let mut rooms = vec![
        0,
        1,
        needed - 1,
        needed,
        needed + 1,
        LONGEST_FILE,
        MUCH_ROOM,
    ];
    rooms.sort();
    rooms.dedup();
    let memory = Memory::of(case);
    let with = |room| Written {
        room,
        memory: memory.clone(),
    };
    rooms.into_iter().map(with).collect()
}

/// One byte too few, and just enough.
fn just_enough(case: &Case) -> [Written; 2] {
    let needed = case::bytes(case).len();
    [needed - 1, needed].map(|room| Written {
        room,
        memory: Memory::of(case),
    })
}

fn changed(case: &Case, change: impl FnOnce(&mut Memory)) -> Memory {
    let mut memory = Memory::of(case);
    change(&mut memory);
    memory
}

/// A case with one slot changed.
fn with_slot(case: &Case, field: Field, slot: usize, byte: u8) -> Memory {
    changed(case, |memory| memory[field][slot] = byte)
}

/// Counts over their slots, all of which are full, and other counts than the
/// slots have.
fn counts() -> Vec<Memory> {
    let mut all = Vec::new();
    let counts = [
        Places,
        Cap,
        Transitions,
        Pairs,
        PatternPlaces,
        PatternCap,
        PatternTransitions,
        Finals,
        LogLength,
    ];
    for count in counts {
        for case in [longest(), every_record(), hub(&[0, 3])] {
            let now = Memory::of(&case)[count][0];
            let mut others = vec![0, now - u8::from(now > 0), now + 1, 255];
            others.sort();
            others.dedup();
            others.retain(|other| *other != now);
            all.extend(
                others
                    .iter()
                    .map(|other| with_slot(&case, count, 0, *other)),
            );
        }
    }
    // No QF, and nothing left of the one there was.
    all.push(changed(&hub(&[0, 3]), |memory| {
        for field in [Finals, Least, Most] {
            memory[field].fill(0);
        }
    }));
    // A cap past its limit, with all tokens and bounds within the limit.
    for cap in [Cap, PatternCap] {
        all.extend([0, 16].map(|other| with_slot(&hub(&[]), cap, 0, other)));
    }
    all
}

/// A byte in the first and in the last unused slot of each field; in a row that
/// is used, and in the first row that is not.
fn unused_slots() -> Vec<Memory> {
    let mut all = Vec::new();
    for case in [hub(&[0, 3]), every_record()] {
        let memory = Memory::of(&case);
        for field in Field::all() {
            let unused = (0..field.slots()).filter(|slot| memory.unused(field, *slot));
            let unused: Vec<usize> = unused.collect();
            let (Some(first), Some(last)) = (unused.first(), unused.last()) else {
                continue;
            };
            let mut slots = vec![*first, *last];
            if let Some(row) = unused.windows(9).find(|some| some[8] == some[0] + 8) {
                slots.push(row[0]);
                slots.push(row[8]);
            }
            slots.sort();
            slots.dedup();
            let byte = |slot: usize| if slot % 2 == 0 { 1 } else { 255 };
            all.extend(
                slots
                    .iter()
                    .map(|slot| with_slot(&case, field, *slot, byte(*slot))),
            );
        }
    }
    all
}

/// Arcs and flags that are neither 0 nor 1, tokens and bounds past the cap, and
/// least over most; beside each what is still right.
fn fields() -> Vec<Memory> {
    let mut all = Vec::new();
    let (small, great) = (hub(&[0, 3]), longest());
    for field in [Inputs, Outputs, PatternInputs, PatternOutputs, Observable] {
        for byte in [0, 1, 2, 255] {
            all.push(with_slot(&small, field, 0, byte));
            all.push(with_slot(&great, field, field.slots() - 1, byte));
        }
    }
    for field in [FirstTokens, PatternFirstTokens, Most, Least] {
        for byte in [0, 1, 2, 255] {
            all.push(with_slot(&small, field, 0, byte));
        }
        for byte in [15, 16] {
            all.push(with_slot(&great, field, field.slots() - 1, byte));
        }
    }
    all
}

/// Pairs that rise or do not, and that name a transition or none.
fn pairs() -> Vec<Memory> {
    let five_transitions = |list: &[(u8, u8)]| {
        changed(&hub(&[0, 3]), |memory| {
            memory[Pairs][0] = list.len() as u8;
            for (slot, (higher, lower)) in list.iter().enumerate() {
                memory[Higher][slot] = *higher;
                memory[Lower][slot] = *lower;
            }
        })
    };
    let lists: [&[(u8, u8)]; 14] = [
        &[(0, 0)],
        &[(4, 4)],
        &[(5, 0)],
        &[(0, 5)],
        &[(48, 0)],
        &[(0, 255)],
        &[(1, 2), (1, 2)],
        &[(1, 2), (1, 3)],
        &[(1, 3), (1, 2)],
        &[(1, 2), (2, 1)],
        &[(2, 1), (1, 2)],
        &[(0, 0), (0, 0)],
        &[(0, 1), (2, 0), (1, 4)],
        &[(0, 1), (2, 0), (2, 5)],
    ];
    let mut all: Vec<Memory> = lists.map(five_transitions).into();
    all.push(with_slot(&longest(), Higher, 31, 48));
    all.push(with_slot(&longest(), Lower, 31, 48));
    all.push(with_slot(&longest(), Higher, 31, 30));
    all
}

/// Labels of transitions and of the log, and a log that shows what is silent.
fn labels() -> Vec<Memory> {
    let mut all = Vec::new();
    for field in [Labels, PatternLabels, Log] {
        for byte in [1, 3, 31, 32, 255] {
            all.push(with_slot(&hub(&[0, 3]), field, 0, byte));
            all.push(with_slot(&longest(), field, field.slots() - 1, byte));
        }
    }
    // The log's label is not observable any more.
    all.push(with_slot(&hub(&[0, 3]), Observable, 3, 0));
    all.push(with_slot(&hub(&[0]), Observable, 3, 0));
    all
}

fn all_bytes_alike() -> Vec<Memory> {
    [0, 1, 2, 255]
        .map(|byte| Memory::from_bytes(&vec![byte; Memory::size()]))
        .into()
}

/// Random cases that read, most of them with one slot changed.
fn random_cases() -> Vec<Written> {
    let made = (0..).map(|index| (index, make::file(SEED, index)));
    let cases = made.filter_map(|(index, file)| Some((index, case::read(&file).ok()?)));
    let random = cases.map(|(index, case)| random_case(&mut Random::new(SEED, index), &case));
    random.take(RANDOM).collect()
}

fn random_case(random: &mut Random, case: &Case) -> Written {
    let mut memory = Memory::of(case);
    if random.chance(80) {
        let fields: Vec<Field> = Field::all().collect();
        let field = *random.pick(&fields);
        // Often one of the first slots, which are used.
        let often = random.chance(60);
        let slots = if often { 4 } else { field.slots() };
        let slot = random.under(slots.min(field.slots()));
        let now = memory[field][slot];
        memory[field][slot] = *random.pick(&[0, 1, 2, now.wrapping_add(1), 255]);
    }
    let needed = memory.file().map_or(LONGEST_FILE, |file| file.len());
    let room = *random.pick(&[0, needed - 1, needed, needed + 1, MUCH_ROOM]);
    Written { room, memory }
}
