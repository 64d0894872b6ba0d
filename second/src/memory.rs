//! The case in memory, as a caller of the proved writer holds it: a slot for
//! everything that the limits of 01 leave room for, with zeros in unused slots.
//! Arcs and observable labels are rows of ones and zeros there, not lists.

use std::ops::{Index, IndexMut};

use crate::case::{self, Bounds, Case, Net, Pair, Transition, LONGEST_FILE};
use crate::Refusal;

/// The fields, in the order in which they stand in a corpus. A count is a field
/// of one slot.
#[derive(Clone, Copy, Debug, PartialEq, Eq)]
pub enum Field {
    Places,
    Cap,
    FirstTokens,
    Transitions,
    Labels,
    Inputs,
    Outputs,
    Pairs,
    Higher,
    Lower,
    Observable,
    PatternPlaces,
    PatternCap,
    PatternFirstTokens,
    PatternTransitions,
    PatternLabels,
    PatternInputs,
    PatternOutputs,
    Finals,
    Least,
    Most,
    LogLength,
    Log,
}
use Field::*;

/// Each field with its slots.
const SLOTS: [(Field, usize); 23] = [
    (Places, 1),
    (Cap, 1),
    (FirstTokens, 16),
    (Transitions, 1),
    (Labels, 48),
    (Inputs, 48 * 16),
    (Outputs, 48 * 16),
    (Pairs, 1),
    (Higher, 32),
    (Lower, 32),
    (Observable, 32),
    (PatternPlaces, 1),
    (PatternCap, 1),
    (PatternFirstTokens, 8),
    (PatternTransitions, 1),
    (PatternLabels, 16),
    (PatternInputs, 16 * 8),
    (PatternOutputs, 16 * 8),
    (Finals, 1),
    (Least, 8 * 8),
    (Most, 8 * 8),
    (LogLength, 1),
    (Log, 40),
];

impl Field {
    pub fn all() -> impl Iterator<Item = Field> {
        SLOTS.into_iter().map(|(field, _)| field)
    }

    pub fn slots(self) -> usize {
        SLOTS[self as usize].1
    }
}

/// The fields of one of the two nets, and how many places a row of arcs has.
struct NetFields {
    places: Field,
    cap: Field,
    first_tokens: Field,
    transitions: Field,
    labels: Field,
    inputs: Field,
    outputs: Field,
    row: usize,
}

const SYSTEM: NetFields = NetFields {
    places: Places,
    cap: Cap,
    first_tokens: FirstTokens,
    transitions: Transitions,
    labels: Labels,
    inputs: Inputs,
    outputs: Outputs,
    row: 16,
};

const PATTERN: NetFields = NetFields {
    places: PatternPlaces,
    cap: PatternCap,
    first_tokens: PatternFirstTokens,
    transitions: PatternTransitions,
    labels: PatternLabels,
    inputs: PatternInputs,
    outputs: PatternOutputs,
    row: 8,
};

/// Bounds have a row for each QF, of as many places as a pattern may have.
const BOUNDS_ROW: usize = 8;

#[derive(Clone, Debug, PartialEq, Eq)]
pub struct Memory(Vec<Vec<u8>>);

impl Index<Field> for Memory {
    type Output = Vec<u8>;

    fn index(&self, field: Field) -> &Vec<u8> {
        &self.0[field as usize]
    }
}

impl IndexMut<Field> for Memory {
    fn index_mut(&mut self, field: Field) -> &mut Vec<u8> {
        &mut self.0[field as usize]
    }
}

impl Memory {
    /// How many bytes a case has.
    pub fn size() -> usize {
        Field::all().map(Field::slots).sum()
    }

    fn zeros() -> Memory {
        Memory(Field::all().map(|field| vec![0; field.slots()]).collect())
    }

    /// A case that keeps the limits.
    pub fn of(case: &Case) -> Memory {
        let mut memory = Memory::zeros();
        memory.put_net(&SYSTEM, &case.system);
        memory[Pairs][0] = case.pairs.len() as u8;
        for (slot, pair) in case.pairs.iter().enumerate() {
            memory[Higher][slot] = pair.higher;
            memory[Lower][slot] = pair.lower;
        }
        for label in &case.observable {
            memory[Observable][usize::from(*label)] = 1;
        }
        memory.put_net(&PATTERN, &case.pattern);
        memory[Finals][0] = case.finals.len() as u8;
        for (number, bounds) in case.finals.iter().enumerate() {
            for (place, one) in bounds.iter().enumerate() {
                memory[Least][number * BOUNDS_ROW + place] = one.least;
                memory[Most][number * BOUNDS_ROW + place] = one.most;
            }
        }
        memory[LogLength][0] = case.log.len() as u8;
        memory[Log][..case.log.len()].copy_from_slice(&case.log);
        memory
    }

    fn put_net(&mut self, fields: &NetFields, net: &Net) {
        let places = net.first_tokens.len();
        self[fields.places][0] = places as u8;
        self[fields.cap][0] = net.cap;
        self[fields.first_tokens][..places].copy_from_slice(&net.first_tokens);
        self[fields.transitions][0] = net.transitions.len() as u8;
        for (number, one) in net.transitions.iter().enumerate() {
            self[fields.labels][number] = one.label;
            for place in &one.inputs {
                self[fields.inputs][number * fields.row + usize::from(*place)] = 1;
            }
            for place in &one.outputs {
                self[fields.outputs][number * fields.row + usize::from(*place)] = 1;
            }
        }
    }

    /// The bytes of a case, field after field.
    pub fn bytes(&self) -> Vec<u8> {
        self.0.concat()
    }

    /// The case of these bytes, of which there are as many as a case has.
    pub fn from_bytes(bytes: &[u8]) -> Memory {
        assert_eq!(bytes.len(), Memory::size());
        let mut rest = bytes;
        let mut take = |field: Field| {
            let (taken, after) = rest.split_at(field.slots());
            rest = after;
            taken.to_vec()
        };
        Memory(Field::all().map(&mut take).collect())
    }

    /// The number in a field of one slot.
    pub fn count(&self, field: Field) -> usize {
        usize::from(self[field][0])
    }

    /// What the counted slots of a field hold; nothing if there are not so many.
    fn counted(&self, field: Field, count: usize) -> Option<&[u8]> {
        self[field].get(..count)
    }

    fn net(&self, fields: &NetFields) -> Option<Net> {
        let first_tokens = self.counted(fields.first_tokens, self.count(fields.places))?;
        let labels = self.counted(fields.labels, self.count(fields.transitions))?;
        let marked = |field: Field, number: usize| {
            let row = &self[field][number * fields.row..][..fields.row];
            set_numbers(row)
        };
        let transition = |(number, label): (usize, &u8)| Transition {
            label: *label,
            inputs: marked(fields.inputs, number),
            outputs: marked(fields.outputs, number),
        };
        Some(Net {
            cap: self[fields.cap][0],
            first_tokens: first_tokens.to_vec(),
            transitions: labels.iter().enumerate().map(transition).collect(),
        })
    }

    /// What the counted slots say, whatever stands in the others, and whether or
    /// not it keeps a limit; nothing if a count is over its slots.
    fn said(&self) -> Option<Case> {
        let (system, pattern) = (self.net(&SYSTEM)?, self.net(&PATTERN)?);
        let pair = |(higher, lower): (&u8, &u8)| Pair {
            higher: *higher,
            lower: *lower,
        };
        let pairs = self.count(Pairs);
        let higher = self.counted(Higher, pairs)?.iter();
        let lower = self.counted(Lower, pairs)?.iter();
        let finals = self.count(Finals) * BOUNDS_ROW;
        let least = self.counted(Least, finals)?.chunks(BOUNDS_ROW);
        let most = self.counted(Most, finals)?.chunks(BOUNDS_ROW);
        let bounds = |(least, most): (&[u8], &[u8])| {
            let all = least.iter().zip(most);
            let all = all.map(|(least, most)| Bounds {
                least: *least,
                most: *most,
            });
            all.take(pattern.first_tokens.len()).collect()
        };
        Some(Case {
            pairs: higher.zip(lower).map(pair).collect(),
            observable: set_numbers(&self[Observable]),
            finals: least.zip(most).map(bounds).collect(),
            log: self.counted(Log, self.count(LogLength))?.to_vec(),
            system,
            pattern,
        })
    }

    /// The file that reads as the case, if there is one. The counted slots can
    /// come from one file alone; what that file reads as tells of all the others.
    pub fn file(&self) -> Option<Vec<u8>> {
        let case = self.said()?;
        let file = case::write(&case, LONGEST_FILE).ok()?;
        (Memory::of(&case) == *self).then_some(file)
    }

    /// The writer: refusal 14 for a case that no file reads as, then 11 if the
    /// room is shorter than the file.
    pub fn write(&self, room: usize) -> Result<Vec<u8>, Refusal> {
        let file = self.file().ok_or(Refusal::plain(14))?;
        if room < file.len() {
            return Err(Refusal {
                number: 11,
                beside: file.len(),
            });
        }
        Ok(file)
    }

    /// Whether a slot is one that the counts leave unused.
    pub fn unused(&self, field: Field, slot: usize) -> bool {
        let under = |count: Field| slot < self.count(count);
        let in_row = |rows: Field, row: usize, places: Field| {
            slot / row < self.count(rows) && slot % row < self.count(places)
        };
        let used = match field {
            FirstTokens => under(Places),
            Labels => under(Transitions),
            Inputs | Outputs => in_row(Transitions, SYSTEM.row, Places),
            Higher | Lower => under(Pairs),
            PatternFirstTokens => under(PatternPlaces),
            PatternLabels => under(PatternTransitions),
            PatternInputs | PatternOutputs => {
                in_row(PatternTransitions, PATTERN.row, PatternPlaces)
            }
            Least | Most => in_row(Finals, BOUNDS_ROW, PatternPlaces),
            Log => under(LogLength),
            _ => true,
        };
        !used
    }
}

/// The numbers whose slots hold anything but zero.
fn set_numbers(row: &[u8]) -> Vec<u8> {
    let numbered = (0u8..).zip(row);
    let set = numbered.filter(|(_, byte)| **byte != 0);
    set.map(|(number, _)| number).collect()
}
