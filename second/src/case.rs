//! The case file (01, "The case file"): the case as a structure, the reader
//! with the place of refusal 2, and the writer.

use crate::Refusal;

/// The longest file that can be read; it follows from the limits below.
pub const LONGEST_FILE: usize = 2_496;
/// What the commands keep of their input: one byte more than any good file has.
pub const KEPT_BYTES: usize = LONGEST_FILE + 1;

pub const MOST_LABELS: usize = 32;
pub const MOST_CAP: u8 = 15;
pub const MOST_SYSTEM_PLACES: u8 = 16;
pub const MOST_SYSTEM_TRANSITIONS: usize = 48;
pub const MOST_PAIRS: usize = 32;
pub const MOST_PATTERN_PLACES: u8 = 8;
pub const MOST_PATTERN_TRANSITIONS: usize = 16;
pub const MOST_FINALS: usize = 8;
pub const MOST_LOG: u8 = 40;

#[derive(Clone, Debug, Default, PartialEq, Eq)]
pub struct Transition {
    pub label: u8,
    pub inputs: Vec<u8>,
    pub outputs: Vec<u8>,
}

#[derive(Clone, Debug, Default, PartialEq, Eq)]
pub struct Net {
    pub cap: u8,
    pub first_tokens: Vec<u8>,
    pub transitions: Vec<Transition>,
}

/// A priority pair. The order of the fields is the order in which pairs rise.
#[derive(Clone, Copy, Debug, PartialEq, Eq, PartialOrd, Ord)]
pub struct Pair {
    pub higher: u8,
    pub lower: u8,
}

/// What one pattern place may hold in a final marking.
#[derive(Clone, Copy, Debug, PartialEq, Eq)]
pub struct Bounds {
    pub least: u8,
    pub most: u8,
}

#[derive(Clone, Debug, Default, PartialEq, Eq)]
pub struct Case {
    pub system: Net,
    pub pairs: Vec<Pair>,
    pub observable: Vec<u8>,
    pub pattern: Net,
    /// One list of bounds, place by place, for each QF.
    pub finals: Vec<Vec<Bounds>>,
    pub log: Vec<u8>,
}

/// Reads a file, or gives refusal 2 with its place.
pub fn read(file: &[u8]) -> Result<Case, Refusal> {
    read_or_place(file).map_err(|place| Refusal {
        number: 2,
        beside: place,
    })
}

fn read_or_place(file: &[u8]) -> Result<Case, usize> {
    let mut reader = Reader { file, at: 0 };

    let mut system = reader.record(b"NT", |body| body.net(MOST_SYSTEM_PLACES))?;
    let places = system.first_tokens.len();
    system.transitions = reader.records(b"TR", MOST_SYSTEM_TRANSITIONS, |body, _| {
        body.transition(places)
    })?;
    let transitions = system.transitions.len();
    let pairs = reader.records(b"PR", MOST_PAIRS, |body, before: &[Pair]| {
        let (higher, lower) = (body.under(transitions)?, body.under(transitions)?);
        let pair = Pair { higher, lower };
        before
            .last()
            .is_none_or(|last| *last < pair)
            .then_some(pair)
    })?;
    let observable = reader.record(b"OB", |body| body.rising(MOST_LABELS))?;

    let mut pattern = reader.record(b"PT", |body| body.net(MOST_PATTERN_PLACES))?;
    let (places, cap) = (pattern.first_tokens.len(), pattern.cap);
    pattern.transitions = reader.records(b"PX", MOST_PATTERN_TRANSITIONS, |body, _| {
        body.transition(places)
    })?;
    // At least one QF: the first is asked for, the others may follow.
    let mut finals = vec![reader.record(b"QF", |body| body.bounds(places, cap))?];
    finals.extend(reader.records(b"QF", MOST_FINALS - 1, |body, _| body.bounds(places, cap))?);

    let log = reader.record(b"LG", |body| body.log(&observable))?;
    reader.record(b"EN", |_| Some(()))?;
    if reader.at < file.len() {
        return Err(reader.at);
    }
    Ok(Case {
        system,
        pairs,
        observable,
        pattern,
        finals,
        log,
    })
}

/// Where reading stands in the file. `at` never passes the file's end, so a
/// record that is due at the end has the file's length as its place.
struct Reader<'f> {
    file: &'f [u8],
    at: usize,
}

impl Reader<'_> {
    fn stands_at(&self, mark: &[u8; 2]) -> bool {
        self.file[self.at..].starts_with(mark)
    }

    /// One record that is due here. Whatever is wrong with it (another mark, cut,
    /// a bad field), the place is where it begins.
    fn record<T>(
        &mut self,
        mark: &[u8; 2],
        body: impl FnOnce(&mut Self) -> Option<T>,
    ) -> Result<T, usize> {
        let place = self.at;
        if !self.stands_at(mark) {
            return Err(place);
        }
        self.at += mark.len();
        body(self).ok_or(place)
    }

    /// As many records of one mark as stand here, up to `most`. One too many is
    /// left standing, where the next record that is due refuses it.
    fn records<T>(
        &mut self,
        mark: &[u8; 2],
        most: usize,
        mut body: impl FnMut(&mut Self, &[T]) -> Option<T>,
    ) -> Result<Vec<T>, usize> {
        let mut read = Vec::new();
        while read.len() < most && self.stands_at(mark) {
            let one = self.record(mark, |reader| body(reader, &read))?;
            read.push(one);
        }
        Ok(read)
    }

    fn byte(&mut self) -> Option<u8> {
        let byte = *self.file.get(self.at)?;
        self.at += 1;
        Some(byte)
    }

    fn between(&mut self, least: u8, most: u8) -> Option<u8> {
        self.byte().filter(|byte| (least..=most).contains(byte))
    }

    fn under(&mut self, limit: usize) -> Option<u8> {
        self.byte().filter(|byte| usize::from(*byte) < limit)
    }

    /// A count and then that many numbers under the limit, rising strictly. More
    /// numbers than the limit can't rise, so the count needs no check of its own.
    fn rising(&mut self, limit: usize) -> Option<Vec<u8>> {
        let count = self.byte()?;
        let mut numbers: Vec<u8> = Vec::new();
        for _ in 0..count {
            let number = self.under(limit)?;
            if numbers.last().is_some_and(|last| *last >= number) {
                return None;
            }
            numbers.push(number);
        }
        Some(numbers)
    }

    fn net(&mut self, most_places: u8) -> Option<Net> {
        let places = self.between(1, most_places)?;
        let cap = self.between(1, MOST_CAP)?;
        let first_tokens = (0..places)
            .map(|_| self.between(0, cap))
            .collect::<Option<_>>()?;
        Some(Net {
            cap,
            first_tokens,
            transitions: Vec::new(),
        })
    }

    fn transition(&mut self, places: usize) -> Option<Transition> {
        let label = self.under(MOST_LABELS)?;
        let inputs = self.rising(places)?;
        let outputs = self.rising(places)?;
        Some(Transition {
            label,
            inputs,
            outputs,
        })
    }

    fn bounds(&mut self, places: usize, cap: u8) -> Option<Vec<Bounds>> {
        (0..places)
            .map(|_| {
                let least = self.byte()?;
                let most = self.between(0, cap)?;
                (least <= most).then_some(Bounds { least, most })
            })
            .collect()
    }

    fn log(&mut self, observable: &[u8]) -> Option<Vec<u8>> {
        let count = self.between(0, MOST_LOG)?;
        (0..count)
            .map(|_| self.byte().filter(|label| observable.contains(label)))
            .collect()
    }
}

/// The file's records in order, mark and body, for any case whatever. A case
/// that breaks a limit gives records that do not read back as that case.
pub fn records(case: &Case) -> Vec<Vec<u8>> {
    let mut all = vec![net_record(b"NT", &case.system)];
    all.extend(
        case.system
            .transitions
            .iter()
            .map(|one| transition_record(b"TR", one)),
    );
    all.extend(
        case.pairs
            .iter()
            .map(|pair| vec![b'P', b'R', pair.higher, pair.lower]),
    );
    all.push(list_record(b"OB", &case.observable));
    all.push(net_record(b"PT", &case.pattern));
    all.extend(
        case.pattern
            .transitions
            .iter()
            .map(|one| transition_record(b"PX", one)),
    );
    for bounds in &case.finals {
        let mut record = b"QF".to_vec();
        record.extend(bounds.iter().flat_map(|one| [one.least, one.most]));
        all.push(record);
    }
    all.push(list_record(b"LG", &case.log));
    all.push(b"EN".to_vec());
    all
}

/// The file's bytes, with no check that they read back.
pub fn bytes(case: &Case) -> Vec<u8> {
    records(case).concat()
}

/// The writer: refusal 14 for a case that no good file reads as, then 11 if the
/// room is shorter than the file.
pub fn write(case: &Case, room: usize) -> Result<Vec<u8>, Refusal> {
    let file = bytes(case);
    // Nothing in a file can be said in two ways, so this asks exactly 14.
    if read(&file).as_ref() != Ok(case) {
        return Err(Refusal::plain(14));
    }
    if room < file.len() {
        return Err(Refusal {
            number: 11,
            beside: file.len(),
        });
    }
    Ok(file)
}

/// A count as the single byte that the file has for it.
fn count(list: &[u8]) -> u8 {
    (list.len() % 256) as u8
}

fn list_record(mark: &[u8; 2], list: &[u8]) -> Vec<u8> {
    [mark.as_slice(), &[count(list)], list].concat()
}

fn net_record(mark: &[u8; 2], net: &Net) -> Vec<u8> {
    [
        mark.as_slice(),
        &[count(&net.first_tokens), net.cap],
        &net.first_tokens,
    ]
    .concat()
}

fn transition_record(mark: &[u8; 2], one: &Transition) -> Vec<u8> {
    let inputs = [&[count(&one.inputs)], one.inputs.as_slice()].concat();
    let outputs = [&[count(&one.outputs)], one.outputs.as_slice()].concat();
    [mark.as_slice(), &[one.label], &inputs, &outputs].concat()
}
