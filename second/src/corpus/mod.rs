//! The corpus: many entries in one file, each with a byte for its kind before it,
//! and this program's answers line by line in another, so that any program which
//! answers the same questions can be compared with this one byte for byte.
//! Nothing in it is left to chance.

mod checks;
pub mod faults;
mod files;
pub mod halves;
mod listings;
mod meanings;
mod replays;
pub mod sides;
mod verdicts;
mod writes;

#[derive(Clone, Copy, Debug, PartialEq, Eq)]
pub enum Kind {
    Files,
    Checks,
    Verdicts,
    Listings,
    Replays,
    Writes,
}

impl Kind {
    pub const ALL: [Kind; 6] = [
        Kind::Files,
        Kind::Checks,
        Kind::Verdicts,
        Kind::Listings,
        Kind::Replays,
        Kind::Writes,
    ];

    pub fn name(self) -> &'static str {
        match self {
            Kind::Files => "files",
            Kind::Checks => "checks",
            Kind::Verdicts => "verdicts",
            Kind::Listings => "listings",
            Kind::Replays => "replays",
            Kind::Writes => "writes",
        }
    }

    /// The byte that each entry of the kind begins with.
    pub fn byte(self) -> u8 {
        self as u8
    }
}

/// The contents of the two files: the entries without a gap, and one line for
/// each of them.
#[derive(Clone, Debug, Default, PartialEq, Eq)]
pub struct Corpus {
    pub entries: Vec<u8>,
    pub expected: String,
}

impl Corpus {
    /// The entries of all kinds, one kind after the other.
    pub fn whole() -> Corpus {
        let mut all = Corpus::default();
        for one in Kind::ALL.map(Corpus::of) {
            all.entries.extend(one.entries);
            all.expected += &one.expected;
        }
        all
    }

    pub fn of(kind: Kind) -> Corpus {
        match kind {
            Kind::Files => gather(kind, files::entries()),
            Kind::Checks => gather(kind, checks::entries()),
            Kind::Verdicts => gather(kind, verdicts::entries()),
            Kind::Listings => gather(kind, listings::entries()),
            Kind::Replays => gather(kind, replays::entries()),
            Kind::Writes => gather(kind, writes::entries()),
        }
    }
}

/// One question: how it stands in the corpus behind the byte for its kind, and
/// what this program answers.
trait Entry {
    fn bytes(&self) -> Vec<u8>;
    fn answer(&self) -> String;
}

fn gather<E: Entry>(kind: Kind, entries: Vec<E>) -> Corpus {
    let mut corpus = Corpus::default();
    for entry in entries {
        corpus.entries.push(kind.byte());
        corpus.entries.extend(entry.bytes());
        corpus.expected += &entry.answer();
        corpus.expected.push('\n');
    }
    corpus
}

/// Lengths of work room: one byte too few and just enough, which was so of the two
/// after them before W-205 of 02; none, and more.
const WORK_ROOMS: [usize; 6] = [0, 51_199, 51_200, 57_343, 57_344, 60_000];

/// A number in this many bytes, low byte first.
fn number<const WIDTH: usize>(value: usize) -> [u8; WIDTH] {
    let bytes = value.to_le_bytes();
    let (low, high) = bytes.split_at(WIDTH);
    assert!(high.iter().all(|byte| *byte == 0), "{value} is too large");
    low.try_into().expect("as many bytes as asked for")
}

/// The length in three bytes, then the bytes.
fn with_length(bytes: &[u8]) -> Vec<u8> {
    [&number::<3>(bytes.len()), bytes].concat()
}
