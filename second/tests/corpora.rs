//! The corpus: taken apart again after README, asked anew, and compared with
//! what is committed of it.

use std::collections::{BTreeMap, BTreeSet};
use std::path::Path;
use std::sync::OnceLock;

use second::case::{self, Case, LONGEST_FILE};
use second::checks::Product;
use second::corpus::{Corpus, Kind};
use second::judge::{self, Explanation, Listing, Rooms};
use second::known::hub_case;
use second::memory::Memory;
use second::net::ProductMarking;
use second::{checks, packed, replay, Refusal, Slips};

/// Made once for all tests here.
fn corpus(kind: Kind) -> &'static Corpus {
    static MADE: OnceLock<Vec<Corpus>> = OnceLock::new();
    let made = MADE.get_or_init(|| Kind::ALL.map(Corpus::of).into());
    let at = Kind::ALL.iter().position(|one| *one == kind);
    &made[at.expect("one of all")]
}

fn lines(kind: Kind) -> Vec<&'static str> {
    let expected = &corpus(kind).expected;
    assert!(expected.ends_with('\n'));
    expected.lines().collect()
}

/// What an entry holds, after README: numbers of one to three bytes, and bytes
/// with their length before them.
#[derive(Debug)]
enum Part {
    Number(usize),
    Bytes(Vec<u8>),
}
use Part::{Bytes, Number};

/// How many bytes a case in memory has, after README.
const IN_MEMORY: usize = 2_153;

struct Entries {
    rest: &'static [u8],
    kind: Kind,
}

impl Entries {
    fn take(&mut self, count: usize) -> &'static [u8] {
        let (taken, rest) = self.rest.split_at(count);
        self.rest = rest;
        taken
    }

    fn number(&mut self, width: usize) -> usize {
        let low_first = self.take(width).iter().rev();
        low_first.fold(0, |number, byte| 256 * number + usize::from(*byte))
    }
}

impl Iterator for Entries {
    type Item = Vec<Part>;

    fn next(&mut self) -> Option<Vec<Part>> {
        if self.rest.is_empty() {
            return None;
        }
        assert_eq!(self.number(1), usize::from(self.kind.byte()));
        // A number of bytes for a number, 0 for bytes with a length, and the size of
        // a case in memory for one.
        let widths: &[usize] = match self.kind {
            Kind::Files => &[0],
            Kind::Checks => &[0, 0],
            Kind::Verdicts => &[2, 2, 3, 0],
            Kind::Listings => &[3, 1, 2, 3, 0, 0],
            Kind::Replays => &[2, 0, 0],
            Kind::Writes => &[2, 0, IN_MEMORY],
        };
        let part = |width: &usize| match *width {
            0 => {
                let length = self.number(3);
                Bytes(self.take(length).to_vec())
            }
            IN_MEMORY => Bytes(self.take(IN_MEMORY).to_vec()),
            width => Number(self.number(width)),
        };
        Some(widths.iter().map(part).collect())
    }
}

fn entries(kind: Kind) -> Entries {
    let rest = &corpus(kind).entries;
    Entries { rest, kind }
}

/// The answer to an entry, by the same library but in this test's own words.
fn answer(kind: Kind, entry: &[Part], slips: &Slips) -> String {
    let said = match (kind, entry) {
        (Kind::Files, [Bytes(file)]) => {
            let written = case::read(file).and_then(|case| case::write(&case, LONGEST_FILE));
            written.map(|written| {
                assert_eq!(&written, file);
                format!("same {}", file.len())
            })
        }
        (Kind::Checks, [Bytes(file), Bytes(table)]) => {
            let checked = checks::up_to_nine(file, slips);
            assert!(*slips != Slips::default() || table_is_of(table, &checked));
            checked.map(|(_, product)| {
                let same = packed::table(&product, slips) == *table;
                let differs = if same { "" } else { ", table differs" };
                format!("accepted {}{differs}", product.markings.len())
            })
        }
        (Kind::Verdicts, [Number(matching), Number(other), Number(work), Bytes(file)]) => {
            let rooms = Rooms {
                work: *work,
                matching: *matching,
                other: *other,
            };
            judge::verdict(file, rooms, slips).map(|found| {
                let matching = found.matching.map(|run| run_words("F", &run));
                let other = found.other.map(|run| run_words("C", &run));
                let kind = format!("{:?}", found.kind).to_lowercase();
                let words = [Some(kind), matching, other];
                words.into_iter().flatten().collect::<Vec<_>>().join(" ")
            })
        }
        (
            Kind::Listings,
            [Number(limit), Number(asked), Number(room), Number(work), Bytes(given), Bytes(file)],
        ) => {
            assert!(*asked == 1 || *asked == 0 && given.is_empty());
            let after = (*asked == 1).then_some(given.as_slice());
            let listing = Listing::open(file, *work, *limit as u64, slips);
            let found = listing.and_then(|open| open.next(after, *room));
            found.map(|found| match found {
                None => "end".into(),
                Some(Explanation { run, matching }) => {
                    run_words(if matching { "F" } else { "C" }, &run)
                }
            })
        }
        (Kind::Replays, [Number(budget), Bytes(run), Bytes(file)]) => {
            let budget = u16::try_from(*budget).expect("two bytes");
            replay::replay(file, run, budget, slips).map(|done| {
                let stop = match done.stop {
                    replay::Stop::RunEnded => "run ended",
                    replay::Stop::BudgetSpent => "budget spent",
                    replay::Stop::NotFirable => "not firable",
                    replay::Stop::CapPassed => "cap passed",
                };
                format!(
                    "fired {} | {} | {} | {} | {stop} | {}",
                    done.fired,
                    spaced(&done.marking.system),
                    spaced(&done.marking.pattern),
                    if done.is_final { "final" } else { "not final" },
                    if done.explains { "explains" } else { "no" }
                )
            })
        }
        (Kind::Writes, [Number(room), Bytes(file), Bytes(memory)]) => {
            let written = Memory::from_bytes(memory).write(*room);
            assert_eq!(written.as_ref().unwrap_or(&vec![]), file);
            written.map(|written| {
                let read = case::read(&written).expect("a good file");
                assert_eq!(&Memory::of(&read).bytes(), memory);
                format!("written {}", written.len())
            })
        }
        other => panic!("no entry of its kind: {other:?}"),
    };
    said.unwrap_or_else(|refusal| refusal.to_string())
}

/// Whether a table has a row of 12 bytes for each reachable product marking, with 16
/// system places and 8 pattern places, two in a byte, and they rise; no row where the
/// case is refused.
fn table_is_of(table: &[u8], checked: &Result<(Case, Product), Refusal>) -> bool {
    let rows: Vec<&[u8]> = table.chunks(12).collect();
    let Ok((case, product)) = checked else {
        return rows.is_empty();
    };
    let tokens = |row: &[u8]| {
        let halves = row.iter().flat_map(|byte| [byte / 16, byte % 16]);
        halves.map(u32::from).collect::<Vec<u32>>()
    };
    let marking = |row: &[u8]| {
        let tokens = tokens(row);
        let (system, system_unused) = tokens[..16].split_at(case.system.first_tokens.len());
        let (pattern, pattern_unused) = tokens[16..].split_at(case.pattern.first_tokens.len());
        assert!(system_unused
            .iter()
            .chain(pattern_unused)
            .all(|one| *one == 0));
        ProductMarking {
            system: system.to_vec(),
            pattern: pattern.to_vec(),
        }
    };
    let listed: BTreeSet<ProductMarking> = rows.iter().map(|row| marking(row)).collect();
    let reached: BTreeSet<ProductMarking> = product.markings.iter().cloned().collect();
    let in_order = rows.is_sorted() && rows.iter().map(|row| tokens(row)).is_sorted();
    in_order && rows.len() == product.markings.len() && listed == reached
}

fn spaced<T: ToString>(numbers: &[T]) -> String {
    let words: Vec<String> = numbers.iter().map(T::to_string).collect();
    words.join(" ")
}

fn run_words(mark: &str, run: &[u8]) -> String {
    let words = format!("{mark} {} {}", run.len(), spaced(run));
    words.trim_end().into()
}

#[test]
fn each_entry_has_its_line() {
    for kind in Kind::ALL {
        let lines = lines(kind);
        let mut count = 0;
        for (number, entry) in entries(kind).enumerate() {
            let said = answer(kind, &entry, &Slips::default());
            assert_eq!(Some(&said.as_str()), lines.get(number), "{kind:?} {number}");
            count += 1;
        }
        assert_eq!(count, lines.len(), "{kind:?}");
    }
}

#[test]
fn corpora_stay_small() {
    for kind in Kind::ALL {
        assert!(entries(kind).count() <= 4_000, "{kind:?}");
        assert!(corpus(kind).entries.len() <= 3_000_000, "{kind:?}");
        assert!(corpus(kind).expected.len() <= 3_000_000, "{kind:?}");
    }
}

/// What a line says, without its numbers: the words, or `refused` and its number.
fn outcomes(kind: Kind, line: &str) -> Vec<String> {
    let words: Vec<&str> = line.split(' ').collect();
    if words[0] == "refused" {
        assert_eq!(words.len(), 3, "{line}");
        return vec![words[..2].join(" ")];
    }
    if kind == Kind::Replays {
        let parts: Vec<&str> = line.split(" | ").collect();
        assert_eq!(parts.len(), 6, "{line}");
        return parts[3..].iter().map(|part| part.to_string()).collect();
    }
    vec![words[0].into()]
}

/// Each outcome that a kind can have occurs, and no other does.
#[test]
fn every_outcome_occurs() {
    for kind in Kind::ALL {
        let (words, refusals): (&[&str], &[u8]) = match kind {
            Kind::Files => (&["same"], &[2]),
            Kind::Checks => (&["accepted"], &[2, 3, 4, 5, 6, 7, 8, 9]),
            Kind::Verdicts => (
                &["faulty", "safe", "ambiguous"],
                &[1, 2, 3, 4, 5, 6, 7, 8, 9, 10, 11],
            ),
            Kind::Listings => (&["F", "C", "end"], &[1, 12, 2, 3, 4, 5, 6, 7, 8, 9, 13, 11]),
            Kind::Replays => (
                &[
                    "final",
                    "not final",
                    "run ended",
                    "budget spent",
                    "not firable",
                    "cap passed",
                    "explains",
                    "no",
                ],
                &[2, 3, 4, 5, 6, 7],
            ),
            Kind::Writes => (&["written"], &[11, 14]),
        };
        let refusals = refusals.iter().map(|number| format!("refused {number}"));
        let named: BTreeSet<String> = words
            .iter()
            .map(|word| word.to_string())
            .chain(refusals)
            .collect();
        let mut counts: BTreeMap<String, usize> = BTreeMap::new();
        for outcome in lines(kind).iter().flat_map(|line| outcomes(kind, line)) {
            *counts.entry(outcome).or_default() += 1;
        }
        println!("{}: {counts:?}", kind.name());
        assert_eq!(counts.keys().cloned().collect::<BTreeSet<_>>(), named);
        // Not by a single chance case.
        assert!(counts.values().all(|count| *count >= 5), "{counts:?}");
    }
}

#[test]
fn the_table_of_01_comes_first() {
    let verdicts = [
        "safe C 0",
        "safe C 1 3",
        "safe C 1 0",
        "ambiguous F 3 0 2 4 C 3 0 1 3",
        "safe C 4 0 1 3 0",
        "faulty F 3 0 2 4",
        "refused 10 0",
        "safe C 3 0 1 3",
        "ambiguous F 2 0 2 C 1 0",
    ];
    assert_eq!(lines(Kind::Verdicts)[..9], verdicts);
    for (entry, number) in entries(Kind::Verdicts).zip(1..=9) {
        let file = case::bytes(&hub_case(number));
        assert!(
            matches!(&entry[..], [Number(2_048), Number(2_048), Number(51_200), Bytes(one)] if *one == file)
        );
    }
    let listings = [
        "C 3 0 1 3",
        "F 3 0 2 4",
        "end",
        "end",
        "C 4 0 1 3 0",
        "C 5 0 1 3 0 1",
        "C 5 0 1 3 0 2",
        "end",
    ];
    assert_eq!(lines(Kind::Listings)[..8], listings);
}

/// Each slip that a kind can show changes some line of its corpus; where the table
/// is another, a program that has the slip says so in the line.
#[test]
fn each_slip_shows() {
    let right = Slips::default;
    let stops = Slips {
        stop_at_last_log_line: true,
        ..right()
    };
    let idle = Slips {
        unexplained_is_safe: true,
        ..right()
    };
    let chain = Slips {
        higher_must_be_firable: true,
        ..right()
    };
    let set = Slips {
        marking_is_a_set: true,
        ..right()
    };
    let skips = Slips {
        pattern_may_skip: true,
        ..right()
    };
    let swaps = Slips {
        halves_swapped: true,
        ..right()
    };
    let wraps = Slips {
        cap_after_wrap: true,
        ..right()
    };
    for (kind, slips) in [
        (Kind::Checks, vec![chain, set, skips, swaps, wraps]),
        (Kind::Verdicts, vec![stops, idle, chain, set, skips, wraps]),
        (Kind::Listings, vec![stops, chain, set, skips, wraps]),
        (Kind::Replays, vec![chain, set, wraps]),
    ] {
        for slip in slips {
            let mut answers = entries(kind).zip(lines(kind));
            let shows = answers.any(|(entry, line)| answer(kind, &entry, &slip) != line);
            assert!(shows, "{kind:?} {slip:?}");
        }
    }
}

/// The corpus that is kept beside the proved work is what this program makes.
#[test]
fn the_committed_corpus_has_not_drifted() {
    let folder = Path::new(env!("CARGO_MANIFEST_DIR")).join("../crates/corpora");
    if !folder.exists() {
        return;
    }
    let read = |name: &str| std::fs::read(folder.join(name)).expect("a committed file");
    let whole = Corpus::whole();
    let says = "make it anew with `second corpus`";
    assert!(read("data/corpus") == whole.entries, "{says}");
    assert!(read("stdout") == whole.expected.as_bytes(), "{says}");
}
