//! An independent second program for the rules of 01, the scope paper, and of the
//! requests in 02 that have landed: it reads case files, judges them, lists
//! explanations and replays runs. It is written from those alone and by plain means
//! (vectors, sets, searches over the whole graph), so that a slip on either side
//! shows as a difference in the answers.

pub mod answers;
pub mod bench;
pub mod case;
pub mod checks;
pub mod compare;
pub mod corpus;
pub mod judge;
pub mod known;
pub mod make;
pub mod memory;
pub mod net;
pub mod packed;
pub mod random;
pub mod replay;

/// A refusal: its number in 01's table and the number beside it.
#[derive(Clone, Copy, Debug, PartialEq, Eq, Hash, PartialOrd, Ord)]
pub struct Refusal {
    pub number: u8,
    pub beside: usize,
}

impl Refusal {
    /// A refusal with 0 beside it, as most have.
    pub fn plain(number: u8) -> Refusal {
        Refusal { number, beside: 0 }
    }
}

impl std::fmt::Display for Refusal {
    fn fmt(&self, out: &mut std::fmt::Formatter<'_>) -> std::fmt::Result {
        write!(out, "refused {} {}", self.number, self.beside)
    }
}

/// The slips that 01 lists, and two that W-205 of 02 invites. All are off in the
/// program; only tests turn one on, to show that some case would give it away.
#[derive(Clone, Copy, Debug, Default, PartialEq, Eq)]
pub struct Slips {
    /// An explanation ends with the log's last label: nothing silent after it.
    pub stop_at_last_log_line: bool,
    /// A log that no run explains is called Safe.
    pub unexplained_is_safe: bool,
    /// The higher transition blocks only if it is itself firable.
    pub higher_must_be_firable: bool,
    /// A marking is a set of places: taking empties, putting never adds up.
    pub marking_is_a_set: bool,
    /// The pattern may stay although it could follow.
    pub pattern_may_skip: bool,
    /// Of the two places in a byte the first is in the low half.
    pub halves_swapped: bool,
    /// Tokens are counted in halves of bytes, and the cap is asked afterwards: 15
    /// and one more are 0, with a carry into the place before.
    pub cap_after_wrap: bool,
}
