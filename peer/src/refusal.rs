//! The numbers of the refusals.

/// Why a call was refused; the cases stand in the order of their numbers.
/// 31 is no refusal of the rules: it is the C calls' answer to a short word slice.
#[derive(Clone, Copy, Debug, PartialEq, Eq)]
pub enum Refusal {
    Ends = 1,
    NotShortest = 2,
    Version = 3,
    Range = 4,
    Scheme = 5,
    Rows = 6,
    Order = 7,
    Cells = 8,
    Surplus = 9,
    Code = 10,
    Short = 11,
    Full = 12,
    Record = 13,
    Damaged = 14,
    Stored = 16,
    Endless = 17,
    NoRow = 19,
    NeedlessVersion = 20,
    NullRow = 21,
}

impl Refusal {
    /// The refusal's number.
    /// It is the one of the table in the rules.
    pub fn number(self) -> u64 {
        self as u64
    }
}

/// A refusal of the loader, with its place and the bytes looked at.
/// The place counts bytes from the image's first, which is 0; the count is 0 but for a number's own faults.
#[derive(Clone, Copy, Debug, PartialEq, Eq)]
pub struct Fault {
    pub refusal: Refusal,
    pub place: usize,
    pub looked: usize,
}

impl Fault {
    /// A refusal that is no number's own.
    /// Its count is 0.
    pub fn at(place: usize, refusal: Refusal) -> Fault {
        Fault { refusal, place, looked: 0 }
    }
}
