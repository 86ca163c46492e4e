//! The second program. It follows the written rules alone and shares no code with
//! the proved library, so that running both on the same input means something.
#![deny(unsafe_code)]

/// Fails unless a fact that the peer itself relies on holds.
/// It is `assert!` under a name that the tests print well.
#[macro_export]
macro_rules! hold {
    ($fact:expr, $($words:tt)*) => {
        if !$fact {
            return Err(format!($($words)*));
        }
    };
}

pub mod brute;
pub mod edges;
pub mod image;
#[cfg(feature = "stream")]
pub mod lending;
pub mod lent;
#[allow(unsafe_code)]
pub mod library;
pub mod listing;
#[cfg(feature = "stream")]
pub mod lists;
#[cfg(feature = "stream")]
pub mod longkeys;
pub mod make;
pub mod numbers;
pub mod random;
pub mod refusal;
pub mod rule;
pub mod selfcheck;
pub mod stored;
#[cfg(feature = "stream")]
pub mod streams;
#[cfg(feature = "stream")]
pub mod swift;
pub mod tally;
pub mod words;
