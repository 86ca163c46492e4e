//! Slices that are lent to a call, with guard words before and behind them.
use crate::random::Random;

/// How many guard words stand at each end.
/// A call that writes beside its slice is caught by them.
const GUARD: usize = 4;

/// A lent slice inside its guard words.
/// Two of them are the same when slices and guards are.
#[derive(Clone, PartialEq, Eq)]
pub struct Lent<T> {
    words: Vec<T>,
}

/// A word that can be made from 64 random bits.
/// The widths are those that the C calls take.
pub trait Word: Copy + PartialEq {
    fn cut(bits: u64) -> Self;
}

impl Word for u8 {
    /// The lowest eight bits.
    /// For images and output.
    fn cut(bits: u64) -> u8 {
        bits as u8
    }
}

impl Word for u16 {
    /// The lowest sixteen bits.
    /// For links.
    fn cut(bits: u64) -> u16 {
        bits as u16
    }
}

impl Word for u64 {
    /// All bits.
    /// For cells, keys, catalogues, records and results.
    fn cut(bits: u64) -> u64 {
        bits
    }
}

impl<T: Word> Lent<T> {
    /// A slice of the length, filled with a random pattern, guards too.
    /// The pattern is one random start and a fixed step, which is fast for long slices.
    pub fn pattern(length: usize, random: &mut Random) -> Lent<T> {
        let mut bits = random.word();
        let mut words = Vec::with_capacity(length + 2 * GUARD);
        for _ in 0..length + 2 * GUARD {
            bits = bits.wrapping_mul(0x5851_f42d_4c95_7f2d).wrapping_add(0x1405_7b7e_f767_814f);
            words.push(T::cut(bits >> 7 ^ bits << 50));
        }
        Lent { words }
    }

    /// A slice that holds the values, between random guards.
    /// Its length is the number of values.
    pub fn holding(values: &[T], random: &mut Random) -> Lent<T> {
        let mut lent = Lent::pattern(values.len(), random);
        lent.slice_mut().copy_from_slice(values);
        lent
    }

    /// The slice without its guards.
    /// For reading.
    pub fn slice(&self) -> &[T] {
        &self.words[GUARD..self.words.len() - GUARD]
    }

    /// The slice without its guards.
    /// For lending to a call that writes.
    pub fn slice_mut(&mut self) -> &mut [T] {
        let end = self.words.len() - GUARD;
        &mut self.words[GUARD..end]
    }

    /// The slice's length.
    /// Guards do not count.
    pub fn length(&self) -> usize {
        self.words.len() - 2 * GUARD
    }
}
