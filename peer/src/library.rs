//! The proved library's C calls in safe wrappers. All unsafe code of the peer stands here.
//! With the feature `mock` the same names are the peer's own functions.
#[cfg(feature = "stream")]
use crate::rule::Store;
#[cfg(feature = "stream")]
use crate::words::Call;

// The library's calls on images, as its C names declare them.
// A slice passes as a pointer and then its length in elements.
extern "C" {
    fn harbour_check(image: *const u8, length: usize) -> u64;
    #[allow(clippy::too_many_arguments)]
    fn harbour_load(
        image: *const u8, image_length: usize, cells: *mut u64, cells_length: usize, catalogue: *mut u64, catalogue_length: usize,
        looked: *mut u64, looked_length: usize,
    ) -> u64;
    fn harbour_make_catalogue(given: *const u64, given_length: usize, catalogue: *mut u64, catalogue_length: usize) -> u64;
    fn harbour_write(catalogue: *const u64, catalogue_length: usize, cells: *const u64, cells_length: usize, out: *mut u8, out_length: usize) -> u64;
}

// The library's stream calls, declared in the same way.
// Nothing checks a declaration against the library's source, so they are kept in one place.
#[cfg(feature = "stream")]
extern "C" {
    #[allow(clippy::too_many_arguments)]
    fn harbour_open(
        catalogue: *const u64, catalogue_length: usize, cells: *const u64, cells_length: usize,
        low: *mut u64, low_length: usize, high: *mut u64, high_length: usize,
        left: *mut u16, left_length: usize, right: *mut u16, right_length: usize,
        record: *mut u64, record_length: usize,
    ) -> u64;
    #[allow(clippy::too_many_arguments)]
    fn harbour_next(
        catalogue: *const u64, catalogue_length: usize, cells: *const u64, cells_length: usize,
        low: *mut u64, low_length: usize, high: *mut u64, high_length: usize,
        left: *mut u16, left_length: usize, right: *mut u16, right_length: usize,
        record: *mut u64, record_length: usize, budget: u64,
        padded: *mut u64, padded_length: usize, result: *mut u64, result_length: usize,
    ) -> u64;
    #[allow(clippy::too_many_arguments)]
    fn harbour_open_holding(
        catalogue: *const u64, catalogue_length: usize, cells: *const u64, cells_length: usize,
        low: *mut u64, low_length: usize, high: *mut u64, high_length: usize,
        left: *mut u16, left_length: usize, right: *mut u16, right_length: usize,
        table: u64, row: u64, record: *mut u64, record_length: usize,
    ) -> u64;
    #[allow(clippy::too_many_arguments)]
    fn harbour_next_holding(
        catalogue: *const u64, catalogue_length: usize, cells: *const u64, cells_length: usize,
        low: *mut u64, low_length: usize, high: *mut u64, high_length: usize,
        left: *mut u16, left_length: usize, right: *mut u16, right_length: usize,
        record: *mut u64, record_length: usize, budget: u64,
        padded: *mut u64, padded_length: usize, result: *mut u64, result_length: usize,
    ) -> u64;
    fn harbour_covers(first: *const u64, first_length: usize, second: *const u64, second_length: usize) -> u64;
    #[allow(clippy::too_many_arguments)]
    fn harbour_check_list(
        catalogue: *const u64, catalogue_length: usize, cells: *const u64, cells_length: usize,
        low: *const u64, low_length: usize, high: *const u64, high_length: usize, result: *mut u64, result_length: usize,
    ) -> u64;
}

/// Is it the library that is called, or the peer under its names?
/// The programs print it, so that nobody takes one for the other.
pub const MOCK: bool = cfg!(feature = "mock");

/// The library's check of one image.
/// See `words::check`.
pub fn check(image: &[u8]) -> u64 {
    unsafe { harbour_check(image.as_ptr(), image.len()) }
}

/// The library's load.
/// See `words::load`.
pub fn load(image: &[u8], cells: &mut [u64], catalogue: &mut [u64], looked: &mut [u64]) -> u64 {
    unsafe {
        harbour_load(
            image.as_ptr(), image.len(), cells.as_mut_ptr(), cells.len(), catalogue.as_mut_ptr(), catalogue.len(),
            looked.as_mut_ptr(), looked.len(),
        )
    }
}

/// The library's making of a catalogue.
/// See `words::make_catalogue`.
pub fn make_catalogue(given: &[u64], catalogue: &mut [u64]) -> u64 {
    unsafe { harbour_make_catalogue(given.as_ptr(), given.len(), catalogue.as_mut_ptr(), catalogue.len()) }
}

/// The library's write.
/// See `words::write`.
pub fn write(catalogue: &[u64], cells: &[u64], out: &mut [u8]) -> u64 {
    unsafe { harbour_write(catalogue.as_ptr(), catalogue.len(), cells.as_ptr(), cells.len(), out.as_mut_ptr(), out.len()) }
}

/// The library's open.
/// See `words::open`.
#[cfg(feature = "stream")]
pub fn open(catalogue: &[u64], cells: &[u64], store: &mut Store, record: &mut [u64]) -> u64 {
    unsafe {
        harbour_open(
            catalogue.as_ptr(), catalogue.len(), cells.as_ptr(), cells.len(),
            store.low.as_mut_ptr(), store.low.len(), store.high.as_mut_ptr(), store.high.len(),
            store.left.as_mut_ptr(), store.left.len(), store.right.as_mut_ptr(), store.right.len(),
            record.as_mut_ptr(), record.len(),
        )
    }
}

/// The library's stream call.
/// See `words::next`.
#[cfg(feature = "stream")]
pub fn next(catalogue: &[u64], cells: &[u64], store: &mut Store, call: Call) -> u64 {
    unsafe {
        harbour_next(
            catalogue.as_ptr(), catalogue.len(), cells.as_ptr(), cells.len(),
            store.low.as_mut_ptr(), store.low.len(), store.high.as_mut_ptr(), store.high.len(),
            store.left.as_mut_ptr(), store.left.len(), store.right.as_mut_ptr(), store.right.len(),
            call.record.as_mut_ptr(), call.record.len(), call.budget,
            call.padded.as_mut_ptr(), call.padded.len(), call.result.as_mut_ptr(), call.result.len(),
        )
    }
}

/// The library's open of the sets that hold one row.
/// See `words::open`.
#[cfg(feature = "stream")]
pub fn open_holding(catalogue: &[u64], cells: &[u64], store: &mut Store, table: u64, row: u64, record: &mut [u64]) -> u64 {
    unsafe {
        harbour_open_holding(
            catalogue.as_ptr(), catalogue.len(), cells.as_ptr(), cells.len(),
            store.low.as_mut_ptr(), store.low.len(), store.high.as_mut_ptr(), store.high.len(),
            store.left.as_mut_ptr(), store.left.len(), store.right.as_mut_ptr(), store.right.len(),
            table, row, record.as_mut_ptr(), record.len(),
        )
    }
}

/// The library's call of that stream.
/// See `words::next`.
#[cfg(feature = "stream")]
pub fn next_holding(catalogue: &[u64], cells: &[u64], store: &mut Store, call: Call) -> u64 {
    unsafe {
        harbour_next_holding(
            catalogue.as_ptr(), catalogue.len(), cells.as_ptr(), cells.len(),
            store.low.as_mut_ptr(), store.low.len(), store.high.as_mut_ptr(), store.high.len(),
            store.left.as_mut_ptr(), store.left.len(), store.right.as_mut_ptr(), store.right.len(),
            call.record.as_mut_ptr(), call.record.len(), call.budget,
            call.padded.as_mut_ptr(), call.padded.len(), call.result.as_mut_ptr(), call.result.len(),
        )
    }
}

/// The library's covers.
/// See `words::covers`.
#[cfg(feature = "stream")]
pub fn covers(first: &[u64], second: &[u64]) -> u64 {
    unsafe { harbour_covers(first.as_ptr(), first.len(), second.as_ptr(), second.len()) }
}

/// The library's check of a list of keys.
/// See `lists::check_list`.
#[cfg(feature = "stream")]
pub fn check_list(catalogue: &[u64], cells: &[u64], listed: (&[u64], &[u64]), result: &mut [u64]) -> u64 {
    let (low, high) = listed;
    unsafe {
        harbour_check_list(
            catalogue.as_ptr(), catalogue.len(), cells.as_ptr(), cells.len(), low.as_ptr(), low.len(), high.as_ptr(), high.len(),
            result.as_mut_ptr(), result.len(),
        )
    }
}

/// The peer's own functions under the C names, for trying the programs out while there is no library.
/// Comparing with them shows nothing about the library.
#[cfg(feature = "mock")]
mod mock {
    use crate::lists;
    use crate::rule::{Asked, Store};
    use crate::words;
    use std::slice;

    /// The slice that a C caller lends for reading.
    /// A pointer with length 0 is not followed.
    unsafe fn lent<'a, T>(pointer: *const T, length: usize) -> &'a [T] {
        if length == 0 {
            &[]
        } else {
            slice::from_raw_parts(pointer, length)
        }
    }

    /// The slice that a C caller lends for writing.
    /// A pointer with length 0 is not followed.
    unsafe fn lent_mut<'a, T>(pointer: *mut T, length: usize) -> &'a mut [T] {
        if length == 0 {
            &mut []
        } else {
            slice::from_raw_parts_mut(pointer, length)
        }
    }

    /// The mock of check.
    /// See `words::check`.
    #[no_mangle]
    unsafe extern "C" fn harbour_check(image: *const u8, length: usize) -> u64 {
        words::check(lent(image, length))
    }

    /// The mock of load.
    /// See `words::load`.
    #[no_mangle]
    #[allow(clippy::too_many_arguments)]
    unsafe extern "C" fn harbour_load(
        image: *const u8, image_length: usize, cells: *mut u64, cells_length: usize, catalogue: *mut u64, catalogue_length: usize,
        looked: *mut u64, looked_length: usize,
    ) -> u64 {
        words::load(lent(image, image_length), lent_mut(cells, cells_length), lent_mut(catalogue, catalogue_length), lent_mut(looked, looked_length))
    }

    /// The mock of the making of a catalogue.
    /// See `words::make_catalogue`.
    #[no_mangle]
    unsafe extern "C" fn harbour_make_catalogue(given: *const u64, given_length: usize, catalogue: *mut u64, catalogue_length: usize) -> u64 {
        words::make_catalogue(lent(given, given_length), lent_mut(catalogue, catalogue_length))
    }

    /// The mock of write.
    /// See `words::write`.
    #[no_mangle]
    unsafe extern "C" fn harbour_write(catalogue: *const u64, catalogue_length: usize, cells: *const u64, cells_length: usize, out: *mut u8, out_length: usize) -> u64 {
        words::write(lent(catalogue, catalogue_length), lent(cells, cells_length), lent_mut(out, out_length))
    }

    /// The mock of open.
    /// See `words::open`.
    #[no_mangle]
    #[allow(clippy::too_many_arguments)]
    unsafe extern "C" fn harbour_open(
        catalogue: *const u64, catalogue_length: usize, cells: *const u64, cells_length: usize,
        low: *mut u64, low_length: usize, high: *mut u64, high_length: usize,
        left: *mut u16, left_length: usize, right: *mut u16, right_length: usize,
        record: *mut u64, record_length: usize,
    ) -> u64 {
        let (low, high) = (lent_mut(low, low_length), lent_mut(high, high_length));
        let mut store = Store { low, high, left: lent_mut(left, left_length), right: lent_mut(right, right_length) };
        words::open(Asked::EverySet, lent(catalogue, catalogue_length), lent(cells, cells_length), &mut store, lent_mut(record, record_length))
    }

    /// The mock of open for the sets that hold one row.
    /// See `words::open`.
    #[no_mangle]
    #[allow(clippy::too_many_arguments)]
    unsafe extern "C" fn harbour_open_holding(
        catalogue: *const u64, catalogue_length: usize, cells: *const u64, cells_length: usize,
        low: *mut u64, low_length: usize, high: *mut u64, high_length: usize,
        left: *mut u16, left_length: usize, right: *mut u16, right_length: usize,
        table: u64, row: u64, record: *mut u64, record_length: usize,
    ) -> u64 {
        let (low, high) = (lent_mut(low, low_length), lent_mut(high, high_length));
        let mut store = Store { low, high, left: lent_mut(left, left_length), right: lent_mut(right, right_length) };
        let asked = Asked::Holding { table, row };
        words::open(asked, lent(catalogue, catalogue_length), lent(cells, cells_length), &mut store, lent_mut(record, record_length))
    }

    /// The mock of the stream call.
    /// See `words::next`.
    #[no_mangle]
    #[allow(clippy::too_many_arguments)]
    unsafe extern "C" fn harbour_next(
        catalogue: *const u64, catalogue_length: usize, cells: *const u64, cells_length: usize,
        low: *mut u64, low_length: usize, high: *mut u64, high_length: usize,
        left: *mut u16, left_length: usize, right: *mut u16, right_length: usize,
        record: *mut u64, record_length: usize, budget: u64,
        padded: *mut u64, padded_length: usize, result: *mut u64, result_length: usize,
    ) -> u64 {
        let (low, high) = (lent_mut(low, low_length), lent_mut(high, high_length));
        let mut store = Store { low, high, left: lent_mut(left, left_length), right: lent_mut(right, right_length) };
        let call = words::Call {
            record: lent_mut(record, record_length),
            budget,
            padded: lent_mut(padded, padded_length),
            result: lent_mut(result, result_length),
        };
        words::next(words::RECORD, lent(catalogue, catalogue_length), lent(cells, cells_length), &mut store, call).0
    }

    /// The mock of the call of the sets that hold one row.
    /// See `words::next`.
    #[no_mangle]
    #[allow(clippy::too_many_arguments)]
    unsafe extern "C" fn harbour_next_holding(
        catalogue: *const u64, catalogue_length: usize, cells: *const u64, cells_length: usize,
        low: *mut u64, low_length: usize, high: *mut u64, high_length: usize,
        left: *mut u16, left_length: usize, right: *mut u16, right_length: usize,
        record: *mut u64, record_length: usize, budget: u64,
        padded: *mut u64, padded_length: usize, result: *mut u64, result_length: usize,
    ) -> u64 {
        let (low, high) = (lent_mut(low, low_length), lent_mut(high, high_length));
        let mut store = Store { low, high, left: lent_mut(left, left_length), right: lent_mut(right, right_length) };
        let call = words::Call {
            record: lent_mut(record, record_length),
            budget,
            padded: lent_mut(padded, padded_length),
            result: lent_mut(result, result_length),
        };
        words::next(words::HOLDING, lent(catalogue, catalogue_length), lent(cells, cells_length), &mut store, call).0
    }

    /// The mock of covers.
    /// See `words::covers`.
    #[no_mangle]
    unsafe extern "C" fn harbour_covers(first: *const u64, first_length: usize, second: *const u64, second_length: usize) -> u64 {
        words::covers(lent(first, first_length), lent(second, second_length))
    }

    /// The mock of the check of a list; it drains the stream to know the maximal sets.
    /// See `lists::check_list`.
    #[no_mangle]
    #[allow(clippy::too_many_arguments)]
    unsafe extern "C" fn harbour_check_list(
        catalogue: *const u64, catalogue_length: usize, cells: *const u64, cells_length: usize,
        low: *const u64, low_length: usize, high: *const u64, high_length: usize, result: *mut u64, result_length: usize,
    ) -> u64 {
        let (catalogue, cells) = (lent(catalogue, catalogue_length), lent(cells, cells_length));
        let maximal = if catalogue.len() < words::CATALOGUE { Default::default() } else { lists::drained(&words::catalogue_of(catalogue), cells) };
        let listed = (lent(low, low_length), lent(high, high_length));
        lists::check_list(catalogue, cells, listed, &maximal, lent_mut(result, result_length))
    }
}
