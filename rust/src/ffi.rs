//! The functions of the proved library, and the only unsafe code of this crate.
//!
//! A slice crosses as a pointer and a length of 64 bits, on 32-bit machines too. Every function takes every input, so a
//! wrapper has nothing to test: that a slice's memory is there for the time of the call is all that the library asks.
//! The answers are document 01's numbers; a refusal writes nothing.

use crate::Window;

/// How many words the tables of a header take.
pub(crate) const TABLES_WORDS: usize = 1768;
/// How many words a placed variable takes.
pub(crate) const VARIABLE_WORDS: usize = 5;

/// A header's tables, one number a word; `tables` has the places.
pub(crate) type Tables = [u64; TABLES_WORDS];
/// What reads need of a variable: begin, records, record size, elements a record, type code.
pub(crate) type Placed = [u64; VARIABLE_WORDS];

/// An answer as it comes back: its number in the last 8 bits. The library, which returns a byte, leaves the bits above open;
/// a function declared to return `u8` would on some machines be taken to have cleared them.
type Returned = u32;

/// Room for tables. Made as a vector, so that the words are not first laid out on the stack and then copied.
pub(crate) fn no_tables() -> Box<Tables> {
    let words = vec![0; TABLES_WORDS].into_boxed_slice();
    words.try_into().expect("as many words as were asked for")
}

#[rustfmt::skip]
mod c {
    use super::Returned;

    extern "C" {
        pub fn fungal_read_header(prefix: *const u8, bytes: u64, size: u64, versions: u8, tables: *mut u64, words: u64, end: *mut u64) -> Returned;
        pub fn fungal_header_place(prefix: *const u8, bytes: u64, size: u64, versions: u8) -> u64;
        pub fn fungal_find_var(tables: *const u64, words: u64, text: *const u8, bytes: u64, name: *const u8, chars: u64, number: *mut u64) -> Returned;
        pub fn fungal_place_var(tables: *const u64, words: u64, number: u64, var: *mut u64, var_words: u64) -> Returned;
        pub fn fungal_read_element(var: *const u64, words: u64, window: *const u8, bytes: u64, start: u64, record: u64, element: u64, code: *mut u64, bits: *mut u64) -> Returned;
        pub fn fungal_write_header(tables: *const u64, words: u64, text: *const u8, bytes: u64, out: *mut u8, room: u64, length: *mut u64) -> Returned;
        pub fn fungal_widen(prefix: *const u8, bytes: u64, size: u64, out: *mut u8, room: u64, length: *mut u64, new_size: *mut u64) -> Returned;
        pub fn fungal_guest32(tables: *const u64, words: u64, error: *mut u64, records: *mut u64, foreign: *mut u64, cut: *mut u64) -> Returned;
        pub fn fungal_narrow(prefix: *const u8, bytes: u64, size: u64, out: *mut u8, room: u64, length: *mut u64, new_size: *mut u64) -> Returned;
    }
}

/// Number, and the header's end.
pub(crate) fn read_header(prefix: &[u8], size: u64, versions: u8, tables: &mut Tables) -> (u8, u64) {
    let mut end = 0;
    let (bytes, words) = (prefix.len() as u64, tables.len() as u64);
    // SAFETY: both slices and `end` outlive the call.
    let number =
        unsafe { c::fungal_read_header(prefix.as_ptr(), bytes, size, versions, tables.as_mut_ptr(), words, &mut end) };
    (number as u8, end)
}

/// The place that goes with a header's refusal.
pub(crate) fn header_place(prefix: &[u8], size: u64, versions: u8) -> u64 {
    // SAFETY: the slice outlives the call.
    unsafe { c::fungal_header_place(prefix.as_ptr(), prefix.len() as u64, size, versions) }
}

/// Number, and the number of the first variable of that name.
pub(crate) fn find_var(tables: &Tables, text: &[u8], name: &[u8]) -> (u8, u64) {
    let mut found = 0;
    let (words, bytes, chars) = (tables.len() as u64, text.len() as u64, name.len() as u64);
    // SAFETY: the slices and `found` outlive the call.
    let number =
        unsafe { c::fungal_find_var(tables.as_ptr(), words, text.as_ptr(), bytes, name.as_ptr(), chars, &mut found) };
    (number as u8, found)
}

pub(crate) fn place_var(tables: &Tables, variable: u64, placed: &mut Placed) -> u8 {
    let (words, room) = (tables.len() as u64, placed.len() as u64);
    // SAFETY: both slices outlive the call.
    let number = unsafe { c::fungal_place_var(tables.as_ptr(), words, variable, placed.as_mut_ptr(), room) };
    number as u8
}

/// Number, type code and bits.
pub(crate) fn read_element(placed: &Placed, window: Window<'_>, record: u64, element: u64) -> (u8, u64, u64) {
    let (mut code, mut bits) = (0, 0);
    let (words, bytes) = (placed.len() as u64, window.bytes.len() as u64);
    let at = window.bytes.as_ptr();
    // SAFETY: the slices, `code` and `bits` outlive the call.
    let number = unsafe {
        c::fungal_read_element(placed.as_ptr(), words, at, bytes, window.start, record, element, &mut code, &mut bits)
    };
    (number as u8, code, bits)
}

/// Number, and the header's length.
pub(crate) fn write_header(tables: &Tables, text: &[u8], out: &mut [u8]) -> (u8, u64) {
    let mut length = 0;
    let (words, bytes, room) = (tables.len() as u64, text.len() as u64, out.len() as u64);
    // SAFETY: the slices and `length` outlive the call.
    let number = unsafe {
        c::fungal_write_header(tables.as_ptr(), words, text.as_ptr(), bytes, out.as_mut_ptr(), room, &mut length)
    };
    (number as u8, length)
}

/// Number; then what a 32-bit build of netcdf3 makes of the file: its error or 0, the records that it finds, the first from
/// elsewhere, the first variable cut short.
pub(crate) fn guest32(tables: &Tables) -> (u8, [u64; 4]) {
    let (mut error, mut records, mut foreign, mut cut) = (0, 0, 0, 0);
    let words = tables.len() as u64;
    // SAFETY: the slice and the four numbers outlive the call.
    let number = unsafe { c::fungal_guest32(tables.as_ptr(), words, &mut error, &mut records, &mut foreign, &mut cut) };
    (number as u8, [error, records, foreign, cut])
}

macro_rules! conversion {
    ($name:ident, $function:ident) => {
        /// Number, the new header's length, the new file's size.
        pub(crate) fn $name(prefix: &[u8], size: u64, out: &mut [u8]) -> (u8, u64, u64) {
            let (mut length, mut new_size) = (0, 0);
            let (bytes, room) = (prefix.len() as u64, out.len() as u64);
            let at = out.as_mut_ptr();
            // SAFETY: both slices, `length` and `new_size` outlive the call.
            let number = unsafe { c::$function(prefix.as_ptr(), bytes, size, at, room, &mut length, &mut new_size) };
            (number as u8, length, new_size)
        }
    };
}

conversion!(widen, fungal_widen);
conversion!(narrow, fungal_narrow);

/// The reads of one type: `$bits` is the whole number that has the type's size, alignment and bits.
macro_rules! typed_reads {
    ($module:ident, $value:ty, $bits:ty, $read_var:ident, $read_record:ident) => {
        #[rustfmt::skip]
        pub(crate) mod $module {
            use super::{Placed, Returned, Window};

            extern "C" {
                fn $read_var(var: *const u64, words: u64, window: *const u8, bytes: u64, start: u64, out: *mut $bits, room: u64) -> Returned;
                fn $read_record(var: *const u64, words: u64, window: *const u8, bytes: u64, start: u64, record: u64, out: *mut $bits, room: u64) -> Returned;
            }

            pub(crate) fn read_var(placed: &Placed, window: Window<'_>, out: &mut [$value]) -> u8 {
                let (words, bytes, room) = (placed.len() as u64, window.bytes.len() as u64, out.len() as u64);
                let out = out.as_mut_ptr() as *mut $bits;
                // SAFETY: the slices outlive the call; any bits are a value.
                let number = unsafe { $read_var(placed.as_ptr(), words, window.bytes.as_ptr(), bytes, window.start, out, room) };
                number as u8
            }

            pub(crate) fn read_record(placed: &Placed, window: Window<'_>, record: u64, out: &mut [$value]) -> u8 {
                let (words, bytes, room) = (placed.len() as u64, window.bytes.len() as u64, out.len() as u64);
                let out = out.as_mut_ptr() as *mut $bits;
                // SAFETY: the slices outlive the call; any bits are a value.
                let number = unsafe { $read_record(placed.as_ptr(), words, window.bytes.as_ptr(), bytes, window.start, record, out, room) };
                number as u8
            }
        }
    };
}

typed_reads!(byte, i8, i8, fungal_read_var_i8, fungal_read_record_i8);
typed_reads!(char, u8, u8, fungal_read_var_u8, fungal_read_record_u8);
typed_reads!(short, i16, i16, fungal_read_var_i16, fungal_read_record_i16);
typed_reads!(int, i32, i32, fungal_read_var_i32, fungal_read_record_i32);
typed_reads!(float, f32, u32, fungal_read_var_f32, fungal_read_record_f32);
typed_reads!(double, f64, u64, fungal_read_var_f64, fungal_read_record_f64);

#[cfg(test)]
mod tests {
    extern "C" {
        fn fungal_tables_words() -> u64;
        fn fungal_variable_words() -> u64;
    }

    #[test]
    fn lengths_are_the_librarys() {
        // SAFETY: neither function takes anything.
        let (tables, variable) = unsafe { (fungal_tables_words(), fungal_variable_words()) };
        assert_eq!((tables, variable), (super::TABLES_WORDS as u64, super::VARIABLE_WORDS as u64));
    }
}
