//! The whole reads of floats and doubles by value. A caller of the crate reads them by bits; these are the proved library's own, which
//! give the one NaN for every NaN pattern and so test each value.

use crate::clock::{opaque, Clock};
use crate::header::read;
use crate::kind::Kind;
use crate::table::Most;
use crate::whole::{beside_loop, file, VALUES};

/// A type that has such a read.
pub trait ByValue: Kind {
    /// What it is called in the table, and the most that it may take beside the loop.
    const LINE: (&'static str, Most);

    /// All `VALUES` values that stand in `file` from `begin` on: 0, or the number of a refusal.
    fn read(file: &[u8], begin: u64, out: &mut [Self]) -> u8;
    /// Whether both are the same value, a NaN being like any other.
    fn alike(self, other: Self) -> bool;
}

macro_rules! by_value {
    ($type:ty, $line:literal, $most:expr, $function:ident) => {
        impl ByValue for $type {
            const LINE: (&'static str, Most) = ($line, $most);

            fn read(file: &[u8], begin: u64, out: &mut [Self]) -> u8 {
                extern "C" {
                    fn $function(
                        begin: u64,
                        count: u64,
                        window: *const u8,
                        bytes: u64,
                        start: u64,
                        out: *mut $type,
                        room: u64,
                    ) -> u32;
                }
                let (bytes, room) = (file.len() as u64, out.len() as u64);
                // SAFETY: both slices outlive the call.
                let number =
                    unsafe { $function(begin, VALUES as u64, file.as_ptr(), bytes, 0, out.as_mut_ptr(), room) };
                number as u8
            }

            fn alike(self, other: Self) -> bool {
                self.to_bits() == other.to_bits() || self.is_nan() && other.is_nan()
            }
        }
    };
}

by_value!(f32, "float by value", Most::Ratio(1.5), fungal_values_f32);
by_value!(f64, "double by value", Most::Open, fungal_values_f64);

pub fn measure<T: ByValue>(clock: Clock) {
    let file = file::<T>();
    let begin = read(&file).variable("x").expect("there is one").begin();
    let ours = |out: &mut [T]| assert_eq!(T::read(opaque(&file[..]), begin, out), 0);
    let same = |a: &[T], b: &[T]| a.iter().zip(b).all(|(a, b)| a.alike(*b));
    beside_loop(T::LINE, clock, &file[begin as usize..], ours, same);
}
