//! The Rust types that values are read as.

use crate::ffi::{self, Placed};
use crate::{DataType, Values, Window};

/// A type that values are read as: `i8`, `u8`, `i16`, `i32`, `f32` or `f64`, for the format's byte, char, short, int,
/// float and double. No other type can be added.
///
/// ```
/// use fungalcove::{DataType, Element};
///
/// assert_eq!(f64::DATA_TYPE, DataType::Double);
/// ```
pub trait Element: sealed::Sealed {
    /// The format's type.
    const DATA_TYPE: DataType;
}

pub(crate) mod sealed {
    use super::*;

    /// What the reads need of each type.
    pub trait Sealed: Copy + Default {
        fn read_var(placed: &Placed, window: Window<'_>, out: &mut [Self]) -> u8;
        fn read_record(placed: &Placed, window: Window<'_>, record: u64, out: &mut [Self]) -> u8;
        /// The values that an attribute's bytes hold.
        fn of_bytes(bytes: &[u8]) -> Vec<Self>;
    }
}

macro_rules! elements {
    ($($type:ty, $case:ident, $reads:ident;)*) => {$(
        impl Element for $type {
            const DATA_TYPE: DataType = DataType::$case;
        }

        impl sealed::Sealed for $type {
            fn read_var(placed: &Placed, window: Window<'_>, out: &mut [Self]) -> u8 {
                ffi::$reads::read_var(placed, window, out)
            }

            fn read_record(placed: &Placed, window: Window<'_>, record: u64, out: &mut [Self]) -> u8 {
                ffi::$reads::read_record(placed, window, record, out)
            }

            fn of_bytes(bytes: &[u8]) -> Vec<Self> {
                const SIZE: usize = std::mem::size_of::<$type>();
                let value = |chunk: &[u8]| {
                    let mut bytes = [0; SIZE];
                    bytes.copy_from_slice(chunk);
                    <$type>::from_be_bytes(bytes)
                };
                bytes.chunks_exact(SIZE).map(value).collect()
            }
        }

        impl From<Vec<$type>> for Values {
            fn from(values: Vec<$type>) -> Values {
                Values::$case(values)
            }
        }
    )*};
}

elements! {
    i8, Byte, byte;
    u8, Char, char;
    i16, Short, short;
    i32, Int, int;
    f32, Float, float;
    f64, Double, double;
}

/// `$body` with `$T` standing for the Rust type of the data type at hand.
macro_rules! for_type {
    ($data_type:expr, $T:ident => $body:expr) => {
        match $data_type {
            crate::DataType::Byte => {
                type $T = i8;
                $body
            }
            crate::DataType::Char => {
                type $T = u8;
                $body
            }
            crate::DataType::Short => {
                type $T = i16;
                $body
            }
            crate::DataType::Int => {
                type $T = i32;
                $body
            }
            crate::DataType::Float => {
                type $T = f32;
                $body
            }
            crate::DataType::Double => {
                type $T = f64;
                $body
            }
        }
    };
}
pub(crate) use for_type;
