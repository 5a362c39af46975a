//! The six types of values: the plain loop, our read and netcdf3's for each.

use crate::table::Most;
use fungalcove::{Refusal, Variable, Window};

/// A type that values are read as.
pub trait Kind: fungalcove::Element {
    /// The format's name for it.
    const NAME: &'static str;
    /// The format's number for it.
    const CODE: usize;
    /// The most that a whole read may take, beside the loop.
    const MOST: Most;

    /// What a Rust program without a library would do.
    fn plain(src: &[u8], out: &mut [Self]);
    fn ours(variable: &Variable<'_>, window: Window<'_>, out: &mut [Self]) -> Result<usize, Refusal>;
    #[cfg(not(target_arch = "wasm32"))]
    fn theirs(reader: &mut netcdf3::FileReader, name: &str) -> Vec<Self>;
    /// Whether both are the same, bit for bit.
    fn same(a: &[Self], b: &[Self]) -> bool;
}

const FAST: Most = Most::of(Most::Ratio(1.05), Most::Ratio(1.1));
const SHORT: Most = Most::of(Most::Ratio(1.25), Most::Ratio(1.5));
const BYTE: Most = Most::of(Most::Ratio(1.1), Most::Open);

macro_rules! kinds {
    ($($type:ty, $name:literal, $code:literal, $most:expr, $ours:ident, $theirs:ident;)*) => {$(
        impl Kind for $type {
            const NAME: &'static str = $name;
            const CODE: usize = $code;
            const MOST: Most = $most;

            #[inline(never)]
            fn plain(src: &[u8], out: &mut [Self]) {
                for (o, c) in out.iter_mut().zip(src.chunks_exact(std::mem::size_of::<$type>())) {
                    *o = <$type>::from_be_bytes(c.try_into().unwrap());
                }
            }

            fn ours(variable: &Variable<'_>, window: Window<'_>, out: &mut [Self]) -> Result<usize, Refusal> {
                variable.$ours(window, out)
            }

            #[cfg(not(target_arch = "wasm32"))]
            fn theirs(reader: &mut netcdf3::FileReader, name: &str) -> Vec<Self> {
                reader.$theirs(name).expect("netcdf3 reads it")
            }

            fn same(a: &[Self], b: &[Self]) -> bool {
                a.len() == b.len() && a.iter().zip(b).all(|(a, b)| a.to_be_bytes() == b.to_be_bytes())
            }
        }
    )*};
}

kinds! {
    f32, "float", 5, FAST, read_f32_into, read_var_f32;
    f64, "double", 6, FAST, read_f64_into, read_var_f64;
    i32, "int", 4, FAST, read_i32_into, read_var_i32;
    i16, "short", 3, SHORT, read_i16_into, read_var_i16;
    i8, "byte", 1, BYTE, read_i8_into, read_var_i8;
    u8, "char", 2, BYTE, read_u8_into, read_var_u8;
}
