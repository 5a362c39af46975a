//! All values of a variable, into an output that is lent, beside the plain loop over its bytes. The variable is found before.

use crate::by_value;
use crate::clock::{opaque, Clock};
use crate::header::read;
use crate::kind::Kind;
use crate::table::{head, line, Most};
use crate::{headers, sample};
use fungalcove::Window;

pub const VALUES: usize = 1_000_000;

pub fn measure(runs: usize) {
    let clock = Clock { runs, turns: 1 };
    head("1,000,000 values", "loop us", "ours us");
    by_bits::<f32>(clock);
    by_value::measure::<f32>(clock);
    by_bits::<f64>(clock);
    by_value::measure::<f64>(clock);
    by_bits::<i32>(clock);
    by_bits::<i16>(clock);
    by_bits::<i8>(clock);
    by_bits::<u8>(clock);
}

pub fn file<T: Kind>() -> Vec<u8> {
    let mut file = headers::one_fixed(T::CODE, VALUES);
    file.extend(sample::bytes(VALUES, std::mem::size_of::<T>()));
    file
}

/// A read by bits, as the crate's are.
fn by_bits<T: Kind>(clock: Clock) {
    let file = file::<T>();
    let header = read(&file);
    let variable = header.variable("x").expect("there is one");
    let ours = |out: &mut [T]| assert_eq!(T::ours(&variable, Window::whole(opaque(&file)), out), Ok(VALUES));
    beside_loop((T::NAME, T::MOST), clock, &file[variable.begin() as usize..], ours, T::same);
}

/// A line of the table: the plain loop over `bytes` beside `ours`, which reads the same values. Both must give the `same`.
pub fn beside_loop<T: Kind>(
    (name, most): (&str, Most),
    clock: Clock,
    bytes: &[u8],
    ours: impl Fn(&mut [T]),
    same: impl Fn(&[T], &[T]) -> bool,
) {
    let (mut theirs, mut out) = (vec![T::default(); VALUES], vec![T::default(); VALUES]);
    let (a, b) = clock.against(|| T::plain(opaque(bytes), &mut theirs), || ours(&mut out));
    assert!(same(&theirs, &out), "{}: the values differ", name);
    line(name, Some(a), b, most);
}
