//! A header of version 1 made one of version 2, beside reading it.

use crate::clock::{opaque, Clock};
use crate::header::{read, TURNS};
use crate::headers::{self, Sample};
use crate::table::{head, line, Most};
use fungalcove::Version;

/// The most that the largest may take, beside reading it.
const MOST: f64 = 2.5;

pub fn measure(runs: usize) {
    let clock = Clock { runs, turns: TURNS };
    head("header widened", "read us", "widened us");
    for sample in headers::measured() {
        check(&sample);
        let (a, b) = clock.against(|| drop(read(&sample.bytes)), || drop(widened(&sample.bytes)));
        line(sample.name, Some(a), b, if sample.variables == 64 { Most::Ratio(MOST) } else { Most::Open });
    }
}

pub fn widened(bytes: &[u8]) -> Vec<u8> {
    fungalcove::widen(opaque(bytes), bytes.len() as u64).expect("it is widened").header
}

/// Each begin takes four bytes more, and the values stand as many bytes later as all of them.
fn check(sample: &Sample) {
    let (old, new) = (read(&sample.bytes), read(&widened(&sample.bytes)));
    let shift = 4 * sample.variables as u64;
    assert_eq!((new.version(), new.end()), (Version::Offset64, old.end() + shift), "{}: version and end", sample.name);
    for (old, new) in old.variables().zip(new.variables()) {
        assert_eq!((old.name(), old.begin() + shift), (new.name(), new.begin()), "{}: a variable", sample.name);
    }
}
