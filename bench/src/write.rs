//! A header written anew from the tables that were read, beside reading it.

use crate::clock::{opaque, Clock};
use crate::header::{read, TURNS};
use crate::headers;
use crate::table::{head, line, Most};

/// The most that a header of one variable may take.
const SMALL: Most = Most::of(Most::Micros(2.0), Most::Open);

pub fn measure(runs: usize) {
    let clock = Clock { runs, turns: TURNS };
    head("header written", "read us", "written us");
    for sample in headers::measured() {
        let header = read(&sample.bytes);
        assert!(header.write() == sample.bytes, "{}: the header comes back", sample.name);
        let (a, b) = clock.against(|| drop(read(&sample.bytes)), || drop(opaque(&header).write()));
        let most = if sample.variables == 1 { SMALL } else { Most::Ratio(1.0) };
        line(sample.name, Some(a), b, most);
    }
}
