//! A header read, beside netcdf3's reader, which frees itself and its tables in that time as ours does.

use crate::clock::{opaque, Clock};
use crate::headers::{self, Sample};
use crate::table::{head, line, Most};
#[cfg(not(target_arch = "wasm32"))]
use crate::theirs::open;
use fungalcove::{Header, Versions};

/// Headers read, written or widened in a run.
pub const TURNS: usize = 100;

pub fn measure(runs: usize) {
    head("header read", if cfg!(target_arch = "wasm32") { "" } else { "netcdf3 us" }, "ours us");
    for sample in headers::measured() {
        check(&sample, &read(&sample.bytes));
        let (a, b) = times(Clock { runs, turns: TURNS }, &sample);
        line(sample.name, a, b, Most::Ratio(sample.most));
    }
}

pub fn read(bytes: &[u8]) -> Header {
    Header::read(opaque(bytes), bytes.len() as u64, Versions::BOTH).expect("it is a header")
}

fn check(sample: &Sample, header: &Header) {
    let attributes: usize = header.variables().map(|variable| variable.attributes().len()).sum();
    assert_eq!((header.end(), header.record_count()), (sample.bytes.len() as u64, 2), "{}: end and count", sample.name);
    assert_eq!((header.variables().len(), attributes), (sample.variables, sample.attributes), "{}: rows", sample.name);
}

#[cfg(not(target_arch = "wasm32"))]
fn times(clock: Clock, sample: &Sample) -> (Option<f64>, f64) {
    let bytes: &'static [u8] = sample.bytes.clone().leak();
    let names: Vec<String> = read(bytes).variables().map(|variable| variable.name().to_string()).collect();
    assert_eq!(open(bytes).data_set().get_var_names(), names, "{}: names", sample.name);
    let (a, b) = clock.against(|| drop(open(opaque(bytes))), || drop(read(bytes)));
    (Some(a), b)
}

#[cfg(target_arch = "wasm32")]
fn times(clock: Clock, sample: &Sample) -> (Option<f64>, f64) {
    (None, clock.alone(|| drop(read(&sample.bytes))))
}
