//! netcdf3's reads of records and of whole variables, over a cursor, beside ours. Theirs find the variable by its name and give a
//! new vector; ours are given the variable and write into an output that is lent.

use crate::clock::{opaque, Clock};
use crate::header::read;
use crate::kind::Kind;
use crate::record::{self, CHUNK, COUNT};
use crate::table::{head, line, Most};
use crate::whole::{self, VALUES};
use fungalcove::Window;
use netcdf3::FileReader;

/// netcdf3's reader over the bytes.
pub fn open(bytes: &'static [u8]) -> FileReader {
    FileReader::open_seek_read("x", Box::new(std::io::Cursor::new(bytes))).expect("netcdf3 accepts it")
}

pub fn records(runs: usize) {
    let file: &'static [u8] = record::file().leak();
    let header = read(file);
    let variable = header.variable("x").expect("there is one");
    let mut reader = open(file);
    let (mut theirs, mut out) = (Vec::new(), vec![0f32; COUNT * CHUNK]);
    let (mut next, mut ours_next) = (record::walk(), record::walk());
    head("records of 1000 floats", "netcdf3 us", "ours us");
    let (a, b) = Clock { runs, turns: record::TURNS }.against(
        || theirs = reader.read_record_f32("x", next()).expect("netcdf3 reads it"),
        || {
            let read = variable.read_record_f32_into(Window::whole(opaque(file)), ours_next() as u64, &mut out);
            assert_eq!(read, Ok(CHUNK));
        },
    );
    assert!(f32::same(&theirs, &out[..CHUNK]), "a record: the values differ");
    line("one of 1000", Some(a), b, Most::Open);
    let (a, b) = Clock { runs, turns: 1 }.against(
        || theirs = reader.read_var_f32("x").expect("netcdf3 reads it"),
        || assert_eq!(variable.read_f32_into(Window::whole(opaque(file)), &mut out), Ok(COUNT * CHUNK)),
    );
    assert!(f32::same(&theirs, &out), "all records: the values differ");
    line("all 1000", Some(a), b, Most::Open);
}

pub fn whole(runs: usize) {
    let clock = Clock { runs, turns: 1 };
    head("1,000,000 values", "netcdf3 us", "ours us");
    values::<f32>(clock);
    values::<f64>(clock);
    values::<i32>(clock);
    values::<i16>(clock);
    values::<i8>(clock);
    values::<u8>(clock);
}

/// A line for the output that is lent, and one for a new vector, as netcdf3 makes it.
fn values<T: Kind>(clock: Clock) {
    let file: &'static [u8] = whole::file::<T>().leak();
    let header = read(file);
    let variable = header.variable("x").expect("there is one");
    let mut reader = open(file);
    let (mut theirs, mut out) = (Vec::new(), vec![T::default(); VALUES]);
    let (a, b) = clock.against(
        || theirs = T::theirs(&mut reader, "x"),
        || assert_eq!(T::ours(&variable, Window::whole(opaque(file)), &mut out), Ok(VALUES)),
    );
    assert!(T::same(&theirs, &out), "{}: the values differ", T::NAME);
    line(T::NAME, Some(a), b, Most::Open);
    let (a, b) = clock.against(
        || theirs = T::theirs(&mut reader, "x"),
        || out = variable.read(Window::whole(opaque(file))).expect("it is read"),
    );
    assert!(T::same(&theirs, &out), "{}: the values of the new vector differ", T::NAME);
    line(&format!("{}, a new vector", T::NAME), Some(a), b, Most::Open);
}
