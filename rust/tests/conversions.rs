//! Files widened and narrowed.

mod common;

use common::{Builder, Pretended};
use fungalcove::{
    example, narrow, narrow_file, widen, widen_file, Error, FileReader, Header, Version, Versions, Window,
};
use std::io::Cursor;

/// X in version 2 with the count 0 and the begin given: 84 bytes.
fn wide_x(begin: u64) -> Vec<u8> {
    Builder::new(2, 0).dimension("t", 0).variable("x", &[0], 4, begin).header()
}

#[test]
fn x_widened() {
    let wide = widen(&example::X, 92).unwrap();
    assert_eq!((wide.header.len(), wide.size, wide.from), (84, 96, 80));
    let mut file = wide.header;
    file.extend_from_slice(&example::X[80..]);
    let header = Header::read(&file, 96, Versions::BOTH).unwrap();
    let x = header.variable("x").unwrap();
    assert_eq!((header.version(), x.begin()), (Version::Offset64, 84));
    assert_eq!(x.record_bytes(1).unwrap().start, 88);
    assert_eq!(x.read_record_i32(Window::whole(&file), 1).unwrap(), [-2]);
}

#[test]
fn begins_that_are_just_too_far() {
    let narrowed = narrow(&wide_x(2_147_483_651), 84).unwrap();
    assert_eq!((narrowed.header.len(), narrowed.size, narrowed.from), (80, 80, 84));
    let header = Header::read(&narrowed.header, 80, Versions::CLASSIC).unwrap();
    assert_eq!(header.variable("x").unwrap().begin(), 2_147_483_647);
    let refusal = narrow(&wide_x(2_147_483_652), 84).unwrap_err();
    assert_eq!((refusal.number, refusal.place), (25, None));
}

#[test]
fn refusals() {
    let number = |prefix: &[u8], size| widen(prefix, size).unwrap_err().number;
    assert_eq!(number(&wide_x(83), 84), 24);
    assert_eq!(number(&example::X, 91), 21);
    assert_eq!(number(&Builder::new(1, 0).dimension("t", 0).variable("x", &[0], 4, 80).header(), 1 << 62), 21);
    let unfinished = widen(&example::X[..50], 92).unwrap_err();
    assert_eq!((unfinished.number, unfinished.place), (1, Some(50)));
}

#[test]
fn whole_files_there_and_back() {
    for old in [&example::X[..], example::STATION] {
        let (mut wide, mut back) = (Vec::new(), Vec::new());
        let size = widen_file(Cursor::new(old), &mut wide).unwrap();
        assert_eq!(size, wide.len() as u64);
        assert_eq!(narrow_file(Cursor::new(&wide), &mut back).unwrap(), old.len() as u64);
        assert_eq!(back, old);

        let (mut before, mut after) =
            (FileReader::new(Cursor::new(old)).unwrap(), FileReader::new(Cursor::new(wide)).unwrap());
        assert_eq!((before.version(), after.version()), (Version::Classic, Version::Offset64));
        let header = before.header().clone();
        for variable in header.variables() {
            assert_eq!(before.read_var(variable.name()).unwrap(), after.read_var(variable.name()).unwrap());
        }
    }
}

#[test]
fn twice_is_once() {
    let once = widen(example::STATION, 528).unwrap();
    let twice = widen(&once.header, once.size).unwrap();
    assert_eq!((&twice.header, twice.size, twice.from), (&once.header, once.size, once.header.len() as u64));
}

#[test]
fn large_files_are_streamed() {
    let mut file = example::X.to_vec();
    file.resize(3_000_080, 9);
    let mut reader = Pretended::short(file.clone(), 1000);
    let mut wide = Vec::new();
    assert_eq!(widen_file(&mut reader, &mut wide).unwrap(), 3_000_084);
    assert_eq!(wide[84..], file[80..]);
    assert_eq!(reader.handed_out, 4096 + 3_000_000);
}

#[test]
fn a_refused_file_writes_nothing() {
    let mut out = Vec::new();
    match narrow_file(Cursor::new(wide_x(2_147_483_652)), &mut out) {
        Err(Error::Refused(refusal)) => assert_eq!(refusal.number, 25),
        other => panic!("{:?}", other),
    }
    assert!(out.is_empty());
}
