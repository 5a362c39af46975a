//! Files and streams that are opened: the bytes of the header, and the answer to them.

mod common;

use common::{Builder, Pretended, OPEN};
use fungalcove::{example, Guest32Error, Header, Opening, Refusal, Versions};
use std::io::{self, Cursor, Read};

/// A stream that hands out a byte at a time, and fails where asked to; now and then it is interrupted.
struct Slow<'a> {
    bytes: &'a [u8],
    fails_at: Option<usize>,
    at: usize,
    interrupted: bool,
}

impl<'a> Slow<'a> {
    fn new(bytes: &'a [u8], fails_at: Option<usize>) -> Slow<'a> {
        Slow { bytes, fails_at, at: 0, interrupted: false }
    }
}

impl Read for Slow<'_> {
    fn read(&mut self, out: &mut [u8]) -> io::Result<usize> {
        self.interrupted = !self.interrupted && self.at % 5 == 3;
        if self.interrupted {
            return Err(io::ErrorKind::Interrupted.into());
        }
        if Some(self.at) == self.fails_at {
            return Err(io::ErrorKind::ConnectionReset.into());
        }
        match (self.bytes.get(self.at), out.first_mut()) {
            (Some(byte), Some(first)) => {
                *first = *byte;
                self.at += 1;
                Ok(1)
            }
            _ => Ok(0),
        }
    }
}

/// What an opening answers: number, place, record count and end.
fn told(opening: &Opening) -> (u8, Option<u64>, u64, u64) {
    match &opening.answer {
        Ok(header) => (0, None, header.record_count(), header.end()),
        Err(Refusal { number, place }) => (*number, *place, 0, 0),
    }
}

/// A file whose header is longer than what is read of it at first.
fn long_header() -> Vec<u8> {
    let name = |number: u32| -> &'static str { Box::leak(format!("{:0>200}", number).into_boxed_str()) };
    let start = Builder::new(1, OPEN).dimension("t", 0);
    let builder = (0..31).fold(start, |builder, number| builder.dimension(name(number), 1));
    (0..64).fold(builder, |builder, number| builder.variable(name(number), &[0], 4, 30000)).header()
}

#[test]
fn streams_are_answered_as_files() {
    let long = long_header();
    let mut files =
        vec![example::X.to_vec(), example::STATION.to_vec(), long.clone(), long[..9000].to_vec(), Vec::new()];
    files.extend((0..example::X.len()).map(|cut| example::X[..cut].to_vec()));
    files.push([&example::X[..], &[0; 200_000]].concat());
    for file in files {
        let of_file = Opening::of_file(&mut Cursor::new(&file), Versions::BOTH).unwrap();
        let of_stream = Opening::of_stream(&mut &file[..], Versions::BOTH).unwrap();
        let of_slow = Opening::of_stream(&mut Slow::new(&file, None), Versions::BOTH).unwrap();
        let of_bytes = Header::read(&file, file.len() as u64, Versions::BOTH);
        for opening in [&of_file, &of_stream, &of_slow] {
            assert_eq!(opening.size, file.len() as u64);
            assert_eq!(told(opening), told(&of_file));
            assert_eq!(opening.answer.as_ref().err(), of_bytes.as_ref().err());
            assert_eq!(opening.prefix, file[..opening.prefix.len()]);
        }
    }
}

#[test]
fn little_is_kept_of_a_stream() {
    let mut stream = Pretended::new(example::X.to_vec(), 50_000_000);
    let opening = Opening::of_stream(&mut stream, Versions::BOTH).unwrap();
    assert_eq!((opening.size, told(&opening).2), (50_000_000, 12_499_980));
    assert!(opening.prefix.len() <= 1 << 16);
}

#[test]
fn little_is_read_of_a_file() {
    let mut file = Pretended::new(example::X.to_vec(), 4294967388);
    let opening = Opening::of_file(&mut file, Versions::BOTH).unwrap();
    assert_eq!(told(&opening), (0, None, 1073741827, 80));
    assert!(file.handed_out <= 4096);
}

/// A damaged count puts an attribute's values behind the file's end: 2, and the file is not read for it.
#[test]
fn little_is_read_of_a_damaged_file() {
    let header = Header::read(example::STATION, example::STATION.len() as u64, Versions::BOTH).unwrap();
    let values = header.attribute("title").unwrap().bytes();
    let start = values.as_ptr() as usize - header.bytes().as_ptr() as usize;
    for (count, size, read) in [(0x7FFF_FFFF_u32, 1 << 30, 4096), (5000, 4500, 4500), (100_000, 5000, 4096)] {
        let mut damaged = example::STATION.to_vec();
        damaged[start - 4..start].copy_from_slice(&count.to_be_bytes());
        let mut file = Pretended::new(damaged.clone(), size);
        let opening = Opening::of_file(&mut file, Versions::BOTH).unwrap();
        assert_eq!((told(&opening), file.handed_out), ((2, Some(size), 0, 0), read));
        if size < 10_000 {
            damaged.resize(size as usize, 0);
            assert_eq!(Header::read(&damaged, size, Versions::BOTH).unwrap_err(), opening.answer.unwrap_err());
        }
    }
}

#[test]
fn a_stream_that_fails() {
    for at in [0, 40, 85] {
        let error = Opening::of_stream(&mut Slow::new(&example::X, Some(at)), Versions::BOTH).unwrap_err();
        assert_eq!(error.kind(), io::ErrorKind::ConnectionReset);
    }
}

#[test]
fn refused_bytes_are_kept() {
    let mut file = example::X.to_vec();
    file[22] = 1;
    let opening = Opening::of_file(&mut Cursor::new(&file), Versions::BOTH).unwrap();
    assert_eq!((told(&opening), opening.prefix), ((7, Some(21), 0, 0), file.clone()));
    let opening = Opening::of_stream(&mut &file[..], Versions::OFFSET64).unwrap();
    assert_eq!(told(&opening), (4, Some(3), 0, 0));
}

/// What a 32-bit build of netcdf3 makes of files; the example of each has its own numbers of records.
#[test]
fn guests_of_32_bits() {
    let guest = |file: &[u8], size: u64| Header::read(file, size, Versions::BOTH).unwrap().guest32();
    let over = |length: u32, count: u32| {
        let builder = Builder::new(1, count).dimension("t", 0).dimension("p", length);
        builder.variable("x", &[0, 1], 4, 200).file(&[0; 200])
    };
    assert!(!guest(&example::X, 92).is_suspect());
    assert_eq!(guest(&example::X, 4294967388).records, Ok(3));
    let foreign = guest(&over(1 << 29, 3), 1000);
    assert_eq!((foreign.records, foreign.first_foreign, foreign.is_suspect()), (Ok(3), Some(2), true));
    let sizeless = guest(&over(1 << 30, OPEN), 200 + (1 << 32));
    assert_eq!((sizeless.records, sizeless.first_foreign), (Err(Guest32Error::Unexpected), None));
    let rest = guest(&over(3, OPEN), 200 + 12 * (1 << 30));
    assert_eq!(rest.records, Ok(0));
    let rest = guest(&over(3, OPEN), 200 + 12 * ((1 << 29) + 1));
    assert_eq!(rest.records, Err(Guest32Error::ComputationNumberOfRecords));
    let short = Builder::new(1, 0).dimension("p", 1 << 16).dimension("q", 1 << 16).variable("x", &[0, 1], 1, 200);
    assert_eq!(guest(&short.header(), 1000).first_cut, Some(0));
}
