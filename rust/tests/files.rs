//! Files that are read piece by piece.

mod common;

use common::{Builder, Pretended, OPEN};
use fungalcove::{example, Error, FileReader, Value, Values, Versions, Window};
use std::io::{Cursor, ErrorKind};

fn number<T: std::fmt::Debug>(answer: Result<T, Error>) -> u8 {
    answer.unwrap_err().refusal().expect("a refusal").number
}

/// Two record variables of shorts and one of doubles, 1000 records: 4 + 4 + 8 bytes a record, shorts of 2 padded.
fn interleaved() -> Vec<u8> {
    let begins = |begin: u64| {
        Builder::new(1, OPEN)
            .dimension("t", 0)
            .variable("a", &[0], 3, begin)
            .variable("b", &[0], 3, begin + 4)
            .variable("c", &[0], 6, begin + 8)
    };
    let begin = begins(0).header().len() as u64;
    let mut values = Vec::new();
    for record in 0..1000_i16 {
        values.extend_from_slice(&record.to_be_bytes());
        values.extend_from_slice(&[0, 0]);
        values.extend_from_slice(&(-record).to_be_bytes());
        values.extend_from_slice(&[0, 0]);
        values.extend_from_slice(&(f64::from(record) / 4.0).to_be_bytes());
    }
    begins(begin).file(&values)
}

#[test]
fn values_of_a_station() {
    let mut file = FileReader::new(Cursor::new(example::STATION)).unwrap();
    let header = file.header().clone();
    for variable in header.variables() {
        let (name, window) = (variable.name(), Window::whole(example::STATION));
        assert_eq!(file.read_var(name).unwrap(), variable.read_values(window).unwrap());
        for record in 0..variable.records() {
            assert_eq!(file.read_record(name, record).unwrap(), variable.read_record_values(window, record).unwrap());
        }
        assert_eq!(file.read_element(name, 0, 1).unwrap(), variable.element(window, 0, 1).unwrap());
        assert_eq!(number(file.read_record(name, variable.records())), 18);
        assert_eq!(number(file.read_element(name, 0, 2)), 19);
    }
    assert_eq!(number(file.read_var("none")), 16);
    assert_eq!(number(file.read_var_i8("char")), 17);
    assert_eq!(number(file.read_record_f64("float", 9)), 17);
    assert_eq!(number(file.read_element("none", 0, 0)), 16);
}

#[test]
fn only_what_is_asked_for_is_fetched() {
    let file = interleaved();
    let size = file.len() as u64;
    let mut file = FileReader::new(Pretended::whole(file)).unwrap();
    assert_eq!(file.read_record_f64("c", 10).unwrap(), [2.5]);
    assert_eq!(file.read_element("b", 999, 0).unwrap(), Value::Short(-999));
    let (_, reader) = file.into_parts();
    assert_eq!(reader.handed_out, 4096 + 8 + 2);
    assert!(reader.handed_out < size);

    let mut file = FileReader::new(reader).unwrap();
    let whole = file.read_var_i16("a").unwrap();
    assert!(whole.iter().copied().eq(0..1000));
    assert_eq!(file.into_parts().1.handed_out, 4096 + 10 + 4096 + 2 * 1000);
}

#[test]
fn records_back_to_back() {
    let header = Builder::new(1, OPEN).dimension("t", 0).dimension("d", 3).variable("v", &[0, 1], 1, 100);
    let bytes: Vec<u8> = (0..4_000_000_u32).map(|at| (at % 4 * 50) as u8).collect();
    let mut file = header.header();
    file.resize(100, 0);
    file.extend_from_slice(&bytes);
    let mut file = FileReader::new(Pretended::whole(file)).unwrap();
    assert_eq!(file.header().record_count(), 1_000_000);
    let whole = file.read_var_i8("v").unwrap();
    assert_eq!(whole.len(), 3_000_000);
    assert!(whole.chunks_exact(3).all(|record| record == [0, 50, 100]));
}

#[test]
fn short_reads() {
    for most in [1, 3, 7] {
        let mut file = FileReader::new(Pretended::short(interleaved(), most)).unwrap();
        assert_eq!(file.read_record_f64("c", 999).unwrap(), [249.75]);
        assert!(file.read_var_i16("b").unwrap().into_iter().eq((0..1000).map(|value| -value)));
    }
}

#[test]
fn long_headers_are_fetched_piece_by_piece() {
    let name = |at: usize| -> &'static str { Box::leak(format!("{:0>250}", at).into_boxed_str()) };
    let mut builder = Builder::new(2, 0).dimension("d", 1);
    for at in 0..64 {
        builder = builder.variable(name(at), &[0], 4, 1 << 40);
    }
    let header = builder.header();
    assert!(header.len() > 4 * 4096 && header.len() < 8 * 4096);
    let mut file = FileReader::new(Pretended::new(header, 1 << 50)).unwrap();
    assert_eq!(file.header().variables().len(), 64);
    assert_eq!(file.read_var_i32(name(63)).unwrap(), [0]);
    assert_eq!(file.into_parts().1.handed_out, 8 * 4096 + 4);
}

#[test]
fn positions_above_32_bits() {
    let mut file = FileReader::new(Pretended::new(example::X.to_vec(), 4_294_967_388)).unwrap();
    assert_eq!(file.header().record_count(), 1_073_741_827);
    assert_eq!(file.read_record_i32("x", 1).unwrap(), [-2]);
    assert_eq!(file.read_record_i32("x", 1_073_741_826).unwrap(), [0]);
    assert_eq!(file.read_element("x", 1_073_741_826, 0).unwrap(), Value::Int(0));
    assert_eq!(number(file.read_record_i32("x", 1_073_741_827)), 18);
}

#[test]
fn claims_above_the_file_reserve_no_memory() {
    let long = i32::MAX as u32;
    let header =
        Builder::new(2, 0).dimension("a", long).dimension("b", 1 << 25).variable("v", &[0, 1], 6, 120).header();
    let mut file = FileReader::new(Pretended::new(header, 1 << 40)).unwrap();
    assert_eq!(number(file.read_var_f64("v")), 20);
    assert_eq!(number(file.read_record_f64("v", 0)), 20);
    assert_eq!(number(file.read_var_f32("v")), 17);
    assert_eq!(file.read_element("v", 0, 1 << 36).unwrap(), Value::Double(0.0));
    assert_eq!(number(file.read_element("v", 0, 1 << 37)), 20);
}

#[test]
fn no_memory_is_an_error() {
    let long = i32::MAX as u32;
    let header =
        Builder::new(2, 0).dimension("a", long).dimension("b", 1 << 28).variable("v", &[0, 1], 1, 120).header();
    let mut file = FileReader::new(Pretended::new(header, 1 << 61)).unwrap();
    match file.read_var_i8("v") {
        Err(Error::Io(error)) => assert_eq!(error.kind(), ErrorKind::OutOfMemory),
        other => panic!("{:?}", other.map(|values| values.len())),
    }
}

#[test]
fn a_file_that_is_cut() {
    let cut = &example::STATION[..500];
    let mut file = FileReader::new(Cursor::new(cut)).unwrap();
    assert_eq!(file.read_record_i32("int", 0).unwrap(), [1, -1]);
    assert_eq!(number(file.read_record_i32("int", 1)), 20);
    assert_eq!(number(file.read_var("int")), 20);
    assert_eq!(file.read_var("height").unwrap(), Values::Float(vec![12.5, 340.0]));
}

#[test]
fn a_reader_that_ends_before_its_size() {
    struct Cut(Cursor<Vec<u8>>);
    impl std::io::Read for Cut {
        fn read(&mut self, out: &mut [u8]) -> std::io::Result<usize> {
            self.0.read(out)
        }
    }
    impl std::io::Seek for Cut {
        fn seek(&mut self, to: std::io::SeekFrom) -> std::io::Result<u64> {
            match to {
                std::io::SeekFrom::End(0) => Ok(100_000),
                to => self.0.seek(to),
            }
        }
    }
    match FileReader::new(Cut(Cursor::new(example::X.to_vec()))) {
        Err(Error::Io(error)) => assert_eq!(error.kind(), ErrorKind::UnexpectedEof),
        other => panic!("{:?}", other),
    }
}

#[test]
fn refused_files() {
    assert_eq!(number(FileReader::new(Cursor::new(b"CX"))), 3);
    assert_eq!(number(FileReader::new(Cursor::new(b""))), 2);
    assert_eq!(number(FileReader::with_versions(Cursor::new(example::STATION), Versions::OFFSET64)), 4);
}

#[test]
#[cfg(not(target_os = "wasi"))]
fn paths() {
    let path = std::env::temp_dir().join(format!("fungalcove-test-{}.nc", std::process::id()));
    match FileReader::open(&path) {
        Err(Error::Io(error)) => assert_eq!(error.kind(), ErrorKind::NotFound),
        other => panic!("{:?}", other),
    }
    std::fs::write(&path, example::STATION).unwrap();
    let mut file = FileReader::open(&path).unwrap();
    assert_eq!(file.read_var_f32("height").unwrap(), [12.5, 340.0]);
    std::fs::remove_file(&path).unwrap();
}
