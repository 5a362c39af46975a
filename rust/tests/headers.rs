//! What is read of headers, and where they are refused.

mod common;

use common::{Builder, OPEN};
use fungalcove::{example, DataType, Header, Refusal, Values, Version, Versions};

fn read(file: &[u8]) -> Result<Header, Refusal> {
    Header::read(file, file.len() as u64, Versions::BOTH)
}

fn refused(prefix: &[u8], size: u64) -> (u8, Option<u64>) {
    let refusal = Header::read(prefix, size, Versions::BOTH).unwrap_err();
    (refusal.number, refusal.place)
}

/// X with a byte changed.
fn changed(at: usize, byte: u8) -> Vec<u8> {
    let mut file = example::X.to_vec();
    file[at] = byte;
    file
}

/// A header of nothing: the magic word, the version, and zeros.
fn nothing() -> Vec<u8> {
    let mut file = b"CDF\x01".to_vec();
    file.resize(32, 0);
    file
}

#[test]
fn header_of_nothing() {
    let header = read(&nothing()).unwrap();
    assert_eq!((header.end(), header.size(), header.record_count()), (32, 32, 0));
    assert_eq!(header.count_word(), Some(0));
    assert_eq!(header.dimensions().len() + header.attributes().len() + header.variables().len(), 0);
    assert!(header.unlimited_dimension().is_none());
}

#[test]
fn unfinished() {
    let file = nothing();
    assert_eq!(refused(&file[..31], 31), (2, Some(31)));
    assert_eq!(refused(&file[..31], 32), (1, Some(31)));
    assert_eq!(refused(b"CD", 2), (2, Some(2)));
    assert_eq!(refused(b"", 0), (2, Some(0)));
}

#[test]
fn places_of_refusals() {
    assert_eq!(refused(b"CX", 2), (3, Some(0)));
    assert_eq!(refused(b"CDF\x03", 4), (4, Some(3)));
    assert_eq!(refused(b"CDF\x01\x80\0\0\0", 8), (5, Some(4)));
    assert_eq!(refused(&changed(20, 0xFF), 92), (6, Some(20)));
    assert_eq!(refused(&changed(22, 1), 92), (7, Some(21)));
    assert_eq!(refused(&changed(71, 7), 92), (8, Some(68)));
    assert_eq!(refused(&changed(11, 0x0B), 92), (9, Some(8)));
    assert_eq!(refused(&changed(15, 33), 92), (10, Some(12)));
}

#[test]
fn refusals_without_a_place() {
    assert_eq!(refused(&changed(55, 9), 92), (10, Some(52)));
    assert_eq!(refused(&changed(59, 1), 92), (11, None));
    assert_eq!(refused(&changed(76, 0x80), 92), (12, None));
    assert_eq!(refused(&example::X, 93), (13, None));
    assert_eq!(refused(&changed(79, 84)[..80], 80), (14, None));
    let far = Builder::new(2, 0).dimension("d", 8).variable("v", &[0], 1, 1 << 62);
    assert_eq!(refused(&far.header(), 200), (15, None));
    assert_eq!(refused(&example::X, 91), (21, None));
    assert_eq!(refused(&example::X, (1 << 62) + 1), (21, None));
}

#[test]
fn words_of_refusals() {
    let refusal = read(&changed(11, 0x0B)).unwrap_err();
    assert_eq!(refusal.to_string(), "9 at byte 8: list start is neither absent nor its tag");
    let refusal = Header::read(&example::X, 93, Versions::BOTH).unwrap_err();
    assert_eq!(refusal.to_string(), "13: open count: division leaves a rest");
    let all: Vec<&str> = (1..=25).map(|number| Refusal { number, place: None }.words()).collect();
    assert_eq!(all[24], "narrowing: a moved begin above 2147483647");
    let distinct: std::collections::HashSet<&str> = all.into_iter().collect();
    assert_eq!(distinct.len(), 25);
}

#[test]
fn admitted_versions() {
    let wide = Builder::new(2, 0).header();
    let number = |file: &[u8], versions| Header::read(file, 32, versions).err().map(|refusal| refusal.number);
    assert_eq!(number(&nothing(), Versions::CLASSIC), None);
    assert_eq!(number(&nothing(), Versions::OFFSET64), Some(4));
    assert_eq!(number(&wide, Versions::CLASSIC), Some(4));
    assert_eq!(number(&wide, Versions::default()), None);
    assert_eq!(read(&wide).unwrap().version(), Version::Offset64);
}

#[test]
fn record_counts() {
    let count = |size| Header::read(&example::X[..80], size, Versions::BOTH).unwrap().record_count();
    assert_eq!((count(80), count(92)), (0, 3));
    // more than 32 bits of size, so that a 32-bit machine must not cut it
    assert_eq!(count(4_294_967_388), 1_073_741_827);
    assert_eq!(count(1 << 62), (1 << 60) - 20);
}

#[test]
fn lookups() {
    let header = read(example::STATION).unwrap();
    assert_eq!(header.variable("double").unwrap().number(), 6);
    assert_eq!(header.variable("doubl").unwrap_err().number, 16);
    assert_eq!(header.variable("").unwrap_err().number, 16);
    assert_eq!(header.variable_at(7).unwrap_err().number, 16);
    assert_eq!(header.variable_at(usize::MAX).unwrap_err().number, 16);
    assert_eq!(header.dimension("place").unwrap().number(), 1);
    assert!(header.dimension("double").is_none());
    assert!(header.attribute("units").is_none());
    assert!(header.variable("height").unwrap().attribute("title").is_none());
    let backwards: Vec<&str> = header.variables().rev().map(|variable| variable.name()).collect();
    assert_eq!(backwards, ["double", "float", "int", "short", "char", "byte", "height"]);
}

#[test]
fn fields_of_a_station() {
    let header = read(example::STATION).unwrap();
    assert_eq!((header.version(), header.record_count(), header.count_word()), (Version::Classic, 2, Some(2)));
    assert_eq!((header.end(), header.size()), (432, 528));
    let title = header.attribute("title").unwrap();
    assert_eq!((title.data_type(), title.len(), title.bytes()), (DataType::Char, 9, &b"A station"[..]));
    assert_eq!(title.values(), Values::Char(b"A station".to_vec()));
    let types: Vec<DataType> = header.variables().skip(1).map(|variable| variable.data_type()).collect();
    assert_eq!(types, DataType::ALL);
    let int = header.variable("int").unwrap();
    assert_eq!((int.begin(), int.vsize(), int.records(), int.record_len(), int.len()), (452, Some(8), 2, 2, 4));
    assert_eq!(int.record_bytes(1).unwrap(), 496..504);
    let height = header.variable("height").unwrap();
    assert_eq!((height.is_record(), height.records(), height.len()), (false, 1, 2));
    assert_eq!(height.record_bytes(0).unwrap(), 432..440);
    assert_eq!(height.record_bytes(1).unwrap_err().number, 18);
}

#[test]
fn names_are_utf8() {
    let header = read(&Builder::new(1, OPEN).dimension("Höhe über 海", 3).header()).unwrap();
    assert_eq!(header.dimensions().next().unwrap().name(), "Höhe über 海");
}

#[test]
fn a_header_outlives_the_bytes() {
    let header = {
        let file = example::STATION.to_vec();
        read(&file).unwrap()
    };
    assert_eq!(header.clone().variable_at(0).unwrap().attribute("units").unwrap().as_text(), Some("m"));
    assert!(format!("{:?}", header).contains("height"));
}

#[test]
fn headers_are_shared_between_threads() {
    fn shared<T: Send + Sync>(_: &T) {}
    shared(&read(&example::X).unwrap());
}

#[test]
fn written_anew() {
    assert_eq!(read(example::STATION).unwrap().write(), example::STATION[..432]);
    let mut tagged = nothing();
    tagged[11] = 0x0A;
    assert_eq!(read(&tagged).unwrap().write(), nothing());
}
