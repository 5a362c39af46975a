//! Reads out of windows.

mod common;

use common::Builder;
use fungalcove::{example, Header, Refusal, Value, Values, Versions, Window};

fn read(file: &[u8]) -> Header {
    Header::read(file, file.len() as u64, Versions::BOTH).unwrap()
}

fn number<T: std::fmt::Debug>(answer: Result<T, Refusal>) -> u8 {
    answer.unwrap_err().number
}

#[test]
fn every_type_whole_and_by_record() {
    let (header, window) = (read(example::STATION), Window::whole(example::STATION));
    assert_eq!(header.read_var_i8("byte", window).unwrap(), [1, -1, 127, -128]);
    assert_eq!(header.read_var_u8("char", window).unwrap(), *b"NC3\xff");
    assert_eq!(header.read_var_i16("short", window).unwrap(), [1, -1, i16::MAX, i16::MIN]);
    assert_eq!(header.read_var_i32("int", window).unwrap(), [1, -1, i32::MAX, i32::MIN]);
    assert_eq!(header.read_var_f32("float", window).unwrap(), [0.5, -0.25, 1e10, 0.0]);
    assert_eq!(header.read_var_f64("double", window).unwrap(), [0.5, -0.25, 1e100, 0.0]);
    assert_eq!(header.read_record_i8("byte", window, 1).unwrap(), [127, -128]);
    assert_eq!(header.read_record_u8("char", window, 0).unwrap(), *b"NC");
    assert_eq!(header.read_record_i16("short", window, 1).unwrap(), [i16::MAX, i16::MIN]);
    assert_eq!(header.read_record_i32("int", window, 0).unwrap(), [1, -1]);
    assert_eq!(header.read_record_f32("float", window, 1).unwrap(), [1e10, 0.0]);
    assert_eq!(header.read_record_f64("double", window, 1).unwrap(), [1e100, 0.0]);
    assert_eq!(header.read_record_f32("height", window, 0).unwrap(), [12.5, 340.0]);
    assert_eq!(header.read_var("char", window).unwrap(), Values::Char(b"NC3\xff".to_vec()));
    assert_eq!(header.read_record("height", window, 0).unwrap(), Values::Float(vec![12.5, 340.0]));
}

#[test]
fn elements_are_those_of_the_whole() {
    let (header, window) = (read(example::STATION), Window::whole(example::STATION));
    for variable in header.variables() {
        let whole = variable.read_values(window).unwrap();
        for at in 0..variable.len() {
            let (record, element) = (at / variable.record_len(), at % variable.record_len());
            let value = variable.element(window, record, element).unwrap();
            assert_eq!(Some(value), whole.get(at as usize));
            assert_eq!(value.data_type(), variable.data_type());
        }
        assert_eq!(number(variable.element(window, variable.records(), 0)), 18);
        assert_eq!(number(variable.element(window, 0, 2)), 19);
    }
}

#[test]
fn signs_and_characters() {
    let builder = |code| Builder::new(1, 0).variable("v", &[], code, 64);
    let value = |code, bytes: &[u8]| {
        let file = builder(code).file(bytes);
        read(&file).read_element("v", Window::whole(&file), 0, 0).unwrap()
    };
    assert_eq!(builder(1).header().len(), 64);
    assert_eq!(value(1, &[0xFF]), Value::Byte(-1));
    assert_eq!(value(2, &[0xFF]), Value::Char(255));
    assert_eq!(value(3, &[0x80, 0]), Value::Short(-32768));
}

#[test]
fn bits_of_floating_point_numbers_stay() {
    let (quiet, signalling, negative) = (0x7FC0_1234_u32, 0x7F80_0001_u32, 0xFFA0_0000_u32);
    let builder = Builder::new(1, 0).dimension("d", 3).variable("v", &[0], 5, 80);
    let bytes: Vec<u8> = [quiet, signalling, negative].iter().flat_map(|bits| bits.to_be_bytes()).collect();
    let file = builder.file(&bytes);
    let values = read(&file).read_var_f32("v", Window::whole(&file)).unwrap();
    let bits: Vec<u32> = values.iter().map(|value| value.to_bits()).collect();
    assert_eq!(bits, [quiet, signalling, negative]);

    let signalling = 0x7FF0_0000_0000_0001_u64;
    let builder = Builder::new(1, 0).dimension("d", 1).variable("v", &[0], 6, 80);
    let file = builder.file(&signalling.to_be_bytes());
    let values = read(&file).read_record_f64("v", Window::whole(&file), 0).unwrap();
    assert_eq!(values[0].to_bits(), signalling);
    match read(&file).read_element("v", Window::whole(&file), 0, 0).unwrap() {
        Value::Double(value) => assert_eq!(value.to_bits(), signalling),
        other => panic!("{:?} is no double", other),
    }
}

/// The compiled loops go by vectors, then by fewer values, then one by one: lengths that end in each, out of bytes at an even and at an odd address.
#[test]
fn every_length() {
    macro_rules! each_length {
        ($type:ty, $code:literal, $read:ident) => {
            for (length, shift) in (1..=67).flat_map(|length| [(length, 0), (length, 1)]) {
                let header = Builder::new(1, 0).dimension("d", length).variable("v", &[0], $code, 80).header();
                let (values, size) = (length as usize, std::mem::size_of::<$type>());
                let bytes: Vec<u8> = (0..shift + values * size).map(|k| (k * 41 + k / 7) as u8).collect();
                let window = Window { bytes: &bytes[shift..], start: 80 };
                let mut out = vec![<$type>::default(); values + 1];
                let header = Header::read(&header, 1 << 20, Versions::BOTH).unwrap();
                assert_eq!(header.variable("v").unwrap().$read(window, &mut out), Ok(values));
                let back: Vec<u8> = out[..values].iter().flat_map(|value| value.to_be_bytes()).collect();
                assert_eq!(back, window.bytes, "{} values", values);
                assert_eq!(out[values], <$type>::default());
            }
        };
    }
    each_length!(i8, 1, read_i8_into);
    each_length!(u8, 2, read_u8_into);
    each_length!(i16, 3, read_i16_into);
    each_length!(i32, 4, read_i32_into);
    each_length!(f32, 5, read_f32_into);
    each_length!(f64, 6, read_f64_into);
}

#[test]
fn refusals_in_their_order() {
    let (header, window) = (read(&example::X), Window::whole(&example::X));
    let (x, nothing) = (header.variable("x").unwrap(), Window::whole(&[]));
    assert_eq!(number(header.read_var_f32("y", window)), 16);
    assert_eq!(number(x.read_record_f32(nothing, 9)), 17);
    assert_eq!(number(x.read_f64(nothing)), 17);
    assert_eq!(number(x.read_record_i32(nothing, 3)), 18);
    assert_eq!(number(x.read_record_i32(window, u64::MAX)), 18);
    assert_eq!(number(x.element(nothing, 3, 9)), 18);
    assert_eq!(number(x.element(nothing, 0, 1)), 19);
    assert_eq!(number(x.read_i32_into(nothing, &mut [])), 20);
    assert_eq!(number(x.read_i32_into(window, &mut [0; 2])), 22);
    assert_eq!(number(x.read_record_i32_into(window, 0, &mut [])), 22);
}

#[test]
fn refusals_leave_outputs() {
    let (header, window) = (read(&example::X), Window::whole(&example::X[..90]));
    let x = header.variable("x").unwrap();
    let mut out = [5; 3];
    assert_eq!(number(x.read_i32_into(window, &mut out)), 20);
    assert_eq!(out, [5; 3]);
    assert_eq!(x.read_record_i32_into(window, 1, &mut out), Ok(1));
    assert_eq!(out, [-2, 5, 5]);
}

#[test]
fn windows_anywhere() {
    let (header, file) = (read(&example::X), &example::X);
    let x = header.variable("x").unwrap();
    assert_eq!(x.read_i32(Window { bytes: &file[80..], start: 80 }).unwrap(), [7, -2, 40]);
    assert_eq!(x.read_record_i32(Window { bytes: &file[88..92], start: 88 }, 2).unwrap(), [40]);
    assert_eq!(number(x.read_record_i32(Window { bytes: &file[89..92], start: 89 }, 2)), 20);
    assert_eq!(number(x.read_record_i32(Window { bytes: &file[..], start: u64::MAX }, 2)), 20);
}

#[test]
fn padding_need_not_be_there() {
    let file = Builder::new(1, 0).dimension("d", 3).variable("v", &[0], 1, 80).file(&[1, 2, 3]);
    assert_eq!(read(&file).read_var_i8("v", Window::whole(&file)).unwrap(), [1, 2, 3]);
}

#[test]
fn no_records() {
    let header = Header::read(&example::X[..80], 80, Versions::BOTH).unwrap();
    let x = header.variable("x").unwrap();
    assert!(x.is_empty());
    assert_eq!(x.read_i32(Window::whole(&[])).unwrap(), []);
    assert_eq!(number(x.read_f32(Window::whole(&[]))), 17);
    assert_eq!(number(x.read_record_i32(Window::whole(&example::X), 0)), 18);
}

#[test]
fn claims_reserve_no_memory() {
    let long = i32::MAX as u32;
    let builder = Builder::new(2, 0).dimension("a", long).dimension("b", 1 << 28).variable("v", &[0, 1], 1, 120);
    let header = Header::read(&builder.header(), 1 << 61, Versions::BOTH).unwrap();
    let (v, window) = (header.variable("v").unwrap(), Window::whole(&[0; 200]));
    assert_eq!(v.len(), u64::from(long) << 28);
    assert_eq!(number(v.read_i8(window)), 20);
    assert_eq!(number(v.read_record_i8(window, 0)), 20);
    assert_eq!(number(v.read_f64(window)), 17);
    assert_eq!(number(v.read_values(window)), 20);

    let header = Header::read(&example::X, 1 << 62, Versions::BOTH).unwrap();
    assert_eq!(number(header.read_var_i32("x", Window::whole(&example::X))), 20);
    assert_eq!(header.read_record_i32("x", Window::whole(&example::X), 2).unwrap(), [40]);
}
