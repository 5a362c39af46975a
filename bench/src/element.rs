//! One element with full tables, 64 variables over 8 dimensions, through a variable that is kept; and finding that variable by its
//! name. netcdf3 reads no elements.

use crate::clock::{opaque, Clock};
use crate::header::read;
use crate::headers;
use crate::table::{head, line, Most};
use fungalcove::{Value, Window};

const NAME: &str = "variable_40";
const ELEMENT: u64 = 5;
/// The most microseconds that an element may take.
const MOST: f64 = 1.0;

pub fn measure(runs: usize) {
    let clock = Clock { runs, turns: 1000 };
    let file = headers::full_file();
    let header = read(&file);
    let variable = header.variable(NAME).expect("there is one");
    let window = Window::whole(&file);
    let at = variable.begin() as usize + 8 * ELEMENT as usize;
    let bits = u64::from_be_bytes(file[at..at + 8].try_into().unwrap());
    match variable.element(window, 0, ELEMENT) {
        Ok(Value::Double(value)) => assert_eq!(value.to_bits(), bits, "the element"),
        other => panic!("no double but {other:?}"),
    }
    let element = || assert!(opaque(variable.element(opaque(window), 0, ELEMENT)).is_ok());
    let find = || assert!(opaque(header.variable(opaque(NAME))).is_ok());
    head("64 variables of 8 dimensions", "", "ours us");
    line("one element, variable kept", None, clock.alone(element), Most::Micros(MOST));
    line("a variable found by its name", None, clock.alone(find), Most::Open);
}
