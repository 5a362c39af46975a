//! The stack that the crate's calls take: a thread's stack is painted from below, the call is made, and the paint that is left is
//! counted.

use crate::header::read;
use crate::widen::widened;
use crate::{headers, sample};
use fungalcove::{Header, Versions, Window};

const PAINTED: usize = 2 << 20;
const PAINT: u8 = 0xa5;
const LIMIT: usize = 256 << 10;

pub fn measure() {
    println!("\n{:30} {:>10} {:>10}", "stack", "bytes", "at most");
    for sample in headers::measured() {
        show(sample.name, move || drop(read(&sample.bytes)));
    }
    show("no header", || assert_eq!(Header::read(b"CDX", 3, Versions::BOTH).unwrap_err().number, 3));
    let [large, ..] = headers::measured();
    show("64 variables, widened", move || drop(widened(&large.bytes)));
    reads();
}

/// Reads through variables that are kept. The headers are leaked for the other threads, which may outlive this one.
fn reads() {
    let mut file = headers::one_fixed(5, 4);
    file.extend(sample::bytes(4, 4));
    let header: &'static Header = Box::leak(Box::new(read(&file)));
    let variable = header.variable("x").expect("there is one");
    show("a whole variable", move || {
        assert_eq!(variable.read_f32_into(Window::whole(&file), &mut [0.0; 4]), Ok(4));
    });
    let file = headers::full_file();
    let header: &'static Header = Box::leak(Box::new(read(&file)));
    let variable = header.variable("variable_40").expect("there is one");
    show("a variable found by its name", move || assert!(header.variable("variable_40").is_ok()));
    show("an element, full tables", move || assert!(variable.element(Window::whole(&file), 0, 5).is_ok()));
}

fn show(name: &str, call: impl FnOnce() + Send + 'static) {
    let n = taken(call);
    println!("{name:30} {n:10} {LIMIT:10}{}", if n < LIMIT { "" } else { "  over" });
}

fn taken(call: impl FnOnce() + Send + 'static) -> usize {
    let work = move || {
        let painted = paint();
        call();
        used(painted)
    };
    std::thread::Builder::new().stack_size(2 * PAINTED).spawn(work).expect("a thread").join().expect("the measure")
}

/// Paints the stack below the caller's frame; answers where the paint starts and ends.
#[inline(never)]
fn paint() -> (usize, usize) {
    let mut area = std::mem::MaybeUninit::<[u8; PAINTED]>::uninit();
    let start = area.as_mut_ptr() as usize;
    for k in 0..PAINTED {
        // SAFETY: the area is this function's own.
        unsafe { std::ptr::write_volatile((start + k) as *mut u8, PAINT) };
    }
    (start, start + PAINTED)
}

/// Bytes below the paint's end that were written since.
#[inline(never)]
fn used((start, end): (usize, usize)) -> usize {
    let mut at = start;
    // SAFETY: the thread's stack is twice as large as the paint, so what is read is part of it.
    while at < end && unsafe { std::ptr::read_volatile(at as *const u8) } == PAINT {
        at += 1;
    }
    end - at
}
