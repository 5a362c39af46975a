//! Records of 1000 floats, 4400 bytes apart: one, and all of them, beside the plain loop over each record's bytes. The variable
//! is found before.

use crate::clock::{opaque, Clock};
use crate::header::read;
use crate::kind::Kind;
use crate::table::{head, line, Most};
use crate::{headers, sample};
use fungalcove::{Variable, Window};

pub const COUNT: usize = 1000;
pub const CHUNK: usize = 1000;
/// The values of the other variable, between one record and the next.
const OTHER: usize = 100;
const STRIDE: usize = 4 * (CHUNK + OTHER);
/// Records in a run, where one is timed.
pub const TURNS: usize = 100;
/// The most that all records may take.
const MOST: Most = Most::of(Most::Ratio(1.35), Most::Open);

pub fn measure(runs: usize) {
    let file = file();
    let header = read(&file);
    let variable = header.variable("x").expect("there is one");
    head("records of 1000 floats", "loop us", "ours us");
    one(Clock { runs, turns: TURNS }, &file, &variable);
    all(Clock { runs, turns: 1 }, &file, &variable);
}

pub fn file() -> Vec<u8> {
    let mut file = headers::two_records(COUNT, CHUNK, OTHER);
    file.extend(sample::bytes(COUNT * STRIDE / 4, 4));
    file
}

/// Another record at each turn, the same ones in each run.
pub fn walk() -> impl FnMut() -> usize {
    let mut at = 0;
    move || {
        at = (at + 370) % COUNT;
        at
    }
}

fn bytes_of(file: &[u8], begin: usize, record: usize) -> &[u8] {
    &file[begin + record * STRIDE..][..4 * CHUNK]
}

fn one(clock: Clock, file: &[u8], variable: &Variable<'_>) {
    let begin = variable.begin() as usize;
    let (mut theirs, mut out) = (vec![0f32; CHUNK], vec![0f32; CHUNK]);
    let (mut next, mut ours_next) = (walk(), walk());
    let (a, b) = clock.against(
        || f32::plain(bytes_of(opaque(file), begin, next()), &mut theirs),
        || {
            let read = variable.read_record_f32_into(Window::whole(opaque(file)), ours_next() as u64, &mut out);
            assert_eq!(read, Ok(CHUNK));
        },
    );
    assert!(Kind::same(&theirs, &out), "a record: the values differ");
    line("one of 1000", Some(a), b, Most::Open);
}

fn all(clock: Clock, file: &[u8], variable: &Variable<'_>) {
    let begin = variable.begin() as usize;
    let (mut theirs, mut out) = (vec![0f32; COUNT * CHUNK], vec![0f32; COUNT * CHUNK]);
    let (a, b) = clock.against(
        || {
            let file = opaque(file);
            for (record, out) in theirs.chunks_exact_mut(CHUNK).enumerate() {
                f32::plain(bytes_of(file, begin, record), out);
            }
        },
        || assert_eq!(variable.read_f32_into(Window::whole(opaque(file)), &mut out), Ok(COUNT * CHUNK)),
    );
    assert!(Kind::same(&theirs, &out), "all records: the values differ");
    line("all 1000", Some(a), b, MOST);
}
