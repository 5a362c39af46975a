//! Document 01's numbers: the library's words for them, and what to do.

use fungalcove::Refusal;
use std::io::{self, Write};

/// What whoever meets a number may do about it.
pub fn advice(number: u8) -> &'static str {
    ADVICE.get(usize::from(number)).copied().unwrap_or("")
}

const FOR_PROGRAMS: &str = "only programs that call the library meet this number";

/// In the order of the numbers, from 0 on.
const ADVICE: [&str; 26] = [
    "nothing is wrong",
    "more of the file's first bytes are wanted; of a whole file the number is 2",
    "the file ends inside its header: it was cut off when it was written or copied, so fetch it again; or a count in the header is \
     damaged, `fungal explain` shows where",
    "this is no NetCDF-3 file; one that starts with \\x89HDF is netCDF-4, and `nccopy -k classic` converts it",
    "classic (1) and 64-bit offset (2) are read, and what --admit leaves of them; CDF-5 is not",
    "`fungal explain` shows where. A vsize, for variables of 2 to 4 GiB: netCDF's library writes such files, but this reader follows a \
     rule that leaves them out. Any other word: the header is damaged",
    "names are UTF-8; an old writer may have put down another encoding",
    "in a header the bytes that fill up to four are zero; some old writers leave there what was in memory",
    "the types are 1 to 6; those from 7 up belong to CDF-5",
    "what should start a list starts none: the header is damaged, `fungal explain` shows where",
    "the file may be in order, but this reader has no room for more than 32 dimensions, 64 variables, 128 attributes in all, 8 \
     dimensions a variable and 256 bytes a name",
    "a name is empty or twice in its list, two dimensions are unlimited, an id names no dimension, or the unlimited dimension is \
     not a variable's first; `fungal explain` names the item",
    "a place or a size that no file has: the header is damaged, `fungal explain` names the variable",
    "the count is left open, and the file ends inside a record: it was cut off, or bytes follow the last one; or its only record \
     variable has bytes, characters or shorts, which netCDF's library does not pad",
    "the count is left open, and the file ends before its first record: it was cut off",
    "the count or a place is out of all proportion: the header is damaged",
    "`fungal show FILE` lists the variables; names are spelled as in the file, and a record is a whole number behind a colon",
    FOR_PROGRAMS,
    "records count from 0; `fungal show FILE` says how many there are, and a fixed variable has record 0 only",
    FOR_PROGRAMS,
    "the file ends before these values: it was cut off, or its only record variable has bytes, characters or shorts, which \
     netCDF's library does not pad",
    "no file of more than 2^62 bytes is read",
    FOR_PROGRAMS,
    FOR_PROGRAMS,
    "a variable's values begin inside the header, so the header can't be changed",
    "version 1 reaches no further than 2147483647 bytes; leave this file in version 2",
];

/// How wide the table is.
const WIDTH: usize = 90;

/// All numbers, with their words and what to do.
pub fn print(out: &mut impl Write) -> io::Result<()> {
    writeln!(out, "Every answer has a number. A header's refusal, 1 to 10, has the place of the byte as well.\n")?;
    for (number, words) in Refusal::table() {
        writeln!(out, "{:3}  {}", number, words)?;
        for line in wrapped(advice(number)) {
            writeln!(out, "     {}", line)?;
        }
    }
    Ok(())
}

/// Words in lines that are no longer than the table is wide.
fn wrapped(words: &str) -> Vec<String> {
    let mut lines = vec![String::new()];
    for word in words.split_whitespace() {
        let line = lines.last_mut().expect("one to begin with");
        if line.is_empty() {
            line.push_str(word);
        } else if line.len() + 1 + word.len() <= WIDTH {
            line.push(' ');
            line.push_str(word);
        } else {
            lines.push(word.to_string());
        }
    }
    lines
}
