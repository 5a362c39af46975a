//! Text in CDL.

use std::io::{self, Write};

/// The text of an attribute: a line of the output for each of its own, and bytes from 128 on as they are, UTF-8 or not. Zero
/// bytes at its end are left out: in C they end a text and are no part of it.
pub fn write(out: &mut impl Write, text: &[u8]) -> io::Result<()> {
    let length = text.iter().rposition(|&byte| byte != 0).map_or(0, |last| last + 1);
    out.write_all(b"\"")?;
    for &byte in &text[..length] {
        match byte {
            b'\n' => out.write_all(b"\\n\",\n\t\t\t\"")?,
            0x80.. => out.write_all(&[byte])?,
            _ => write_escaped(out, byte)?,
        }
    }
    out.write_all(b"\"")
}

/// One byte of a text in quotes, in ASCII, so that every byte can be had back: `\b`, `\f`, `\n`, `\r`, `\t` and `\v` are
/// as in C, a backslash and either quote stand behind a backslash, and all that can't be printed is three octal digits
/// behind one.
pub fn write_escaped(out: &mut impl Write, byte: u8) -> io::Result<()> {
    let letter = match byte {
        0x08 => b'b',
        0x09 => b't',
        0x0a => b'n',
        0x0b => b'v',
        0x0c => b'f',
        0x0d => b'r',
        b'"' | b'\'' | b'\\' => byte,
        b' '..=b'~' => return out.write_all(&[byte]),
        _ => return write!(out, "\\{:03o}", byte),
    };
    out.write_all(&[b'\\', letter])
}
