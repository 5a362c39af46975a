//! Names in CDL.

use std::io::{self, Write};

/// What means something in CDL and so stands behind a backslash in a name.
const SPECIAL: &[u8] = b" !\"#$&'()*,:;<=>?[\\]^`{|}~";

/// A first digit stands behind a backslash too, for a name must not look like a number. Control characters become their
/// hexadecimal digits behind `\%`; UTF-8 stays as it is.
pub fn write(out: &mut impl Write, name: &[u8]) -> io::Result<()> {
    if name.first().map_or(false, u8::is_ascii_digit) {
        out.write_all(b"\\")?;
    }
    for byte in name {
        match byte {
            _ if byte.is_ascii_control() => write!(out, "\\%{:02x}", byte)?,
            _ if SPECIAL.contains(byte) => out.write_all(&[b'\\', *byte])?,
            _ => out.write_all(&[*byte])?,
        }
    }
    Ok(())
}
