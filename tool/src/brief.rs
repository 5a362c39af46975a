//! Places, counts, types by their codes, and values as short texts.

use crate::values::Shown;
use fungalcove::Value;
use std::ops::Range;

/// What the grammar calls a type: its tag, a list of its values, and the values without their padding.
pub struct Type {
    pub tag: &'static str,
    pub list: &'static str,
    pub items: &'static str,
    pub size: usize,
}

/// By their codes; no type has the code 0.
pub const TYPES: [Type; 7] = [
    Type { tag: "0", list: "values", items: "[values ...]", size: 1 },
    Type { tag: "NC_BYTE", list: "bytes", items: "[BYTE ...]", size: 1 },
    Type { tag: "NC_CHAR", list: "chars", items: "[CHAR ...]", size: 1 },
    Type { tag: "NC_SHORT", list: "shorts", items: "[SHORT ...]", size: 2 },
    Type { tag: "NC_INT", list: "ints", items: "[INT ...]", size: 4 },
    Type { tag: "NC_FLOAT", list: "floats", items: "[FLOAT ...]", size: 4 },
    Type { tag: "NC_DOUBLE", list: "doubles", items: "[DOUBLE ...]", size: 8 },
];

/// How many characters of a text, and how many numbers, are shown.
const SHOWN: usize = 48;
const NUMBERS: usize = 6;

/// First and last byte, as `4-7`; `3` for one byte and `-` for none.
pub fn inclusive(bytes: Range<u64>) -> String {
    match bytes.end - bytes.start {
        0 => "-".to_string(),
        1 => bytes.start.to_string(),
        _ => format!("{}-{}", bytes.start, bytes.end - 1),
    }
}

/// A number of up to 8 bytes.
pub fn big_endian(bytes: &[u8]) -> u64 {
    bytes.iter().fold(0, |number, byte| number << 8 | u64::from(*byte))
}

/// How many bytes fill up others to a multiple of 4.
pub fn padding(bytes: u128) -> u128 {
    (4 - bytes % 4) % 4
}

/// As in `1 record`, `2 records`.
pub fn counted(n: u64, what: &str) -> String {
    format!("{} {}{}", n, what, if n == 1 { "" } else { "s" })
}

/// A text on one line: what would end the line, or move about the terminal, is escaped.
pub fn one_line(text: &str) -> String {
    let escaped = |c: char| if c.is_control() { c.escape_debug().to_string() } else { c.to_string() };
    text.chars().map(escaped).collect()
}

/// A text in quotes, cut where it is long; control characters are escaped, and bytes that are no characters are `\xDD`.
pub fn text(bytes: &[u8]) -> String {
    let (mut shown, mut rest, mut count) = (String::new(), bytes, 0);
    while !rest.is_empty() && count < SHOWN {
        let length = first_character(rest);
        match std::str::from_utf8(&rest[..length]) {
            Ok(character) => shown.extend(character.chars().flat_map(char::escape_debug)),
            Err(_) => shown += &format!("\\x{:02X}", rest[0]),
        }
        rest = &rest[length..];
        count += 1;
    }
    let more = if rest.is_empty() { String::new() } else { format!(" .. {} bytes", bytes.len()) };
    format!("\"{}\"{}", shown, more)
}

/// How many bytes the first character has; one where the first byte starts none.
fn first_character(bytes: &[u8]) -> usize {
    let most = bytes.len().min(4);
    (1..=most).find(|n| std::str::from_utf8(&bytes[..*n]).is_ok()).unwrap_or(1)
}

/// The value of the type of a code that some bytes spell.
pub fn value(code: u32, bytes: &[u8]) -> Value {
    let bits = big_endian(bytes);
    match code {
        1 => Value::Byte(bits as i8),
        2 => Value::Char(bits as u8),
        3 => Value::Short(bits as i16),
        4 => Value::Int(bits as i32),
        5 => Value::Float(f32::from_bits(bits as u32)),
        _ => Value::Double(f64::from_bits(bits)),
    }
}

/// Values of the type of a code.
pub fn values(code: u32, bytes: &[u8]) -> String {
    if code == 2 {
        return text(bytes);
    }
    let size = TYPES[code as usize].size;
    let shown = |bytes: &[u8]| Shown(value(code, bytes)).to_string();
    let mut parts: Vec<String> = bytes.chunks(size).take(NUMBERS).map(shown).collect();
    if bytes.len() / size > NUMBERS {
        parts.push(format!(".. {} values", bytes.len() / size));
    }
    parts.join(", ")
}
