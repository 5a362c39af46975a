//! Files and readers for the tests.
#![allow(dead_code)]

use std::io::{self, Read, Seek, SeekFrom};

/// The word of a count that is left open.
pub const OPEN: u32 = 0xFFFF_FFFF;

/// A header, put together part by part; nothing is checked.
pub struct Builder {
    version: u8,
    count: u32,
    dimensions: Vec<(&'static str, u32)>,
    variables: Vec<Variable>,
}

struct Variable {
    name: &'static str,
    ids: Vec<u32>,
    code: u32,
    begin: u64,
}

impl Builder {
    pub fn new(version: u8, count: u32) -> Builder {
        Builder { version, count, dimensions: Vec::new(), variables: Vec::new() }
    }

    pub fn dimension(mut self, name: &'static str, length: u32) -> Builder {
        self.dimensions.push((name, length));
        self
    }

    pub fn variable(mut self, name: &'static str, ids: &[u32], code: u32, begin: u64) -> Builder {
        self.variables.push(Variable { name, ids: ids.to_vec(), code, begin });
        self
    }

    pub fn header(&self) -> Vec<u8> {
        let mut out = b"CDF".to_vec();
        out.push(self.version);
        put(&mut out, self.count);
        put_list(&mut out, 0x0A, self.dimensions.len());
        for (name, length) in &self.dimensions {
            put_name(&mut out, name);
            put(&mut out, *length);
        }
        put_list(&mut out, 0x0C, 0);
        put_list(&mut out, 0x0B, self.variables.len());
        for variable in &self.variables {
            self.put_variable(&mut out, variable);
        }
        out
    }

    /// The header, then the values.
    pub fn file(&self, values: &[u8]) -> Vec<u8> {
        let mut file = self.header();
        file.extend_from_slice(values);
        file
    }

    fn put_variable(&self, out: &mut Vec<u8>, variable: &Variable) {
        put_name(out, variable.name);
        put(out, variable.ids.len() as u32);
        variable.ids.iter().for_each(|id| put(out, *id));
        put_list(out, 0x0C, 0);
        put(out, variable.code);
        put(out, 4);
        if self.version == 2 {
            put(out, (variable.begin >> 32) as u32);
        }
        put(out, variable.begin as u32);
    }
}

fn put(out: &mut Vec<u8>, word: u32) {
    out.extend_from_slice(&word.to_be_bytes());
}

fn put_list(out: &mut Vec<u8>, tag: u32, count: usize) {
    put(out, if count == 0 { 0 } else { tag });
    put(out, count as u32);
}

fn put_name(out: &mut Vec<u8>, name: &str) {
    put(out, name.len() as u32);
    out.extend_from_slice(name.as_bytes());
    out.resize((out.len() + 3) / 4 * 4, 0);
}

/// A file of any size: the given bytes, then zeros. It counts the bytes that it hands out, and hands out no more than `most`
/// at a time.
pub struct Pretended {
    pub bytes: Vec<u8>,
    pub size: u64,
    pub most: usize,
    pub handed_out: u64,
    at: u64,
}

impl Pretended {
    pub fn new(bytes: Vec<u8>, size: u64) -> Pretended {
        Pretended { bytes, size, most: usize::MAX, handed_out: 0, at: 0 }
    }

    pub fn whole(bytes: Vec<u8>) -> Pretended {
        let size = bytes.len() as u64;
        Pretended::new(bytes, size)
    }

    pub fn short(bytes: Vec<u8>, most: usize) -> Pretended {
        Pretended { most, ..Pretended::whole(bytes) }
    }
}

impl Read for Pretended {
    fn read(&mut self, out: &mut [u8]) -> io::Result<usize> {
        let left = self.size.saturating_sub(self.at);
        let n = left.min(out.len().min(self.most) as u64) as usize;
        for byte in &mut out[..n] {
            let at = usize::try_from(self.at).unwrap_or(usize::MAX);
            *byte = self.bytes.get(at).copied().unwrap_or(0);
            self.at += 1;
        }
        self.handed_out += n as u64;
        Ok(n)
    }
}

impl Seek for Pretended {
    fn seek(&mut self, to: SeekFrom) -> io::Result<u64> {
        self.at = match to {
            SeekFrom::Start(at) => at,
            SeekFrom::End(step) => (self.size as i64 + step) as u64,
            SeekFrom::Current(step) => (self.at as i64 + step) as u64,
        };
        Ok(self.at)
    }
}
