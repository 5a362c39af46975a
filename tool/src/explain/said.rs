//! What a header's bytes say, with the places of all of it.

use std::ops::Range;

/// An item of a list: its bytes, and those of its name.
#[derive(Debug, Clone)]
pub struct Named {
    pub bytes: Range<usize>,
    pub name: Range<usize>,
}

#[derive(Debug, Clone)]
pub struct Dimension {
    pub named: Named,
    /// 0 for the unlimited one.
    pub length: u32,
}

#[derive(Debug, Clone)]
pub struct Variable {
    pub named: Named,
    pub ids: Vec<u32>,
    pub code: u32,
    pub begin: i64,
    pub begin_bytes: Range<usize>,
}

/// What was derived, as far as the walk went.
#[derive(Debug, Default)]
pub struct Said {
    pub version: u8,
    pub dimensions: Vec<Dimension>,
    /// The lists of attributes: the global one, then one for each variable.
    pub attributes: Vec<Vec<Named>>,
    pub variables: Vec<Variable>,
}
