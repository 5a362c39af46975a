//! Where a header's numbers stand among its tables' words.

/// The words before the rows.
pub(crate) const VERSION: usize = 0;
pub(crate) const COUNT_WORD: usize = 1;
pub(crate) const RECORDS: usize = 2;
pub(crate) const SIZE: usize = 3;
pub(crate) const DIMENSIONS: usize = 4;
pub(crate) const GLOBAL_ATTRIBUTES: usize = 6;
pub(crate) const VARIABLES: usize = 7;

/// The word of a count or vsize that is left open.
pub(crate) const OPEN: u64 = 0xFFFF_FFFF;

/// Every row starts with its name's place in the header, and the name's bytes.
pub(crate) const NAME: usize = 0;
pub(crate) const NAME_BYTES: usize = 1;

/// The first word of a dimension's row.
pub(crate) fn dimension(number: usize) -> usize {
    8 + 3 * number
}

pub(crate) const LENGTH: usize = 2;

/// The first word of an attribute's row.
pub(crate) fn attribute(number: usize) -> usize {
    104 + 5 * number
}

pub(crate) const ATTRIBUTE_TYPE: usize = 2;
pub(crate) const ELEMENTS: usize = 3;
pub(crate) const VALUES: usize = 4;

/// The first word of a variable's row.
pub(crate) fn variable(number: usize) -> usize {
    744 + 16 * number
}

pub(crate) const RANK: usize = 2;
pub(crate) const FIRST_ATTRIBUTE: usize = 3;
pub(crate) const ATTRIBUTES: usize = 4;
pub(crate) const VARIABLE_TYPE: usize = 5;
pub(crate) const VSIZE: usize = 6;
pub(crate) const BEGIN: usize = 7;
pub(crate) const IDS: usize = 8;
