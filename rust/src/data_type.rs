//! The six types of the format.

use std::fmt;

/// The type of a variable's or attribute's values.
///
/// ```
/// use fungalcove::DataType;
///
/// assert_eq!(DataType::Short.code(), 3);
/// assert_eq!(DataType::Short.size(), 2);
/// assert_eq!(DataType::Short.to_string(), "short");
/// ```
#[derive(Debug, Clone, Copy, PartialEq, Eq, Hash)]
pub enum DataType {
    /// Signed whole numbers of 8 bits, [`i8`].
    Byte,
    /// Characters of 8 bits, [`u8`].
    Char,
    /// Signed whole numbers of 16 bits, [`i16`].
    Short,
    /// Signed whole numbers of 32 bits, [`i32`].
    Int,
    /// Floating point numbers of 32 bits, [`f32`].
    Float,
    /// Floating point numbers of 64 bits, [`f64`].
    Double,
}

impl DataType {
    /// All six, in the order of their codes.
    pub const ALL: [DataType; 6] =
        [DataType::Byte, DataType::Char, DataType::Short, DataType::Int, DataType::Float, DataType::Double];

    /// The type's code in the file: 1 to 6.
    pub fn code(self) -> u8 {
        match self {
            DataType::Byte => 1,
            DataType::Char => 2,
            DataType::Short => 3,
            DataType::Int => 4,
            DataType::Float => 5,
            DataType::Double => 6,
        }
    }

    /// How many bytes a value takes in the file.
    pub fn size(self) -> u64 {
        match self {
            DataType::Byte | DataType::Char => 1,
            DataType::Short => 2,
            DataType::Int | DataType::Float => 4,
            DataType::Double => 8,
        }
    }

    /// The header reader accepts no other codes than 1 to 6.
    pub(crate) fn of_word(word: u64) -> DataType {
        match word {
            1 => DataType::Byte,
            2 => DataType::Char,
            3 => DataType::Short,
            4 => DataType::Int,
            5 => DataType::Float,
            _ => DataType::Double,
        }
    }
}

impl fmt::Display for DataType {
    fn fmt(&self, f: &mut fmt::Formatter<'_>) -> fmt::Result {
        f.write_str(match self {
            DataType::Byte => "byte",
            DataType::Char => "char",
            DataType::Short => "short",
            DataType::Int => "int",
            DataType::Float => "float",
            DataType::Double => "double",
        })
    }
}
