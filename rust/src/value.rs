//! One value.

use crate::DataType;
use std::fmt;

/// One value, of the type that its variable has. The bits of floating point numbers are those of the file.
///
/// ```
/// use fungalcove::{example, Header, Value, Versions, Window};
///
/// let file = &example::X;
/// let header = Header::read(file, 92, Versions::BOTH).unwrap();
/// let value = header.variable("x").unwrap().element(Window::whole(file), 1, 0).unwrap();
/// assert_eq!(value, Value::Int(-2));
/// assert_eq!(value.data_type().to_string(), "int");
/// ```
#[derive(Debug, Clone, Copy, PartialEq)]
pub enum Value {
    /// A value of type [`DataType::Byte`].
    Byte(i8),
    /// A value of type [`DataType::Char`].
    Char(u8),
    /// A value of type [`DataType::Short`].
    Short(i16),
    /// A value of type [`DataType::Int`].
    Int(i32),
    /// A value of type [`DataType::Float`].
    Float(f32),
    /// A value of type [`DataType::Double`].
    Double(f64),
}

impl Value {
    /// The value's type.
    pub fn data_type(&self) -> DataType {
        match self {
            Value::Byte(_) => DataType::Byte,
            Value::Char(_) => DataType::Char,
            Value::Short(_) => DataType::Short,
            Value::Int(_) => DataType::Int,
            Value::Float(_) => DataType::Float,
            Value::Double(_) => DataType::Double,
        }
    }

    /// The value whose bits are the last ones of `bits`.
    pub(crate) fn of_bits(data_type: DataType, bits: u64) -> Value {
        match data_type {
            DataType::Byte => Value::Byte(bits as i8),
            DataType::Char => Value::Char(bits as u8),
            DataType::Short => Value::Short(bits as i16),
            DataType::Int => Value::Int(bits as i32),
            DataType::Float => Value::Float(f32::from_bits(bits as u32)),
            DataType::Double => Value::Double(f64::from_bits(bits)),
        }
    }
}

impl fmt::Display for Value {
    /// The number, a char's too; of floating point numbers the fewest digits that give the value back.
    fn fmt(&self, f: &mut fmt::Formatter<'_>) -> fmt::Result {
        match self {
            Value::Byte(value) => value.fmt(f),
            Value::Char(value) => value.fmt(f),
            Value::Short(value) => value.fmt(f),
            Value::Int(value) => value.fmt(f),
            Value::Float(value) => fmt::Debug::fmt(value, f),
            Value::Double(value) => fmt::Debug::fmt(value, f),
        }
    }
}
