//! Values of one type, whichever it is.

use crate::{DataType, Value};

/// Values of a variable or an attribute, of the type that it has: the place of netcdf3's `DataVector`.
///
/// ```
/// use fungalcove::{example, DataType, FileReader, Values};
/// use std::io::Cursor;
///
/// let mut file = FileReader::new(Cursor::new(&example::X)).unwrap();
/// let values = file.read_var("x").unwrap();
/// assert_eq!(values, Values::Int(vec![7, -2, 40]));
/// assert_eq!(values.get_i32(), Some(&[7, -2, 40][..]));
/// assert_eq!(values.get_f32(), None);
/// assert_eq!((values.data_type(), values.len(), values.is_empty()), (DataType::Int, 3, false));
/// ```
#[derive(Debug, Clone, PartialEq)]
pub enum Values {
    /// Values of type [`DataType::Byte`].
    Byte(Vec<i8>),
    /// Values of type [`DataType::Char`].
    Char(Vec<u8>),
    /// Values of type [`DataType::Short`].
    Short(Vec<i16>),
    /// Values of type [`DataType::Int`].
    Int(Vec<i32>),
    /// Values of type [`DataType::Float`].
    Float(Vec<f32>),
    /// Values of type [`DataType::Double`].
    Double(Vec<f64>),
}

/// `$body` for the vector `$values` of whichever case.
macro_rules! whichever {
    ($self:expr, $values:ident => $body:expr) => {
        match $self {
            Values::Byte($values) => $body,
            Values::Char($values) => $body,
            Values::Short($values) => $body,
            Values::Int($values) => $body,
            Values::Float($values) => $body,
            Values::Double($values) => $body,
        }
    };
}

macro_rules! getters {
    ($($type:ty, $case:ident, $get:ident, $get_into:ident, $variable:literal, $values:literal;)*) => {$(
        #[doc = concat!("The values, where they are [`", stringify!($type), "`]s.")]
        ///
        /// ```
        /// # use fungalcove::{example, FileReader};
        /// # let mut file = FileReader::new(std::io::Cursor::new(example::STATION)).unwrap();
        #[doc = concat!("let values = file.read_var(\"", $variable, "\").unwrap();")]
        #[doc = concat!("assert_eq!(values.", stringify!($get), "(), Some(&", $values, "[..]));")]
        /// ```
        pub fn $get(&self) -> Option<&[$type]> {
            match self {
                Values::$case(values) => Some(values),
                _ => None,
            }
        }

        #[doc = concat!("The values themselves, where they are [`", stringify!($type), "`]s; else all of it back.")]
        ///
        /// ```
        /// # use fungalcove::{example, FileReader};
        /// # let mut file = FileReader::new(std::io::Cursor::new(example::STATION)).unwrap();
        #[doc = concat!("let values = file.read_var(\"", $variable, "\").unwrap();")]
        #[doc = concat!("assert_eq!(values.", stringify!($get_into), "().unwrap(), ", $values, ");")]
        /// ```
        pub fn $get_into(self) -> Result<Vec<$type>, Values> {
            match self {
                Values::$case(values) => Ok(values),
                other => Err(other),
            }
        }
    )*};
}

impl Values {
    /// The values' type.
    pub fn data_type(&self) -> DataType {
        match self {
            Values::Byte(_) => DataType::Byte,
            Values::Char(_) => DataType::Char,
            Values::Short(_) => DataType::Short,
            Values::Int(_) => DataType::Int,
            Values::Float(_) => DataType::Float,
            Values::Double(_) => DataType::Double,
        }
    }

    /// How many values there are.
    pub fn len(&self) -> usize {
        whichever!(self, values => values.len())
    }

    /// Whether there are none.
    pub fn is_empty(&self) -> bool {
        self.len() == 0
    }

    /// The value at a place, from 0 on.
    ///
    /// ```
    /// use fungalcove::{Value, Values};
    ///
    /// let values = Values::Short(vec![3, 5]);
    /// assert_eq!(values.get(1), Some(Value::Short(5)));
    /// assert_eq!(values.get(2), None);
    /// ```
    pub fn get(&self, at: usize) -> Option<Value> {
        match self {
            Values::Byte(values) => values.get(at).copied().map(Value::Byte),
            Values::Char(values) => values.get(at).copied().map(Value::Char),
            Values::Short(values) => values.get(at).copied().map(Value::Short),
            Values::Int(values) => values.get(at).copied().map(Value::Int),
            Values::Float(values) => values.get(at).copied().map(Value::Float),
            Values::Double(values) => values.get(at).copied().map(Value::Double),
        }
    }

    getters! {
        i8, Byte, get_i8, get_i8_into, "byte", "[1, -1, 127, -128]";
        u8, Char, get_u8, get_u8_into, "char", "[78, 67, 51, 255]";
        i16, Short, get_i16, get_i16_into, "short", "[1, -1, 32767, -32768]";
        i32, Int, get_i32, get_i32_into, "int", "[1, -1, 2147483647, -2147483648]";
        f32, Float, get_f32, get_f32_into, "float", "[0.5, -0.25, 1e10, 0.0]";
        f64, Double, get_f64, get_f64_into, "double", "[0.5, -0.25, 1e100, 0.0]";
    }
}
