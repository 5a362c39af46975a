//! Stand-in: this file was not supplied. It holds just what the other files call: a name and a `DataVector`.

use crate::{is_valid_name, DataType, DataVector};

#[derive(Debug, Clone, PartialEq)]
pub struct Attribute {
    pub(crate) name: String,
    pub(crate) data: DataVector,
}

macro_rules! typed {
    ($new:ident, $get:ident, $prim:ty, $case:path) => {
        pub(in crate::data_set) fn $new(name: &str, data: Vec<$prim>) -> Result<Attribute, String> {
            Attribute::check_attr_name(name)?;
            Ok(Attribute { name: name.to_string(), data: $case(data) })
        }

        pub fn $get(&self) -> Option<&[$prim]> {
            self.data.$get()
        }
    };
}

impl Attribute {
    typed!(new_i8, get_i8, i8, DataVector::I8);
    typed!(new_u8, get_u8, u8, DataVector::U8);
    typed!(new_i16, get_i16, i16, DataVector::I16);
    typed!(new_i32, get_i32, i32, DataVector::I32);
    typed!(new_f32, get_f32, f32, DataVector::F32);
    typed!(new_f64, get_f64, f64, DataVector::F64);

    pub fn name(&self) -> &str {
        &self.name
    }

    pub fn len(&self) -> usize {
        self.data.len()
    }

    pub fn data_type(&self) -> DataType {
        self.data.data_type()
    }

    pub fn get_as_string(&self) -> Option<String> {
        self.data.get_as_string()
    }

    pub(in crate::data_set) fn check_attr_name(name: &str) -> Result<(), String> {
        if is_valid_name(name) {
            Ok(())
        } else {
            Err(name.to_string())
        }
    }
}
