//! Reads by a variable's name: netcdf3's names for them, on a header and a window.

use crate::{Header, Refusal, Value, Values, Window};

macro_rules! reads_by_name {
    ($($type:ty, $variable:literal, $values:literal, $record:literal, $read_var:ident, $read_record:ident;)*) => {$(
        #[doc = concat!("All values of a variable of `", stringify!($type), "`s.")]
        ///
        /// ```
        /// # use fungalcove::{example, Header, Versions, Window};
        /// # let file = example::STATION;
        /// # let header = Header::read(file, file.len() as u64, Versions::BOTH).unwrap();
        #[doc = concat!("let values = header.", stringify!($read_var), "(\"", $variable, "\", Window::whole(file)).unwrap();")]
        #[doc = concat!("assert_eq!(values, ", $values, ");")]
        /// ```
        pub fn $read_var(&self, name: &str, window: Window<'_>) -> Result<Vec<$type>, Refusal> {
            self.variable(name)?.read(window)
        }

        #[doc = concat!("One record of a variable of `", stringify!($type), "`s.")]
        ///
        /// ```
        /// # use fungalcove::{example, Header, Versions, Window};
        /// # let file = example::STATION;
        /// # let header = Header::read(file, file.len() as u64, Versions::BOTH).unwrap();
        #[doc = concat!("let values = header.", stringify!($read_record), "(\"", $variable, "\", Window::whole(file), 1).unwrap();")]
        #[doc = concat!("assert_eq!(values, ", $record, ");")]
        /// ```
        pub fn $read_record(&self, name: &str, window: Window<'_>, record: u64) -> Result<Vec<$type>, Refusal> {
            self.variable(name)?.read_record(window, record)
        }
    )*};
}

/// Reads by a variable's name. Each looks the name up and works out the variable's place; for many reads of one variable keep
/// the [`Variable`](crate::Variable).
impl Header {
    /// All values of a variable, whatever its type.
    ///
    /// ```
    /// use fungalcove::{example, Header, Values, Versions, Window};
    ///
    /// let file = &example::X;
    /// let header = Header::read(file, 92, Versions::BOTH).unwrap();
    /// assert_eq!(header.read_var("x", Window::whole(file)).unwrap(), Values::Int(vec![7, -2, 40]));
    /// ```
    pub fn read_var(&self, name: &str, window: Window<'_>) -> Result<Values, Refusal> {
        self.variable(name)?.read_values(window)
    }

    /// One record of a variable, whatever its type.
    ///
    /// ```
    /// use fungalcove::{example, Header, Values, Versions, Window};
    ///
    /// let file = &example::X;
    /// let header = Header::read(file, 92, Versions::BOTH).unwrap();
    /// assert_eq!(header.read_record("x", Window::whole(file), 2).unwrap(), Values::Int(vec![40]));
    /// ```
    pub fn read_record(&self, name: &str, window: Window<'_>, record: u64) -> Result<Values, Refusal> {
        self.variable(name)?.read_record_values(window, record)
    }

    /// One element of a variable, whatever its type.
    ///
    /// ```
    /// use fungalcove::{example, Header, Value, Versions, Window};
    ///
    /// let file = &example::X;
    /// let header = Header::read(file, 92, Versions::BOTH).unwrap();
    /// assert_eq!(header.read_element("x", Window::whole(file), 2, 0).unwrap(), Value::Int(40));
    /// ```
    pub fn read_element(&self, name: &str, window: Window<'_>, record: u64, element: u64) -> Result<Value, Refusal> {
        self.variable(name)?.element(window, record, element)
    }

    reads_by_name! {
        i8, "byte", "[1, -1, 127, -128]", "[127, -128]", read_var_i8, read_record_i8;
        u8, "char", "[78, 67, 51, 255]", "[51, 255]", read_var_u8, read_record_u8;
        i16, "short", "[1, -1, 32767, -32768]", "[32767, -32768]", read_var_i16, read_record_i16;
        i32, "int", "[1, -1, i32::MAX, i32::MIN]", "[i32::MAX, i32::MIN]", read_var_i32, read_record_i32;
        f32, "float", "[0.5, -0.25, 1e10, 0.0]", "[1e10, 0.0]", read_var_f32, read_record_f32;
        f64, "double", "[0.5, -0.25, 1e100, 0.0]", "[1e100, 0.0]", read_var_f64, read_record_f64;
    }
}
