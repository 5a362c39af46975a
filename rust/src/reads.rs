//! Reads of a variable's values, out of a window of the file.

use crate::element::for_type;
use crate::{ffi, DataType, Element, Refusal, Value, Values, Variable, Window};

impl Variable<'_> {
    /// One element, whatever the variable's type.
    ///
    /// ```
    /// use fungalcove::{example, Header, Value, Versions, Window};
    ///
    /// let file = &example::X;
    /// let header = Header::read(file, 92, Versions::BOTH).unwrap();
    /// let x = header.variable("x").unwrap();
    /// assert_eq!(x.element(Window::whole(file), 1, 0).unwrap(), Value::Int(-2));
    /// assert_eq!(x.element(Window::whole(file), 3, 0).unwrap_err().number, 18);
    /// assert_eq!(x.element(Window::whole(file), 1, 1).unwrap_err().number, 19);
    /// ```
    pub fn element(&self, window: Window<'_>, record: u64, element: u64) -> Result<Value, Refusal> {
        let (number, code, bits) = ffi::read_element(self.placed(), window, record, element);
        Refusal::check(number)?;
        Ok(Value::of_bits(DataType::of_word(code), bits))
    }

    /// All values, record after record.
    ///
    /// ```
    /// use fungalcove::{example, Header, Versions, Window};
    ///
    /// let file = &example::X;
    /// let header = Header::read(file, 92, Versions::BOTH).unwrap();
    /// let x = header.variable("x").unwrap();
    /// let values: Vec<i32> = x.read(Window::whole(file)).unwrap();
    /// assert_eq!(values, [7, -2, 40]);
    /// ```
    pub fn read<T: Element>(&self, window: Window<'_>) -> Result<Vec<T>, Refusal> {
        let mut out = vec![T::default(); self.room_in::<T>(self.len(), window)];
        self.read_into(window, &mut out)?;
        Ok(out)
    }

    /// All values, into the first places of `out`; the answer is how many. A refusal leaves `out` as it was.
    ///
    /// ```
    /// use fungalcove::{example, Header, Versions, Window};
    ///
    /// let file = &example::X;
    /// let header = Header::read(file, 92, Versions::BOTH).unwrap();
    /// let x = header.variable("x").unwrap();
    /// let mut out = [0i32; 4];
    /// assert_eq!(x.read_into(Window::whole(file), &mut out), Ok(3));
    /// assert_eq!(out, [7, -2, 40, 0]);
    /// assert_eq!(x.read_into(Window::whole(file), &mut out[..2]).unwrap_err().number, 22);
    /// ```
    pub fn read_into<T: Element>(&self, window: Window<'_>, out: &mut [T]) -> Result<usize, Refusal> {
        Refusal::check(T::read_var(self.placed(), window, out))?;
        Ok(self.len() as usize)
    }

    /// The values of one record.
    ///
    /// ```
    /// use fungalcove::{example, Header, Versions, Window};
    ///
    /// let file = &example::X;
    /// let header = Header::read(file, 92, Versions::BOTH).unwrap();
    /// let x = header.variable("x").unwrap();
    /// let values: Vec<i32> = x.read_record(Window::whole(file), 1).unwrap();
    /// assert_eq!(values, [-2]);
    /// ```
    pub fn read_record<T: Element>(&self, window: Window<'_>, record: u64) -> Result<Vec<T>, Refusal> {
        let mut out = vec![T::default(); self.room_in::<T>(self.record_len(), window)];
        self.read_record_into(window, record, &mut out)?;
        Ok(out)
    }

    /// The values of one record, into the first places of `out`; the answer is how many. A refusal leaves `out` as it was.
    ///
    /// ```
    /// use fungalcove::{example, Header, Versions, Window};
    ///
    /// let file = &example::X;
    /// let header = Header::read(file, 92, Versions::BOTH).unwrap();
    /// let x = header.variable("x").unwrap();
    /// let mut out = [0i32; 2];
    /// assert_eq!(x.read_record_into(Window::whole(file), 1, &mut out), Ok(1));
    /// assert_eq!(out, [-2, 0]);
    /// ```
    pub fn read_record_into<T: Element>(
        &self,
        window: Window<'_>,
        record: u64,
        out: &mut [T],
    ) -> Result<usize, Refusal> {
        Refusal::check(T::read_record(self.placed(), window, record, out))?;
        Ok(self.record_len() as usize)
    }

    /// All values, whatever the variable's type.
    ///
    /// ```
    /// use fungalcove::{example, Header, Values, Versions, Window};
    ///
    /// let file = &example::X;
    /// let header = Header::read(file, 92, Versions::BOTH).unwrap();
    /// let x = header.variable("x").unwrap();
    /// assert_eq!(x.read_values(Window::whole(file)).unwrap(), Values::Int(vec![7, -2, 40]));
    /// ```
    pub fn read_values(&self, window: Window<'_>) -> Result<Values, Refusal> {
        for_type!(self.data_type(), T => self.read::<T>(window).map(Values::from))
    }

    /// The values of one record, whatever the variable's type.
    ///
    /// ```
    /// use fungalcove::{example, Header, Values, Versions, Window};
    ///
    /// let file = &example::X;
    /// let header = Header::read(file, 92, Versions::BOTH).unwrap();
    /// let x = header.variable("x").unwrap();
    /// assert_eq!(x.read_record_values(Window::whole(file), 2).unwrap(), Values::Int(vec![40]));
    /// ```
    pub fn read_record_values(&self, window: Window<'_>, record: u64) -> Result<Values, Refusal> {
        for_type!(self.data_type(), T => self.read_record::<T>(window, record).map(Values::from))
    }

    /// How much room to make for `elements` values out of `held` bytes.
    ///
    /// A header may claim 2^60 elements. Where the bytes can't hold them, or the type is another, no room is made: the read
    /// itself then says what is wrong, since too short an output is what it tests last.
    pub(crate) fn room<T: Element>(&self, elements: u64, held: u64) -> u64 {
        let size = self.data_type().size();
        if self.data_type() == T::DATA_TYPE && elements <= held / size {
            elements
        } else {
            0
        }
    }

    /// No more than the window's bytes, so it is no more than memory can hold.
    fn room_in<T: Element>(&self, elements: u64, window: Window<'_>) -> usize {
        self.room::<T>(elements, window.bytes.len() as u64) as usize
    }
}

macro_rules! typed_reads {
    ($($type:ty, $variable:literal, $values:literal, $record:literal,
       $read:ident, $read_into:ident, $read_record:ident, $read_record_into:ident;)*) => {
        /// The reads by the names of the types.
        impl Variable<'_> {$(
            #[doc = concat!("All values of a variable of `", stringify!($type), "`s: [`Variable::read`].")]
            ///
            /// ```
            /// # use fungalcove::{example, Header, Versions, Window};
            /// # let file = example::STATION;
            /// # let header = Header::read(file, file.len() as u64, Versions::BOTH).unwrap();
            #[doc = concat!("let variable = header.variable(\"", $variable, "\").unwrap();")]
            #[doc = concat!("let values = variable.", stringify!($read), "(Window::whole(file)).unwrap();")]
            #[doc = concat!("assert_eq!(values, ", $values, ");")]
            /// ```
            pub fn $read(&self, window: Window<'_>) -> Result<Vec<$type>, Refusal> {
                self.read(window)
            }

            #[doc = concat!("All values of a variable of `", stringify!($type), "`s, into `out`: [`Variable::read_into`].")]
            ///
            /// ```
            /// # use fungalcove::{example, Header, Versions, Window};
            /// # let file = example::STATION;
            /// # let header = Header::read(file, file.len() as u64, Versions::BOTH).unwrap();
            #[doc = concat!("let variable = header.variable(\"", $variable, "\").unwrap();")]
            #[doc = concat!("let mut out: [", stringify!($type), "; 4] = Default::default();")]
            #[doc = concat!("assert_eq!(variable.", stringify!($read_into), "(Window::whole(file), &mut out), Ok(4));")]
            #[doc = concat!("assert_eq!(out, ", $values, ");")]
            /// ```
            pub fn $read_into(&self, window: Window<'_>, out: &mut [$type]) -> Result<usize, Refusal> {
                self.read_into(window, out)
            }

            #[doc = concat!("One record of a variable of `", stringify!($type), "`s: [`Variable::read_record`].")]
            ///
            /// ```
            /// # use fungalcove::{example, Header, Versions, Window};
            /// # let file = example::STATION;
            /// # let header = Header::read(file, file.len() as u64, Versions::BOTH).unwrap();
            #[doc = concat!("let variable = header.variable(\"", $variable, "\").unwrap();")]
            #[doc = concat!("let values = variable.", stringify!($read_record), "(Window::whole(file), 1).unwrap();")]
            #[doc = concat!("assert_eq!(values, ", $record, ");")]
            /// ```
            pub fn $read_record(&self, window: Window<'_>, record: u64) -> Result<Vec<$type>, Refusal> {
                self.read_record(window, record)
            }

            #[doc = concat!("One record of a variable of `", stringify!($type), "`s, into `out`: [`Variable::read_record_into`].")]
            ///
            /// ```
            /// # use fungalcove::{example, Header, Versions, Window};
            /// # let file = example::STATION;
            /// # let header = Header::read(file, file.len() as u64, Versions::BOTH).unwrap();
            #[doc = concat!("let variable = header.variable(\"", $variable, "\").unwrap();")]
            #[doc = concat!("let mut out: [", stringify!($type), "; 2] = Default::default();")]
            #[doc = concat!("assert_eq!(variable.", stringify!($read_record_into), "(Window::whole(file), 1, &mut out), Ok(2));")]
            #[doc = concat!("assert_eq!(out, ", $record, ");")]
            /// ```
            pub fn $read_record_into(&self, window: Window<'_>, record: u64, out: &mut [$type]) -> Result<usize, Refusal> {
                self.read_record_into(window, record, out)
            }
        )*}
    };
}

#[rustfmt::skip]
typed_reads! {
    i8, "byte", "[1, -1, 127, -128]", "[127, -128]", read_i8, read_i8_into, read_record_i8, read_record_i8_into;
    u8, "char", "[78, 67, 51, 255]", "[51, 255]", read_u8, read_u8_into, read_record_u8, read_record_u8_into;
    i16, "short", "[1, -1, 32767, -32768]", "[32767, -32768]", read_i16, read_i16_into, read_record_i16, read_record_i16_into;
    i32, "int", "[1, -1, i32::MAX, i32::MIN]", "[i32::MAX, i32::MIN]", read_i32, read_i32_into, read_record_i32, read_record_i32_into;
    f32, "float", "[0.5, -0.25, 1e10, 0.0]", "[1e10, 0.0]", read_f32, read_f32_into, read_record_f32, read_record_f32_into;
    f64, "double", "[0.5, -0.25, 1e100, 0.0]", "[1e100, 0.0]", read_f64, read_f64_into, read_record_f64, read_record_f64_into;
}
