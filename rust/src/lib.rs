//! Reads NetCDF-3 files, classic and 64-bit offset: headers, names and values. Writes their headers anew, widens files to
//! version 2 and narrows them to version 1.
//!
//! Every answer comes from a library that is proved to meet its contract; this crate is the safe interface to it. Every input
//! gets an answer: a value, or a [`Refusal`] with the number of the first thing that is wrong and, where a header was read
//! from left to right, its place. Nothing that a file claims makes the crate reserve more memory than the bytes at hand could
//! fill. The same source serves 64-bit machines and wasm32.
//!
//! # A start
//!
//! A file, read piece by piece:
//!
//! ```
//! use fungalcove::FileReader;
//! # use fungalcove::example;
//! # let path = std::env::temp_dir().join(format!("fungalcove-start-{}.nc", std::process::id()));
//! # std::fs::write(&path, example::STATION)?;
//!
//! let mut file = FileReader::open(&path)?;
//! for variable in file.header().variables() {
//!     println!("{} {}: {} records", variable.data_type(), variable.name(), variable.records());
//! }
//! assert_eq!(file.read_var_f32("height")?, [12.5, 340.0]);
//! assert_eq!(file.read_record_i16("short", 1)?, [32767, -32768]);
//! # std::fs::remove_file(&path)?;
//! # Ok::<(), fungalcove::Error>(())
//! ```
//!
//! Bytes that are at hand already, all of them or a part:
//!
//! ```
//! use fungalcove::{example, Header, Value, Versions, Window};
//!
//! let file = &example::X;
//! let header = Header::read(file, file.len() as u64, Versions::BOTH)?;
//! let x = header.variable("x")?;
//! assert_eq!(x.read_i32(Window::whole(file))?, [7, -2, 40]);
//! assert_eq!(x.element(Window { bytes: &file[84..88], start: 84 }, 1, 0)?, Value::Int(-2));
//! # Ok::<(), fungalcove::Refusal>(())
//! ```
//!
//! # For users of netcdf3
//!
//! | netcdf3 0.6.1 | here |
//! |---|---|
//! | `FileReader::open(path)` | [`FileReader::open`] |
//! | `FileReader::open_seek_read(name, reader)` | [`FileReader::new`], no box needed |
//! | `reader.data_set()` | [`FileReader::header`] |
//! | `reader.version()` | [`FileReader::version`] |
//! | `reader.file_path()` | none: the path stays with the caller |
//! | `reader.close()` | [`FileReader::into_parts`] |
//! | `reader.read_var(name)` | [`FileReader::read_var`], whose [`Values`] are the `DataVector` |
//! | `reader.read_var_f32(name)`, five others | [`FileReader::read_var_f32`], five others |
//! | `reader.read_record(name, r)` | [`FileReader::read_record`]; `r` is a `u64`, a fixed variable has record 0 only |
//! | `reader.read_record_f64(name, r)`, five others | [`FileReader::read_record_f64`], five others |
//! | `reader.read_all_vars()` | [`FileReader::read_var`] for each of [`Header::variables`] |
//! | `set.num_records()`, `set.get_unlimited_dim()` | [`Header::record_count`], [`Header::unlimited_dimension`] |
//! | `set.get_dims()`, `set.get_dim(name)`, `set.dim_size(name)` | [`Header::dimensions`], [`Header::dimension`], [`Dimension::len`] |
//! | `set.get_vars()`, `set.get_var(name)`, `set.has_var(name)` | [`Header::variables`], [`Header::variable`] and its `is_ok` |
//! | `set.var_len(name)`, `set.var_data_type(name)`, `set.is_record_var(name)` | [`Variable::len`], [`Variable::data_type`], [`Variable::is_record`] |
//! | `var.get_dims()`, `var.chunk_len()`, `var.num_chunks()` | [`Variable::dimensions`], [`Variable::record_len`], [`Variable::records`] |
//! | `set.get_global_attrs()`, `set.get_global_attr(name)` | [`Header::attributes`], [`Header::attribute`] |
//! | `var.get_attrs()`, `set.get_var_attr(var, name)` | [`Variable::attributes`], [`Variable::attribute`] |
//! | `set.get_var_attr_f32(var, name)`, five others | [`Attribute::values`] and [`Values::get_f32`], five others |
//! | `set.get_global_attr_as_string(name)` | [`Attribute::as_text`] |
//! | `DataType::I8`, `U8`, `I16`, `I32`, `F32`, `F64` | [`DataType::Byte`], `Char`, `Short`, `Int`, `Float`, `Double` |
//! | `Version::Classic`, `Version::Offset64Bit` | [`Version::Classic`], [`Version::Offset64`] |
//! | `ReadError` | [`Error`]: a [`Refusal`] by its number, or an [`std::io::Error`] |
//! | `FileWriter`, building a `DataSet` | none; [`Header::write`], [`widen`] and [`narrow`] rewrite what was read |

#![deny(missing_docs)]
#![deny(unsafe_code)]

mod attribute;
mod by_name;
mod convert;
mod data_type;
mod dimension;
mod element;
mod error;
pub mod example;
#[allow(unsafe_code)]
mod ffi;
mod file_reader;
mod guest32;
mod header;
mod opening;
mod reach;
mod reads;
mod refusal;
mod source;
mod tables;
mod value;
mod values;
mod variable;
mod version;
mod window;

pub use attribute::Attribute;
pub use convert::{narrow, narrow_file, widen, widen_file, Converted};
pub use data_type::DataType;
pub use dimension::Dimension;
pub use element::Element;
pub use error::Error;
pub use file_reader::FileReader;
pub use guest32::{Guest32, Guest32Error};
pub use header::Header;
pub use opening::Opening;
pub use refusal::Refusal;
pub use value::Value;
pub use values::Values;
pub use variable::Variable;
pub use version::{Version, Versions};
pub use window::Window;
