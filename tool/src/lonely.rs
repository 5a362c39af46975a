//! Files with one record variable, whose records netCDF's own library does not pad.

use crate::brief;
use crate::failure::{name_of, warn};
use fungalcove::{Header, Variable};
use std::path::Path;

/// How many bytes of padding follow each record of a variable that netCDF's library does not pad: one of bytes, characters or
/// shorts that is the only record variable. 0 for others.
pub fn padding(header: &Header, variable: &Variable<'_>) -> u64 {
    let is_lonely = variable.is_record() && header.variables().filter(Variable::is_record).count() == 1;
    let bytes = variable.record_len() * variable.data_type().size();
    if is_lonely {
        brief::padding(bytes.into()) as u64
    } else {
        0
    }
}

/// Warns where values are asked for that stand elsewhere by the format's exception: this reader takes the records of a lonely
/// variable to be padded, as netcdf3 does.
pub fn caution(path: &Path, header: &Header, asked: &Variable<'_>) {
    if padding(header, asked) > 0 && header.record_count() > 1 {
        warn(format_args!(
            "{}: {:?} is the only record variable: netCDF's library writes its records without padding, here they are read as \
             padded to 4 bytes, so that from record 1 on values may be others",
            name_of(path),
            asked.name(),
        ));
    }
}
