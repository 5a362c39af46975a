//! Two small files, for examples and tests.

/// The smallest file with records: an open record count, the unlimited dimension `t`, and the variable `x` of type int over
/// it. 80 bytes of header, then three records: 7, -2 and 40.
///
/// ```
/// let x: [u8; 92] = *b"\
///     CDF\x01\
///     \xff\xff\xff\xff\
///     \0\0\0\x0a\0\0\0\x01\
///     \0\0\0\x01t\0\0\0\0\0\0\0\
///     \0\0\0\0\0\0\0\0\
///     \0\0\0\x0b\0\0\0\x01\
///     \0\0\0\x01x\0\0\0\0\0\0\x01\0\0\0\0\
///     \0\0\0\0\0\0\0\0\
///     \0\0\0\x04\0\0\0\x04\0\0\0\x50\
///     \0\0\0\x07\xff\xff\xff\xfe\0\0\0\x28";
/// assert_eq!(x, fungalcove::example::X);
/// ```
pub const X: [u8; 92] = *b"\
    CDF\x01\
    \xff\xff\xff\xff\
    \0\0\0\x0a\0\0\0\x01\
    \0\0\0\x01t\0\0\0\0\0\0\0\
    \0\0\0\0\0\0\0\0\
    \0\0\0\x0b\0\0\0\x01\
    \0\0\0\x01x\0\0\0\0\0\0\x01\0\0\0\0\
    \0\0\0\0\0\0\0\0\
    \0\0\0\x04\0\0\0\x04\0\0\0\x50\
    \0\0\0\x07\xff\xff\xff\xfe\0\0\0\x28";

/// A file with attributes and a variable of each type, two records of two values each. As ncdump would show it:
///
/// ```text
/// dimensions:
///     time = UNLIMITED ; // (2 currently)
///     place = 2 ;
/// variables:
///     float height(place) ;
///         height:units = "m" ;
///     byte byte(time, place) ;
///     char char(time, place) ;
///     short short(time, place) ;
///     int int(time, place) ;
///     float float(time, place) ;
///     double double(time, place) ;
/// // global attributes:
///         :title = "A station" ;
///         :levels = 3s, 5s ;
/// data:
///     height = 12.5, 340 ;
///     byte = 1, -1, 127, -128 ;
///     char = "NC", "3\377" ;
///     short = 1, -1, 32767, -32768 ;
///     int = 1, -1, 2147483647, -2147483648 ;
///     float = 0.5, -0.25, 1e+10, 0 ;
///     double = 0.5, -0.25, 1e+100, 0 ;
/// ```
#[rustfmt::skip]
pub const STATION: &[u8] = b"\
    CDF\x01\
    \0\0\0\x02\
    \0\0\0\x0a\0\0\0\x02\
    \0\0\0\x04time\0\0\0\0\
    \0\0\0\x05place\0\0\0\0\0\0\x02\
    \0\0\0\x0c\0\0\0\x02\
    \0\0\0\x05title\0\0\0\0\0\0\x02\0\0\0\x09A station\0\0\0\
    \0\0\0\x06levels\0\0\0\0\0\x03\0\0\0\x02\0\x03\0\x05\
    \0\0\0\x0b\0\0\0\x07\
    \0\0\0\x06height\0\0\0\0\0\x01\0\0\0\x01\0\0\0\x0c\0\0\0\x01\0\0\0\x05units\0\0\0\0\0\0\x02\0\0\0\x01m\0\0\0\0\0\0\x05\0\0\0\x08\0\0\x01\xb0\
    \0\0\0\x04byte\0\0\0\x02\0\0\0\0\0\0\0\x01\0\0\0\0\0\0\0\0\0\0\0\x01\0\0\0\x04\0\0\x01\xb8\
    \0\0\0\x04char\0\0\0\x02\0\0\0\0\0\0\0\x01\0\0\0\0\0\0\0\0\0\0\0\x02\0\0\0\x04\0\0\x01\xbc\
    \0\0\0\x05short\0\0\0\0\0\0\x02\0\0\0\0\0\0\0\x01\0\0\0\0\0\0\0\0\0\0\0\x03\0\0\0\x04\0\0\x01\xc0\
    \0\0\0\x03int\0\0\0\0\x02\0\0\0\0\0\0\0\x01\0\0\0\0\0\0\0\0\0\0\0\x04\0\0\0\x08\0\0\x01\xc4\
    \0\0\0\x05float\0\0\0\0\0\0\x02\0\0\0\0\0\0\0\x01\0\0\0\0\0\0\0\0\0\0\0\x05\0\0\0\x08\0\0\x01\xcc\
    \0\0\0\x06double\0\0\0\0\0\x02\0\0\0\0\0\0\0\x01\0\0\0\0\0\0\0\0\0\0\0\x06\0\0\0\x10\0\0\x01\xd4\
    AH\0\0C\xaa\0\0\
    \x01\xff\0\0NC\0\0\0\x01\xff\xff\0\0\0\x01\xff\xff\xff\xff?\0\0\0\xbe\x80\0\0?\xe0\0\0\0\0\0\0\xbf\xd0\0\0\0\0\0\0\
    \x7f\x80\0\0\x33\xff\0\0\x7f\xff\x80\0\x7f\xff\xff\xff\x80\0\0\0P\x15\x02\xf9\0\0\0\0T\xb2I\xad%\x94\xc3}\0\0\0\0\0\0\0\0";
