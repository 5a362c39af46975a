//! Floating point numbers in CDL.

/// A number as C's `%.{digits}g` prints it, always with a point: without one it would be a whole number.
pub fn general(value: f64, digits: usize) -> String {
    if value.is_nan() {
        return "NaN".to_string();
    }
    if value.is_infinite() {
        return if value > 0.0 { "Infinity" } else { "-Infinity" }.to_string();
    }
    // the exponent after rounding decides between the two forms
    let rounded = format!("{:.*e}", digits - 1, value);
    let (mantissa, exponent) = rounded.split_once('e').expect("this form has an exponent");
    let exponent: i32 = exponent.parse().expect("an exponent is a whole number");
    let decimals = digits as i32 - 1 - exponent;
    if exponent < -4 || decimals < 0 {
        let sign = if exponent < 0 { '-' } else { '+' };
        format!("{}e{}{:02}", trimmed(mantissa.to_string()), sign, exponent.abs())
    } else {
        trimmed(format!("{:.*}", decimals as usize, value))
    }
}

/// Without the zeros at the end of the decimals, but with a point.
fn trimmed(mut number: String) -> String {
    if !number.contains('.') {
        number.push('.');
    }
    number.truncate(number.trim_end_matches('0').len());
    number
}
