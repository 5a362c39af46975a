//! Bytes to decode.

/// Bytes from a fixed seed; every 97th value of four or eight bytes a NaN with a payload, every 103rd an infinity.
pub fn bytes(values: usize, width: usize) -> Vec<u8> {
    let mut src = random(values * width);
    if width >= 4 {
        let exponent = if width == 4 { 0x80 } else { 0xf0 };
        for value in src.chunks_exact_mut(width).step_by(97) {
            value[0] = 0x7f;
            value[1] = exponent + 1;
        }
        for value in src.chunks_exact_mut(width).step_by(103) {
            value[0] = 0xff;
            value[1] = exponent;
            value[2..].fill(0);
        }
    }
    src
}

fn random(bytes: usize) -> Vec<u8> {
    let mut x = 0x9e37_79b9_7f4a_7c15u64;
    let next = |_| {
        x ^= x << 13;
        x ^= x >> 7;
        x ^= x << 17;
        (x >> 24) as u8
    };
    (0..bytes).map(next).collect()
}
