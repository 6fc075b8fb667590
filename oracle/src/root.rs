//! IEEE 754's square root, with one NaN.

pub const NAN_WORD: u64 = 0x7ff8_0000_0000_0000;

pub fn root(x: f64) -> f64 {
    let y = x.sqrt();
    if y.is_nan() {
        f64::from_bits(NAN_WORD)
    } else {
        y
    }
}
