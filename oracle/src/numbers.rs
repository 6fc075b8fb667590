//! Families of doubles that cases are made of.

use crate::random::Random;

/// Zeros, subnormals and both their ends, whole numbers, edges of squares and
/// of the range, infinities, NaNs of several payloads and signs.
pub const SPECIALS: [u64; 40] = [
    0x0000_0000_0000_0000,
    0x8000_0000_0000_0000,
    0x0000_0000_0000_0001,
    0x8000_0000_0000_0001,
    0x0000_0000_0000_0002,
    0x0008_0000_0000_0000,
    0x000f_ffff_ffff_ffff,
    0x800f_ffff_ffff_ffff,
    0x0010_0000_0000_0000,
    0x8010_0000_0000_0000,
    0x0010_0000_0000_0001,
    0x0020_0000_0000_0000,
    0x1e50_0000_0000_0000,
    0x1e60_0000_0000_0000,
    0x2000_0000_0000_0000,
    0x2010_0000_0000_0001,
    0x3fdf_ffff_ffff_ffff,
    0x3fe0_0000_0000_0000,
    0x3fef_ffff_ffff_ffff,
    0x3ff0_0000_0000_0000,
    0xbff0_0000_0000_0000,
    0x3ff0_0000_0000_0001,
    0x4000_0000_0000_0000,
    0xc000_0000_0000_0000,
    0x4008_0000_0000_0000,
    0x4010_0000_0000_0000,
    0x5fef_ffff_ffff_ffff,
    0x5ff0_0000_0000_0000,
    0x7fdf_ffff_ffff_ffff,
    0x7fe0_0000_0000_0000,
    0x7fef_ffff_ffff_ffff,
    0xffef_ffff_ffff_ffff,
    0x7ff0_0000_0000_0000,
    0xfff0_0000_0000_0000,
    0x7ff8_0000_0000_0000,
    0xfff8_0000_0000_0000,
    0x7ff0_0000_0000_0001,
    0xfff4_0000_0000_0000,
    0x7fff_ffff_ffff_ffff,
    0xffff_ffff_ffff_ffff,
];

/// Powers of two whose squares lie at the edge of over- or underflow.
pub const SQUARE_EDGES: [i32; 10] = [-538, -537, -536, -512, -511, -510, 510, 511, 512, 513];

pub fn special(random: &mut Random) -> f64 {
    f64::from_bits(random.pick(&SPECIALS))
}

pub fn any(random: &mut Random) -> f64 {
    f64::from_bits(random.word())
}

pub fn small(random: &mut Random) -> f64 {
    f64::from(random.between(-9, 9))
}

/// Two to the power `e`, from -1074 to 1023.
pub fn power(e: i32) -> f64 {
    whole(1, e)
}

/// `m` times 2^`e`, with `m` below 2^53 and `e` from -1074 to 1023.
pub fn whole(m: u64, e: i32) -> f64 {
    let scale = if e < -1022 {
        f64::from_bits(1 << (e + 1074))
    } else {
        f64::from_bits(((e + 1023) as u64) << 52)
    };
    m as f64 * scale
}

/// A random number of either sign with the exponent `e`, from -1022 to 1023.
pub fn scaled(random: &mut Random, e: i32) -> f64 {
    let sign_and_fraction = random.word() & 0x800f_ffff_ffff_ffff;
    f64::from_bits(sign_and_fraction | (((e + 1023) as u64) << 52))
}

pub fn subnormal(random: &mut Random) -> f64 {
    f64::from_bits(random.word() & 0x800f_ffff_ffff_ffff)
}

/// As many places away from `x` as `places` says.
pub fn moved(x: f64, places: i32) -> f64 {
    f64::from_bits(x.to_bits().wrapping_add_signed(i64::from(places)))
}

pub fn list(count: usize, mut one: impl FnMut() -> f64) -> Vec<f64> {
    (0..count).map(|_| one()).collect()
}

/// Numbers whose exponents lie at most `spread` below `top`.
pub fn similar(random: &mut Random, count: usize, top: i32, spread: i32) -> Vec<f64> {
    list(count, || {
        let e = random.between((top - spread).max(-1022), top);
        scaled(random, e)
    })
}

pub fn wild(random: &mut Random) -> f64 {
    let e = random.between(-1022, 1023);
    scaled(random, e)
}

pub fn square_edge(random: &mut Random) -> f64 {
    let edge = random.pick(&SQUARE_EDGES);
    if random.percent(50) {
        return moved(power(edge), random.between(-1, 1));
    }
    scaled(random, edge)
}
