//! One record for a material: density, thickness and a stiffness. A routine looks
//! only at what it uses.

#[derive(Clone, Copy, Debug)]
pub struct Material {
    pub density: f64,
    pub thickness: f64,
    pub stiffness: Stiffness,
}

/// A Lamé pair, or Young's modulus with Poisson's ratio.
#[derive(Clone, Copy, Debug)]
pub enum Stiffness {
    Lame { lambda: f64, myu: f64 },
    Young { e: f64, v: f64 },
}

/// Words of a material: which stiffness, density, thickness and the stiffness's two numbers.
pub const WORDS: usize = 5;

/// First words of a material.
const LAME: u64 = 2;
const YOUNG: u64 = 3;

impl Material {
    /// None where the first word names no stiffness.
    pub fn of(words: &[u64]) -> Option<Material> {
        let [density, thickness, a, b] =
            [words[1], words[2], words[3], words[4]].map(f64::from_bits);
        let stiffness = match words[0] {
            LAME => Stiffness::Lame { lambda: a, myu: b },
            YOUNG => Stiffness::Young { e: a, v: b },
            _ => return None,
        };
        Some(Material {
            density,
            thickness,
            stiffness,
        })
    }

    /// Of a record that the reader let through.
    pub fn read(words: &[u64]) -> Material {
        Material::of(words).expect("the reader lets no other stiffness through")
    }

    pub fn words(&self) -> [u64; WORDS] {
        let first = match self.stiffness {
            Stiffness::Lame { .. } => LAME,
            Stiffness::Young { .. } => YOUNG,
        };
        let [a, b] = self.stiffness.given();
        let numbers = [self.density, self.thickness, a, b].map(f64::to_bits);
        [first, numbers[0], numbers[1], numbers[2], numbers[3]]
    }
}

impl Stiffness {
    /// Both numbers as handed over.
    pub fn given(&self) -> [f64; 2] {
        match *self {
            Stiffness::Lame { lambda, myu } => [lambda, myu],
            Stiffness::Young { e, v } => [e, v],
        }
    }

    /// Whether 7 has no cause; a Lamé pair never is one.
    pub fn admitted(&self) -> bool {
        match *self {
            Stiffness::Lame { .. } => true,
            Stiffness::Young { e, v } => e > 0.0 && -1.0 < v && v < 0.5,
        }
    }

    /// Lambda and myu: what the original takes.
    pub fn lame(&self) -> [f64; 2] {
        match *self {
            Stiffness::Lame { lambda, myu } => [lambda, myu],
            Stiffness::Young { e, v } => [
                (e * v) / ((1.0 + v) * (1.0 - 2.0 * v)),
                e / (2.0 * (1.0 + v)),
            ],
        }
    }
}
