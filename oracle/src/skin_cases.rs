//! Inputs of a whole skin.

use crate::mass_cases::{far_names, grid, grid_names, place_in, Size, LARGE};
use crate::material::{Material, Stiffness};
use crate::material_cases::{drawn_unused, either, lame, stiffer};
use crate::numbers::{self, power};
use crate::random::Random;
use crate::record::{words_of, Record, SKIN};
use crate::skin;

const USUAL: Size = Size {
    vertices: 31,
    triangles: 41,
};

/// A skin as lent to the routine, the gradient's buffer on entry included.
#[derive(Clone)]
pub struct Skin {
    pub ini: Vec<f64>,
    pub def: Vec<f64>,
    pub names: Vec<u64>,
    pub material: Material,
    pub buffer: Vec<f64>,
}

impl Skin {
    /// A buffer of the right length that is full of numbers to be overwritten, and a
    /// density and a thickness that a skin does not use.
    pub fn of(ini: &[f64], def: &[f64], names: &[u64], pair: [f64; 2]) -> Skin {
        Skin {
            ini: ini.to_vec(),
            def: def.to_vec(),
            names: names.to_vec(),
            material: Material {
                density: f64::NAN,
                thickness: f64::NAN,
                stiffness: lame(pair),
            },
            buffer: (0..ini.len()).map(|i| i as f64 - 1.5).collect(),
        }
    }

    pub fn with_stiffness(mut self, stiffness: Stiffness) -> Skin {
        self.material.stiffness = stiffness;
        self
    }

    pub fn with_unused(mut self, [density, thickness]: [f64; 2]) -> Skin {
        self.material.density = density;
        self.material.thickness = thickness;
        self
    }

    pub fn record(&self) -> Record {
        let [n, m, b] = [&self.ini, &self.def, &self.buffer].map(|list| list.len() as u64);
        let words = [
            vec![n, m, self.names.len() as u64, b],
            self.material.words().to_vec(),
            words_of(&self.ini),
            words_of(&self.def),
            self.names.clone(),
            words_of(&self.buffer),
        ];
        Record {
            kind: SKIN,
            words: words.concat(),
        }
    }

    /// Made so stiff that the largest value of any triangle is this part of the
    /// largest double: below 1 a sum of them may overflow, and where triangles
    /// are small what a value is made of.
    pub fn stiff(mut self, part: f64) -> Skin {
        let single = |names| skin::single(&self.ini, &self.def, names, &self.material).values;
        let values = self.names.chunks(3).flat_map(single);
        let top = values.fold(0.0, |top: f64, x| top.max(x.abs()));
        if top > 1.0 {
            let factor = f64::MAX / top * part;
            self.material.stiffness = stiffer(self.material.stiffness, factor);
        }
        self
    }
}

/// One in fifty is drawn large, half have Young's modulus.
pub fn generated(random: &mut Random) -> Record {
    let size = if random.percent(2) { LARGE } else { USUAL };
    let skin = drawn(random, size).with_unused(drawn_unused(random));
    let stiffness = either(random, skin.material.stiffness.given());
    skin.with_stiffness(stiffness).record()
}

pub fn drawn(random: &mut Random, size: Size) -> Skin {
    let skin = tame(random, size);
    if random.percent(30) {
        disturbed(random, skin)
    } else {
        skin
    }
}

fn tame(random: &mut Random, size: Size) -> Skin {
    let vertices = random.below(size.vertices - 3) + 3 * u64::from(random.percent(95));
    let triangles = match vertices {
        0..=2 => 0,
        _ => random.below(size.triangles),
    };
    let names: Vec<u64> = (0..triangles)
        .flat_map(|_| three_of(random, vertices))
        .collect();
    let count = vertices as usize * 3;
    let family = random.below(5);
    let ini = numbers_of(random, family, count);
    let def = match random.below(3) {
        0 => numbers_of(random, family, count),
        1 => ini
            .iter()
            .map(|x| x * random.pick(&[0.5, 1.0, 1.5]))
            .collect(),
        _ => ini
            .iter()
            .map(|x| x + numbers::small(random) / 16.0)
            .collect(),
    };
    let pair = numbers::similar(random, 2, 2, 5);
    Skin::of(&ini, &def, &names, [pair[0], pair[1]])
}

/// Three vertices, no two the same.
fn three_of(random: &mut Random, vertices: u64) -> [u64; 3] {
    let first = random.below(vertices);
    let second = (first + 1 + random.below(vertices - 1)) % vertices;
    loop {
        let third = random.below(vertices);
        if third != first && third != second {
            return [first, second, third];
        }
    }
}

fn numbers_of(random: &mut Random, family: u64, count: usize) -> Vec<f64> {
    match family {
        0 => numbers::list(count, || numbers::small(random)),
        1 => numbers::list(count, || numbers::small(random) / 10.0),
        2 => {
            let top = random.between(-30, 30);
            numbers::similar(random, count, top, 4)
        }
        _ => numbers::similar(random, count, 3, 6),
    }
}

fn disturbed(random: &mut Random, mut skin: Skin) -> Skin {
    match random.below(13) {
        0 => resize(random, &mut skin),
        1 => longer(random, &mut skin),
        2 => _ = skin.names.pop(),
        3 => skin.names.push(0),
        4 => rename(random, &mut skin),
        5 => named_twice(random, &mut skin),
        6 => spoil(random, &mut skin.ini),
        7 => spoil(random, &mut skin.def),
        8 => restiffen(random, &mut skin, numbers::special),
        9 => restiffen(random, &mut skin, numbers::wild),
        10 => skin.buffer.fill_with(|| numbers::any(random)),
        11 => return pulled(random, skin).stiff(random.pick(&[0.2, 0.5, 0.9])),
        _ => return skin.stiff(random.pick(&[0.2, 0.5, 0.9, 1.1])),
    }
    skin
}

/// Another number for one of the Lamé pair.
fn restiffen(random: &mut Random, skin: &mut Skin, number: fn(&mut Random) -> f64) {
    let mut pair = skin.material.stiffness.given();
    pair[random.below(2) as usize] = number(random);
    skin.material.stiffness = lame(pair);
}

/// One list of numbers a little longer or shorter.
fn resize(random: &mut Random, skin: &mut Skin) {
    let change = random.pick(&[-3, -1, 1, 3]);
    let lists = [&mut skin.ini, &mut skin.def, &mut skin.buffer];
    let list = lists.into_iter().nth(random.below(3) as usize).unwrap();
    list.resize(list.len().saturating_add_signed(change), 0.5);
}

/// All three lists longer by as much; by three that is a vertex more.
fn longer(random: &mut Random, skin: &mut Skin) {
    let more = 1 + random.below(3) as usize;
    for list in [&mut skin.ini, &mut skin.def, &mut skin.buffer] {
        list.resize(list.len() + more, 0.5);
    }
}

fn rename(random: &mut Random, skin: &mut Skin) {
    if let Some(place) = place_in(random, skin.names.len()) {
        let vertices = skin.ini.len() as u64 / 3;
        skin.names[place] = random.pick(&far_names(vertices));
    }
}

fn named_twice(random: &mut Random, skin: &mut Skin) {
    if let Some(place) = place_in(random, skin.names.len()) {
        skin.names[place] = skin.names[place / 3 * 3 + (place + 1) % 3];
    }
}

fn spoil(random: &mut Random, points: &mut [f64]) {
    if let Some(place) = place_in(random, points.len()) {
        points[place] = numbers::special(random);
    }
}

/// Deformed so far that energies are the largest numbers.
fn pulled(random: &mut Random, mut skin: Skin) -> Skin {
    let factor = power(random.between(60, 120));
    skin.def.iter_mut().for_each(|x| *x *= factor);
    skin
}

/// A run of `count` calls for `speed`, on a grid that is stretched and creased.
pub fn run_of(triangles: u64, count: u64) -> Record {
    let ini: Vec<f64> = grid(triangles).flat_map(|[x, y]| [x, y, 0.0]).collect();
    let creased = |(v, [x, y]): (usize, [f64; 2])| [x * 1.1, y * 0.9, (v % 5) as f64 * 0.1];
    let def: Vec<f64> = grid(triangles).enumerate().flat_map(creased).collect();
    let names = grid_names(triangles, 0);
    let material = Material {
        density: 1.7,
        thickness: 0.3,
        stiffness: lame([1.3, 1.9]),
    };
    let words = [
        vec![count, ini.len() as u64, names.len() as u64],
        material.words().to_vec(),
        words_of(&ini),
        words_of(&def),
        names,
    ];
    Record {
        kind: SKIN,
        words: words.concat(),
    }
}
