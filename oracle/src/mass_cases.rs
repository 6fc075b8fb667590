//! Inputs of the masses.

use crate::material::{Material, Stiffness};
use crate::material_cases::{drawn_unused, either, lame};
use crate::numbers;
use crate::random::Random;
use crate::record::{words_of, Record, MASSES};
use crate::turn_cases::some_right;

/// Vertices in a row of a grid.
const ROW: u64 = 256;

/// How many vertices and triangles a drawn panel or skin has, less than these.
#[derive(Clone, Copy)]
pub struct Size {
    pub vertices: u64,
    pub triangles: u64,
}

pub const SMALL: Size = Size {
    vertices: 9,
    triangles: 7,
};

/// As large as a record may be: lists of up to 4,096 entries.
pub const LARGE: Size = Size {
    vertices: 1366,
    triangles: 1366,
};

/// A panel as lent to the routine, the mass buffer on entry included.
#[derive(Clone)]
pub struct Panel {
    pub coordinates: Vec<f64>,
    pub names: Vec<u64>,
    pub buffer: Vec<f64>,
    pub material: Material,
}

impl Panel {
    /// A buffer of the right length that is full of numbers to be overwritten, and a
    /// stiffness that masses do not use.
    pub fn of(coordinates: &[f64], names: &[u64], thick: f64, rho: f64) -> Panel {
        let entries = coordinates.len() / 2 * 3;
        let buffer = (0..entries).map(|i| i as f64 - 1.5).collect();
        Panel {
            coordinates: coordinates.to_vec(),
            names: names.to_vec(),
            buffer,
            material: Material {
                density: rho,
                thickness: thick,
                stiffness: lame([f64::NAN; 2]),
            },
        }
    }

    pub fn with_stiffness(mut self, stiffness: Stiffness) -> Panel {
        self.material.stiffness = stiffness;
        self
    }

    pub fn record(&self) -> Record {
        let lengths = [self.coordinates.len(), self.names.len(), self.buffer.len()];
        let words = [
            lengths.map(|length| length as u64).to_vec(),
            self.material.words().to_vec(),
            words_of(&self.coordinates),
            self.names.clone(),
            words_of(&self.buffer),
        ];
        Record {
            kind: MASSES,
            words: words.concat(),
        }
    }
}

/// One in ten is drawn large, half have Young's modulus.
pub fn generated(random: &mut Random) -> Record {
    let size = if random.percent(10) { LARGE } else { SMALL };
    let panel = drawn(random, size);
    let pair = drawn_unused(random);
    let record = panel.with_stiffness(either(random, pair)).record();
    some_right(random, record)
}

pub fn drawn(random: &mut Random, size: Size) -> Panel {
    let mut panel = tame(random, size);
    if random.percent(30) {
        disturb(random, &mut panel);
    }
    panel
}

fn tame(random: &mut Random, size: Size) -> Panel {
    let vertices = random.below(size.vertices - 1) + u64::from(random.percent(90));
    let triangles = match vertices {
        0 => 0,
        _ => random.below(size.triangles),
    };
    let count = vertices as usize * 2 + usize::from(random.percent(20));
    let names: Vec<u64> = (0..3 * triangles).map(|_| random.below(vertices)).collect();
    let mut numbers = match random.below(5) {
        0 => numbers::list(count + 2, || numbers::small(random)),
        1 => numbers::list(count + 2, || numbers::small(random) / 10.0),
        2 => {
            let top = random.between(-30, 30);
            numbers::similar(random, count + 2, top, 4)
        }
        _ => numbers::similar(random, count + 2, 3, 6),
    };
    let coordinates = numbers.split_off(2);
    Panel::of(&coordinates, &names, numbers[0], numbers[1])
}

fn disturb(random: &mut Random, panel: &mut Panel) {
    match random.below(10) {
        0 => _ = panel.buffer.pop(),
        1 => panel.buffer.push(numbers::special(random)),
        2 => _ = panel.names.pop(),
        3 => panel.names.push(0),
        4 => rename(random, panel),
        5 => panel.material.thickness = numbers::special(random),
        6 => panel.material.density = numbers::special(random),
        7 => panel.material.thickness = numbers::wild(random),
        8 => panel.buffer.fill_with(|| numbers::any(random)),
        _ => spoil(random, panel),
    }
}

fn rename(random: &mut Random, panel: &mut Panel) {
    if let Some(place) = place_in(random, panel.names.len()) {
        let vertices = panel.coordinates.len() as u64 / 2;
        panel.names[place] = random.pick(&far_names(vertices));
    }
}

fn spoil(random: &mut Random, panel: &mut Panel) {
    if let Some(place) = place_in(random, panel.coordinates.len()) {
        panel.coordinates[place] = numbers::special(random);
    }
}

pub fn place_in(random: &mut Random, length: usize) -> Option<usize> {
    (length > 0).then(|| random.below(length as u64) as usize)
}

/// Names of no vertex; twice or three times some of them wraps to a vertex's place.
pub fn far_names(vertices: u64) -> [u64; 9] {
    [
        vertices,
        vertices + 1,
        1 << 32,
        1 << 63,
        (1 << 63) + 1,
        u64::MAX / 3 + 1,
        u64::MAX - 1,
        u64::MAX,
        u64::MAX - vertices,
    ]
}

/// The points of a grid that has `triangles` triangles, 256 to a row.
pub fn grid(triangles: u64) -> impl Iterator<Item = [f64; 2]> {
    let vertices = triangles / 2 + ROW + 1;
    (0..vertices).map(|v| [(v % ROW) as f64 * 0.7, (v / ROW) as f64 * 1.1])
}

/// Its triangles, the grid's vertices counted from `first`; one at a row's end
/// joins two rows. All turn left.
pub fn grid_names(triangles: u64, first: u64) -> Vec<u64> {
    let corners = |triangle: u64| {
        let v = triangle / 2;
        let [a, b, c] = match triangle % 2 {
            0 => [v, v + 1, v + ROW],
            _ => [v + 1, v + ROW + 1, v + ROW],
        };
        match v % ROW + 1 {
            ROW => [a, c, b],
            _ => [a, b, c],
        }
    };
    let names = (0..triangles).flat_map(corners);
    names.map(|name| first + name).collect()
}

/// A run of `count` calls for `speed`, on a grid after vertices that are not
/// named.
pub fn run_of(triangles: u64, count: u64, unnamed: &[f64]) -> Record {
    let grid = grid(triangles).flatten();
    let coordinates: Vec<f64> = unnamed.iter().copied().chain(grid).collect();
    let names = grid_names(triangles, unnamed.len() as u64 / 2);
    let material = Material {
        density: 1.7,
        thickness: 0.3,
        stiffness: lame([1.3, 1.9]),
    };
    let words = [
        vec![count, coordinates.len() as u64, names.len() as u64],
        material.words().to_vec(),
        words_of(&coordinates),
        names,
    ];
    Record {
        kind: MASSES,
        words: words.concat(),
    }
}
