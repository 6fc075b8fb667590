//! Mesh files through the safe crate: the stored ones against the table in meshes/README.md, each beginning of one, and the way from a file to masses, which are
//! those of a flat wall whose triangles run counterclockwise.
use del_fem::mesh::{self, Mesh, Refused};
use del_fem::{mitc_tri3, Material, Refusal};
use std::error::Error;
use std::path::PathBuf;

fn folder() -> PathBuf {
    PathBuf::from(env!("CARGO_MANIFEST_DIR")).join("../meshes")
}

fn load(name: &str) -> Vec<u8> {
    let path = folder().join(format!("files/{name}.vtk"));
    std::fs::read(path).expect("a stored file")
}

/// A row of the table: a file's name, its answer, and where its blocks begin or what stands at the place.
type Row = [String; 3];

fn table() -> Vec<Row> {
    let text = std::fs::read_to_string(folder().join("README.md")).expect("the table");
    text.lines()
        .filter_map(|line| {
            let cells: Vec<_> = line.trim_matches('|').split('|').map(str::trim).collect();
            match cells[..] {
                [name, _made, answer, there] if answer.starts_with(['0', '8']) => {
                    Some([name, answer, there].map(String::from))
                }
                _ => None,
            }
        })
        .collect()
}

fn numbers(text: &str) -> Vec<usize> {
    text.split(' ')
        .map(|word| word.parse().expect("a number"))
        .collect()
}

fn refused(place: usize) -> Refused {
    Refused {
        refusal: Refusal::BadFile,
        place,
    }
}

/// All three calls refuse the file at this place.
fn assert_refused(file: &[u8], place: usize, what: &str) {
    assert_eq!(mesh::read(file), Err(refused(place)), "{what}");
    assert_eq!(mesh::points(file), Err(refused(place)), "{what}: points");
    assert_eq!(mesh::cells(file), Err(refused(place)), "{what}: cells");
}

/// The part has so many bytes and is the file's own memory from the place on.
fn assert_part(part: &[u8], file: &[u8], place: usize, length: usize, what: &str) {
    assert_eq!(part.len(), length, "{what}");
    assert_eq!(part.as_ptr(), file[place..].as_ptr(), "{what}");
}

#[test]
fn every_stored_file_is_answered_as_its_table_says() {
    let table = table();
    let mut named: Vec<_> = table
        .iter()
        .map(|[name, ..]| name.clone() + ".vtk")
        .collect();
    let mut stored: Vec<_> = std::fs::read_dir(folder().join("files"))
        .expect("the files")
        .map(|entry| {
            entry
                .expect("a file")
                .file_name()
                .into_string()
                .expect("a name")
        })
        .filter(|name| name.ends_with(".vtk"))
        .collect();
    named.sort();
    stored.sort();
    assert_eq!(named, stored, "the table has every file");
    let mut accepted = 0;
    for [name, answer, there] in &table {
        let file = load(name);
        match numbers(answer)[..] {
            [0, points, triangles] => {
                let at = numbers(there);
                let part = |part: Result<_, _>| part.expect("a block of an accepted file");
                assert_eq!(mesh::read(&file), Ok(Mesh { points, triangles }), "{name}");
                assert_part(part(mesh::points(&file)), &file, at[0], 24 * points, name);
                assert_part(part(mesh::cells(&file)), &file, at[1], 16 * triangles, name);
                accepted += 1;
            }
            [8, place] => assert_refused(&file, place, name),
            _ => panic!("{name}: no answer is {answer}"),
        }
    }
    println!("{} files, {accepted} of them accepted", table.len());
    assert!(0 < accepted && accepted < table.len(), "both kinds");
}

#[test]
fn every_beginning_of_a_file_ends_early() {
    let file = load("folded");
    for end in 0..file.len() {
        assert_refused(&file[..end], end, "folded, its beginning alone");
    }
    assert!(mesh::read(&file).is_ok());
}

#[test]
fn a_refusal_says_its_place() {
    let refused = mesh::read(&load("name_4")).expect_err("a file with a wrong name");
    assert_eq!(refused.refusal.number(), 8);
    assert!(refused.to_string().ends_with("at place 218"), "{refused}");
}

/// The square of the scope's examples, with the names of its two triangles.
const SQUARE: [[f64; 3]; 4] = [
    [0.0, 0.0, 0.0],
    [6.0, 0.0, 0.0],
    [0.0, 6.0, 0.0],
    [6.0, 6.0, 0.0],
];
const NAMES: [usize; 6] = [0, 1, 2, 1, 3, 2];

/// Its masses, of the scope's density and thickness.
const MASSES: [f64; 12] = [
    12.0, 1.0, 1.0, 24.0, 2.0, 2.0, 24.0, 2.0, 2.0, 12.0, 1.0, 1.0,
];
const MATERIAL: Material = Material::lame(2.0, 1.0, 0.0, 1.0);

type Wall = (Vec<[f64; 3]>, Vec<usize>);

/// The points and the names of a file.
fn wall(file: &[u8]) -> Result<Wall, Refused> {
    let Mesh { points, triangles } = mesh::read(file)?;
    let (block, cells) = (mesh::points(file)?, mesh::cells(file)?);
    let coordinate = |point, axis| mesh::coordinate(block, point, axis).expect("a coordinate");
    let vtx2xyz = (0..points)
        .map(|point| std::array::from_fn(|axis| coordinate(point, axis)))
        .collect();
    let tri2vtx = (0..3 * triangles)
        .map(|i| mesh::name(cells, i / 3, i % 3).expect("a name"))
        .collect();
    Ok((vtx2xyz, tri2vtx))
}

/// Masses by x and y, whatever z is.
fn masses_in_plan((vtx2xyz, tri2vtx): &Wall) -> Result<Vec<f64>, Refusal> {
    let vtx2xy: Vec<_> = vtx2xyz.iter().flat_map(|p| [p[0], p[1]]).collect();
    let mut vtx2mass = vec![-7.5; 3 * vtx2xyz.len()];
    mitc_tri3::mass_lumped_plate_bending(tri2vtx, &vtx2xy, MATERIAL, &mut vtx2mass)?;
    Ok(vtx2mass)
}

/// Masses take x and y: a wall that stands upright weighs 0 there and a folded one too little, and `Ok` may come with either. So a wall is refused unless all its z are
/// one value; a NaN equals nothing and fails.
fn masses(file: &[u8]) -> Result<Vec<f64>, Box<dyn Error>> {
    let wall = wall(file)?;
    if !wall.0.iter().all(|p| p[2] == wall.0[0][2]) {
        return Err("the wall is not flat: its z are not one value".into());
    }
    Ok(masses_in_plan(&wall)?)
}

/// Where a part of the file begins in it.
fn place(part: &[u8], file: &[u8]) -> usize {
    part.as_ptr() as usize - file.as_ptr() as usize
}

/// The file of the square with other points in it.
fn square_at(points: [[f64; 3]; 4]) -> Vec<u8> {
    let mut file = load("two");
    let place = place(mesh::points(&file).unwrap(), &file);
    let block = points.concat().into_iter().flat_map(f64::to_be_bytes);
    for (at, byte) in block.enumerate() {
        file[place + at] = byte;
    }
    file
}

/// The file with corners 1 and 2 of these triangles exchanged.
fn exchanged(mut file: Vec<u8>, triangles: &[usize]) -> Vec<u8> {
    let place = place(mesh::cells(&file).unwrap(), &file);
    for triangle in triangles {
        file[place + 16 * triangle..][8..16].rotate_left(4);
    }
    file
}

#[test]
fn from_a_file_to_masses() {
    let file = load("two");
    let (vtx2xyz, tri2vtx) = wall(&file).expect("a mesh");
    assert_eq!(vtx2xyz, SQUARE);
    assert_eq!(tri2vtx, NAMES);
    assert_eq!(masses(&file).expect("the masses of example 3"), MASSES);
}

#[test]
fn only_a_flat_wall_gets_masses() {
    let refused = |file: &[u8]| masses(file).expect_err("z differ").to_string();
    let plan = |file: &[u8]| masses_in_plan(&wall(file).unwrap()).expect("no word said");
    let upright = square_at(SQUARE.map(|[x, y, z]| [x, z, y]));
    assert_eq!(plan(&upright), [0.0; 12]);
    assert!(refused(&upright).contains("not flat"));
    // 45 degrees.
    let leaning = square_at(SQUARE.map(|[x, y, _]| [x, y / 2.0, y / 2.0]));
    assert_eq!(plan(&leaning), MASSES.map(|mass| mass / 2.0));
    assert!(refused(&leaning).contains("not flat"));
    let folded = load("folded");
    assert!(plan(&folded).iter().all(|mass| *mass > 0.0));
    assert!(refused(&folded).contains("not flat"));
}

#[test]
fn a_wall_with_a_turned_triangle_gets_none() {
    let words = "refused (6): a triangle turns right: its corners run clockwise";
    for triangles in [&[0][..], &[1], &[0, 1]] {
        let file = exchanged(load("two"), triangles);
        assert_eq!(masses(&file).expect_err("turned").to_string(), words);
    }
    let mirrored = [
        SQUARE.map(|[x, y, z]| [-x, y, z]),
        SQUARE.map(|[x, y, z]| [x, -y, z]),
        SQUARE.map(|[x, y, z]| [y, x, z]),
    ];
    for behind in mirrored.map(square_at) {
        assert_eq!(masses(&behind).expect_err("turned").to_string(), words);
        let mended = exchanged(behind, &[0, 1]);
        assert_eq!(masses(&mended).expect("two names exchanged"), MASSES);
    }
    let half_turn = square_at(SQUARE.map(|[x, y, z]| [-x, -y, z]));
    assert_eq!(masses(&half_turn).expect("half a turn"), MASSES);
    // Folded over at the diagonal: in plan one triangle lies on its back.
    let over = square_at([SQUARE[0], SQUARE[1], SQUARE[2], [0.0, 0.0, 1.0]]);
    assert_eq!(masses_in_plan(&wall(&over).unwrap()), Err(Refusal::Turned));
    assert!(masses(&over)
        .expect_err("z differ")
        .to_string()
        .contains("not flat"));
}

/// The stored walls are of triangles with the area 18 that run counterclockwise, but for two that are not flat.
#[test]
fn every_stored_flat_wall_gets_masses() {
    for [name, answer, _] in table() {
        let triangles = match numbers(&answer)[..] {
            [0, _, triangles] => triangles,
            _ => continue,
        };
        match masses(&load(&name)) {
            Ok(vtx2mass) => {
                let sum: f64 = vtx2mass.iter().step_by(3).sum();
                assert_eq!(sum, 36.0 * triangles as f64, "{name}");
            }
            Err(_) => assert!(["folded", "any_double"].contains(&&*name), "{name}"),
        }
    }
}

#[test]
fn one_z_is_one_number() {
    for z in [5.0, -0.0, f64::MAX, 5e-324] {
        let lifted = square_at(SQUARE.map(|[x, y, _]| [x, y, z]));
        assert_eq!(masses(&lifted).expect("a flat wall"), MASSES, "z = {z}");
    }
    let mut points = SQUARE;
    points[3][2] = -0.0;
    assert_eq!(masses(&square_at(points)).expect("both zeros"), MASSES);
    for z in [5e-324, f64::NAN, f64::INFINITY] {
        for corner in 0..4 {
            let mut points = SQUARE;
            points[corner][2] = z;
            assert!(masses(&square_at(points)).is_err(), "{corner}, z = {z}");
        }
    }
    let nowhere = square_at(SQUARE.map(|[x, y, _]| [x, y, f64::NAN]));
    assert!(masses(&nowhere).is_err());
}

#[test]
fn coordinates_keep_their_bits() {
    let file = load("any_double");
    let block = mesh::points(&file).unwrap();
    let at = |i| mesh::coordinate(block, i / 3, i % 3).expect("a coordinate");
    assert!(at(0).is_nan());
    let want = [
        -0.0,
        f64::INFINITY,
        5e-324,
        f64::NEG_INFINITY,
        f64::MAX,
        0.0,
        1.0,
        2.0,
    ];
    for (i, x) in want.into_iter().enumerate() {
        assert_eq!(at(i + 1).to_bits(), x.to_bits(), "number {} of 9", i + 1);
    }
}

#[test]
fn there_is_nothing_outside_a_block() {
    let file = load("two");
    let (points, cells) = (mesh::points(&file).unwrap(), mesh::cells(&file).unwrap());
    assert_eq!(mesh::coordinate(points, 3, 2), Some(0.0));
    for (point, axis) in [
        (4, 0),
        (0, 3),
        (usize::MAX, 0),
        (0, usize::MAX),
        (usize::MAX / 24 + 1, 0),
    ] {
        assert_eq!(
            mesh::coordinate(points, point, axis),
            None,
            "{point}, {axis}"
        );
    }
    assert_eq!(mesh::coordinate(&points[..95], 3, 0), None);
    assert_eq!(mesh::coordinate(&[], 0, 0), None);
    assert_eq!(mesh::name(cells, 1, 2), Some(2));
    for (triangle, corner) in [
        (2, 0),
        (0, 3),
        (usize::MAX, 0),
        (0, usize::MAX),
        (usize::MAX / 16 + 1, 0),
    ] {
        assert_eq!(
            mesh::name(cells, triangle, corner),
            None,
            "{triangle}, {corner}"
        );
    }
    assert_eq!(mesh::name(&cells[..31], 1, 0), None);
    assert_eq!(mesh::name(&[], 0, 0), None);
}
