//! Triangles that turn right: masses and plate refuse them, after 3 and 7 and before 4 and 5, and masses leave the buffer as it was; the others take them. Expected
//! answers come from the scope's rule for the plane area.
use del_fem::{mitc_tri3, skin, stvk_tri3, Energy, Material, Refusal};

const MATERIAL: Material = Material::lame(2.0, 1.0, 0.0, 1.0);
const TINY: f64 = 5e-324; // 2^-1074
const HUGE: f64 = 2.247116418577895e307; // 2^1021
const HALF: f64 = HUGE / 2.0;
const NAN: f64 = f64::NAN;
const INFINITY: f64 = f64::INFINITY;

type Corners = [[f64; 2]; 3];

fn area([[x0, y0], [x1, y1], [x2, y2]]: Corners) -> f64 {
    ((x1 - x0) * (y2 - y0) - (x2 - x0) * (y1 - y0)) * 0.5
}

/// The bits of a NaN of either sign, quiet or signalling, with digits of its own.
fn scribbled(n: usize) -> Vec<u64> {
    let kinds = [0x7ff8, 0xfff8, 0x7ff0, 0xfff0_u64];
    (0..n)
        .map(|i| kinds[i % 4] << 48 | 0x00c0_ffee | (i as u64) << 32)
        .collect()
}

/// The answer, and the bits of a buffer that held NaNs before.
fn masses_at(
    tri2vtx: &[usize],
    vtx2xy: &[f64],
    material: Material,
    places: usize,
) -> (Result<(), Refusal>, Vec<u64>) {
    let mut mass: Vec<f64> = scribbled(places).into_iter().map(f64::from_bits).collect();
    let answer = mitc_tri3::mass_lumped_plate_bending(tri2vtx, vtx2xy, material, &mut mass);
    (answer, mass.into_iter().map(f64::to_bits).collect())
}

fn masses(
    tri2vtx: &[usize],
    vtx2xy: &[f64],
    material: Material,
) -> (Result<(), Refusal>, Vec<u64>) {
    masses_at(tri2vtx, vtx2xy, material, vtx2xy.len() / 2 * 3)
}

fn plate(p: Corners, u: [[f64; 3]; 3], material: Material) -> Result<Energy, Refusal> {
    mitc_tri3::w_dw_ddw_plate_bending(&[&p[0], &p[1], &p[2]], &u, material)
}

/// The answer and the buffer's bits by the scope's rules, where lengths, names and numbers are right and nothing overflows.
fn by_rule(tri2vtx: &[usize], vtx2xy: &[f64]) -> (Result<(), Refusal>, Vec<u64>) {
    let places = vtx2xy.len() / 2 * 3;
    let mut mass = vec![0.0; places];
    for names in tri2vtx.chunks(3) {
        let corner = |k: usize| [vtx2xy[2 * names[k]], vtx2xy[2 * names[k] + 1]];
        let a = area([corner(0), corner(1), corner(2)]);
        if a < 0.0 {
            return (Err(Refusal::Turned), scribbled(places));
        }
        let Material {
            density, thickness, ..
        } = MATERIAL;
        let m0 = a / 3.0 * density * thickness;
        let m1 = a / 3.0 * density * thickness * thickness * thickness / 12.0;
        for name in names {
            for (place, m) in mass[3 * name..].iter_mut().zip([m0, m1, m1]) {
                *place += m;
            }
        }
    }
    (Ok(()), mass.into_iter().map(f64::to_bits).collect())
}

/// Numbers from 0 to 6, the same in every run.
struct Random(u64);

impl Random {
    fn next(&mut self) -> usize {
        self.0 ^= self.0 << 13;
        self.0 ^= self.0 >> 7;
        self.0 ^= self.0 << 17;
        (self.0 % 7) as usize
    }
}

#[test]
fn small_panels_and_plates_are_answered_by_the_rule() {
    let mut random = Random(88172645463325252);
    let mut seen = [0; 2];
    for _ in 0..20_000 {
        let vtx2xy: Vec<f64> = (0..14).map(|_| random.next() as f64).collect();
        let tri2vtx: Vec<usize> = (0..3 * (random.next() / 2))
            .map(|_| random.next())
            .collect();
        let want = by_rule(&tri2vtx, &vtx2xy);
        seen[want.0.is_err() as usize] += 1;
        let got = masses(&tri2vtx, &vtx2xy, MATERIAL);
        assert_eq!(got, want, "{tri2vtx:?} of {vtx2xy:?}");

        let p = [0, 2, 4].map(|i| [vtx2xy[i], vtx2xy[i + 1]]);
        let refusal = plate(p, [[0.5; 3]; 3], MATERIAL).err();
        let a = area(p);
        let want = match a {
            _ if a < 0.0 => Some(Refusal::Turned),
            _ if a > 0.0 => None,
            _ => Some(Refusal::ZeroDivisor),
        };
        assert_eq!(refusal, want, "{p:?}");
    }
    assert!(seen.iter().all(|n| *n > 2_000), "{seen:?}");
}

/// A square of 6 by 6 in nine points, its triangles counterclockwise.
fn grid() -> (Vec<usize>, Vec<f64>) {
    let vtx2xy = (0..9).flat_map(|v| [(v % 3 * 3) as f64, (v / 3 * 3) as f64]);
    let tri2vtx = [0, 1, 3, 4]
        .into_iter()
        .flat_map(|v| [v, v + 1, v + 3, v + 1, v + 4, v + 3]);
    (tri2vtx.collect(), vtx2xy.collect())
}

#[test]
fn a_turned_triangle_is_refused_wherever_it_stands() {
    let (good, vtx2xy) = grid();
    assert_eq!(masses(&good, &vtx2xy, MATERIAL), by_rule(&good, &vtx2xy));
    for triangle in 0..8 {
        for (a, b) in [(0, 1), (1, 2), (2, 0)] {
            let mut tri2vtx = good.clone();
            tri2vtx.swap(3 * triangle + a, 3 * triangle + b);
            let want = (Err(Refusal::Turned), scribbled(27));
            assert_eq!(masses(&tri2vtx, &vtx2xy, MATERIAL), want, "{triangle}");
        }
    }
}

/// A refusal's number, or 0.
fn number<A>(answer: Result<A, Refusal>) -> u32 {
    answer.err().map_or(0, Refusal::number)
}

/// Three corners with the numbers of masses and plate. The last three are in a line as decimals; the doubles next to those make a left, a right and a right triangle by
/// the exact area, which does not count.
#[test]
fn the_computed_area_decides() {
    for ([x0, y0, x1, y1, x2, y2], of_masses, of_plate) in [
        ([0.0, 0.0, 1.0, 0.0, 2.0, 0.0], 0, 4),
        ([0.0, 0.0, 1.0, 1.0, 1.0, 1.0], 0, 4),
        ([0.0, 0.0, -1.0, 0.0, 1.0, 0.0], 0, 4),      // -0
        ([0.0, 0.0, TINY, 0.0, 0.0, 1.0], 0, 4),      // 2^-1075, which is +0
        ([0.0, 0.0, 0.0, 1.0, TINY, 0.0], 0, 4),      // -2^-1075, which is -0
        ([0.0, 0.0, 1e-323, 0.0, 0.0, 1.0], 0, 5),    // 2^-1074
        ([0.0, 0.0, 0.0, 1.0, 1e-323, 0.0], 6, 6),    // -2^-1074
        ([0.0, 0.0, 1e-180, 0.0, 0.0, 1e-180], 0, 4), // products that are 0
        ([0.0, 0.0, 0.0, 1e-180, 1e-180, 0.0], 0, 4),
        ([0.0, 0.0, HUGE, 0.0, 0.0, HUGE], 5, 5), // infinity
        ([0.0, 0.0, 0.0, HUGE, HUGE, 0.0], 6, 6), // -infinity
        ([0.0, 0.0, HUGE, HALF, HALF, HUGE], 5, 5), // a NaN
        ([0.0, 0.0, HALF, HUGE, HUGE, HALF], 5, 5),
        ([0.1, 8.6, 2.9, 5.1, 4.1, 3.6], 6, 6),
        ([1.8, 0.2, 4.6, 3.4, 3.9, 2.6], 0, 0),
        ([0.8, 5.7, 5.1, 6.2, 9.4, 6.7], 0, 4),
    ] {
        let p = [[x0, y0], [x1, y1], [x2, y2]];
        let (answer, mass) = masses(&[0, 1, 2], &p.concat(), MATERIAL);
        assert_eq!(number(answer), of_masses, "{p:?}");
        match of_masses {
            0 => assert_eq!(mass, by_rule(&[0, 1, 2], &p.concat()).1, "{p:?}"),
            5 => assert_eq!(mass, [0; 9], "{p:?}"),
            _ => assert_eq!(mass, scribbled(9), "{p:?}"),
        }
        let answer = plate(p, [[0.0; 3]; 3], MATERIAL);
        assert_eq!(number(answer), of_plate, "{p:?}");
    }
}

/// Names, coordinates, a material, how many places the buffer has, and the number.
type Row<'a> = (&'a [usize], [f64; 8], Material, usize, u32);

#[test]
fn masses_give_it_after_1_2_and_3_and_before_5() {
    let of = |density, thickness| Material::lame(density, thickness, 0.0, 1.0);
    let square = [0.0, 0.0, 6.0, 0.0, 0.0, 6.0, 6.0, 6.0];
    let nowhere = [0.0, 0.0, 6.0, 0.0, 0.0, 6.0, 6.0, NAN];
    let none = Material::young(2.0, 1.0, NAN, 7.0);
    let rows: [Row; 12] = [
        (&[0, 2, 1, 0], square, MATERIAL, 12, 1),
        (&[0, 2, 1], square, MATERIAL, 13, 1),
        (&[0, 2, 1, 0, 1, 4], square, MATERIAL, 12, 2),
        (&[0, 1, 4, 0, 2, 1], square, MATERIAL, 12, 2),
        (&[0, 2, 1], square, of(2.0, NAN), 12, 3),
        (&[0, 2, 1], square, of(INFINITY, 1.0), 12, 3),
        (&[0, 2, 1, 1, 3, 2], nowhere, MATERIAL, 12, 3),
        (&[0, 2, 1], nowhere, MATERIAL, 12, 6),
        (&[0, 2, 1], square, none, 12, 6),
        (&[0, 2, 1], square, of(-2.0, 1.0), 12, 6),
        (&[0, 2, 1], square, of(2.0, HUGE), 12, 6),
        (&[0, 1, 2, 1, 2, 3], square, of(2.0, HUGE), 12, 6),
    ];
    for (tri2vtx, vtx2xy, material, places, want) in rows {
        let (answer, mass) = masses_at(tri2vtx, &vtx2xy, material, places);
        assert_eq!(number(answer), want, "{tri2vtx:?}, {material:?}");
        assert_eq!(mass, scribbled(places), "{tri2vtx:?}, {material:?}");
    }
    let (answer, mass) = masses(&[0, 1, 2], &square, of(2.0, HUGE));
    assert_eq!((answer, mass), (Err(Refusal::BadAnswer), vec![0; 12]));
}

#[test]
fn the_plate_gives_it_after_3_and_7_and_before_4_and_5() {
    let behind = [[0.0, 0.0], [0.0, 1.0], [1.0, 0.0]];
    let front = [[0.0, 0.0], [1.0, 0.0], [0.0, 1.0]];
    let (still, mut nowhere, mut far) = ([[0.0; 3]; 3], [[0.0; 3]; 3], [[0.0; 3]; 3]);
    nowhere[1][2] = NAN;
    far[1][0] = HUGE;
    let of = |thickness, e| Material::young(NAN, thickness, e, 0.25);
    assert_eq!(plate(behind, still, of(2.0, 1.0)), Err(Refusal::Turned));
    for (u, material, refusal) in [
        (nowhere, of(2.0, 1.0), Refusal::BadInput),
        (still, of(INFINITY, 1.0), Refusal::BadInput),
        (still, of(2.0, NAN), Refusal::BadInput),
        (still, of(2.0, 0.0), Refusal::BadStiffness),
    ] {
        assert_eq!(plate(behind, u, material), Err(refusal));
        assert_eq!(plate(front, u, material), Err(refusal));
    }
    for (u, material, refusal) in [
        (still, of(0.0, 1.0), Refusal::ZeroDivisor),
        (far, of(2.0, 1.0), Refusal::BadAnswer),
    ] {
        assert_eq!(plate(behind, u, material), Err(Refusal::Turned));
        assert_eq!(plate(front, u, material), Err(refusal));
    }
}

#[test]
fn strains_stvk_and_skin_take_either_way() {
    let wide = [[0.0, 0.0], [0.0, 1.0], [2.0, 0.0]];
    let pulled = [[0.0, 0.0, 0.0], [0.0, 1.0, 0.0], [4.0, 0.0, 0.0]];
    let rest = wide.map(|[x, y]| [x, y, 0.0]);
    assert_eq!(stvk_tri3::wdw(&wide, &pulled).unwrap().0, [6.0, 0.0, 0.0]);
    let book = stvk_tri3::wdw_green_lagrange(&wide, &pulled).unwrap();
    assert_eq!(book.0, [1.5, 0.0, 0.0]);
    // Twice the area of the scope's example 9, where 1.125 is its energy.
    assert_eq!(stvk_tri3::wdwddw_(rest, pulled, MATERIAL).unwrap().0, 2.25);
    let (ini, def, mut dw) = (rest.concat(), pulled.concat(), [7.5; 9]);
    assert_eq!(
        skin::wdw(&ini, &def, &[0, 1, 2], MATERIAL, &mut dw),
        Ok(2.25)
    );
}
