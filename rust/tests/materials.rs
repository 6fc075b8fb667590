//! How a material crosses: each number to its place, Young's numbers against the Lame pair that they stand for, and a stiffness that is refused.
use del_fem::{mitc_tri3, skin, stvk_tri3, Energy, Material, Refusal};

/// Numbers that round at every step.
const REST: [[f64; 3]; 3] = [[0.1, -0.2, 0.3], [1.7, 0.3, -0.1], [0.4, 1.9, 0.7]];
const DEFORMED: [[f64; 3]; 3] = [[0.2, -0.3, 0.1], [2.3, 0.7, 0.3], [0.1, 1.3, -0.9]];
const PLAN: [&[f64; 2]; 3] = [&[0.1, -0.2], &[1.7, 0.3], &[0.4, 1.9]];
const NAMES: [usize; 3] = [0, 1, 2];

fn stvk(material: Material) -> Result<Energy, Refusal> {
    stvk_tri3::wdwddw_(REST, DEFORMED, material)
}

fn plate(material: Material) -> Result<Energy, Refusal> {
    mitc_tri3::w_dw_ddw_plate_bending(&PLAN, &DEFORMED, material)
}

fn masses(material: Material) -> Result<[f64; 9], Refusal> {
    let vtx2xy = PLAN.map(|p| *p).concat();
    let mut mass = [-7.5; 9];
    mitc_tri3::mass_lumped_plate_bending(&NAMES, &vtx2xy, material, &mut mass).map(|()| mass)
}

/// The answer, and the buffer after it.
fn skin(tri2vtx: &[usize], material: Material) -> (Result<f64, skin::Refused>, [f64; 9]) {
    let (ini, def) = (REST.concat(), DEFORMED.concat());
    let mut dw = [-7.5; 9];
    (skin::wdw(&ini, &def, tri2vtx, material, &mut dw), dw)
}

/// By their texts, in which every finite number has its bits.
fn same<T: std::fmt::Debug>(a: T, b: T) {
    assert_eq!(format!("{a:?}"), format!("{b:?}"));
}

#[test]
fn young_is_the_lame_pair_that_it_stands_for() {
    for (e, v) in [(7.3, 0.1), (1.1e9, 0.44), (0.7, -0.35), (1.5e-323, 0.25)] {
        let lambda = (e * v) / ((1.0 + v) * (1.0 - 2.0 * v));
        let myu = e / (2.0 * (1.0 + v));
        let young = Material::young(1400.0, 0.3, e, v);
        let lame = Material::lame(1400.0, 0.3, lambda, myu);
        same(stvk(young).expect("StVK"), stvk(lame).expect("StVK"));
        same(plate(young).expect("plate"), plate(lame).expect("plate"));
        assert!(skin(&NAMES, young).0.is_ok(), "E {e:e}, v {v}");
        same(skin(&NAMES, young), skin(&NAMES, lame));
    }
}

#[test]
fn each_routine_looks_at_what_it_uses_and_no_more() {
    let nan = f64::NAN;
    for of in [Material::lame, Material::young] {
        let good = of(1400.0, 0.3, 0.7, 0.4);
        assert!(stvk(good).is_ok() && plate(good).is_ok() && masses(good).is_ok());
        same(stvk(of(nan, nan, 0.7, 0.4)), stvk(good));
        same(skin(&NAMES, of(nan, nan, 0.7, 0.4)), skin(&NAMES, good));
        same(plate(of(nan, 0.3, 0.7, 0.4)), plate(good));
        same(masses(of(1400.0, 0.3, nan, nan)), masses(good));
        for (a, b) in [(nan, 0.4), (0.7, nan)] {
            assert_eq!(stvk(of(1400.0, 0.3, a, b)), Err(Refusal::BadInput));
            assert_eq!(plate(of(1400.0, 0.3, a, b)), Err(Refusal::BadInput));
        }
        assert_eq!(plate(of(1400.0, nan, 0.7, 0.4)), Err(Refusal::BadInput));
        assert_eq!(masses(of(nan, 0.3, 0.7, 0.4)), Err(Refusal::BadInput));
        assert_eq!(masses(of(1400.0, nan, 0.7, 0.4)), Err(Refusal::BadInput));
    }
}

#[test]
fn a_stiffness_that_no_sheet_has_is_refused() {
    for (e, v) in [(0.0, 0.25), (1.0, 0.5), (1.0, -1.0)] {
        let wrong = Material::young(1400.0, 0.3, e, v);
        assert_eq!(stvk(wrong), Err(Refusal::BadStiffness));
        assert_eq!(plate(wrong), Err(Refusal::BadStiffness));
        assert!(masses(wrong).is_ok());
        let (answer, dw) = skin(&NAMES, wrong);
        let refused = answer.expect_err("a refusal");
        assert_eq!(refused.refusal, Refusal::BadStiffness);
        assert_eq!(refused.place, Some(0));
        assert_eq!(dw.map(f64::to_bits), [0; 9]);
        let words = "refused (7): a stiffness is none that a sheet can have, at place 0";
        assert_eq!(refused.to_string(), words);
        assert_eq!(skin(&[], wrong), (Ok(0.0), [0.0; 9]));
    }
}
