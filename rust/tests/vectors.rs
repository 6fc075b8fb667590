//! Every routine on every stored record of its kind, against the oracle's answers, bit for bit (docs/REPLAY.md has the layout).
use del_fem::{mitc_tri3, quadratic_bending, root, skin, stvk_tri3, Energy, Material, Refusal};
use std::path::Path;

/// How many words follow a helper's number; the helpers themselves are not exported.
const HELPER_INPUTS: [usize; 12] = [0, 6, 6, 6, 4, 3, 3, 6, 9, 9, 6, 9];

/// The bytes of the records that are still to be read, and how many Lame and how many Young materials there were.
struct Records<'a> {
    left: &'a [u8],
    materials: [usize; 2],
}

impl Records<'_> {
    fn word(&mut self) -> Option<u64> {
        let word = self.left.get(..8)?.try_into().expect("eight bytes");
        self.left = &self.left[8..];
        Some(u64::from_be_bytes(word))
    }

    fn number(&mut self) -> Option<f64> {
        self.word().map(f64::from_bits)
    }

    fn count(&mut self) -> Option<usize> {
        self.word().map(|w| w.try_into().expect("a length"))
    }

    fn counts(&mut self, n: usize) -> Option<Vec<usize>> {
        (0..n).map(|_| self.count()).collect()
    }

    fn numbers(&mut self, n: usize) -> Option<Vec<f64>> {
        (0..n).map(|_| self.number()).collect()
    }

    fn material(&mut self) -> Option<Material> {
        let stiffness = self.count()?;
        let of = match stiffness {
            2 => Material::lame,
            3 => Material::young,
            _ => panic!("no material has the word {stiffness}"),
        };
        self.materials[stiffness - 2] += 1;
        let [density, thickness, a, b] = [(); 4].map(|()| self.number());
        Some(of(density?, thickness?, a?, b?))
    }

    /// `N` points of `D` coordinates each.
    fn points<const D: usize, const N: usize>(&mut self) -> Option<[[f64; D]; N]> {
        let flat = self.numbers(D * N)?;
        Some(std::array::from_fn(|i| {
            std::array::from_fn(|j| flat[i * D + j])
        }))
    }
}

/// An answer line: the number, then the values' bits.
type Line = Vec<u64>;

fn read(line: &str) -> Line {
    line.split(' ')
        .map(|word| u64::from_str_radix(word, 16).expect("a word"))
        .collect()
}

/// The bits of a number, every NaN's as the oracle writes them.
fn bits(x: f64) -> u64 {
    if x.is_nan() {
        0x7ff8_0000_0000_0000
    } else {
        x.to_bits()
    }
}

fn line(number: u64, values: impl IntoIterator<Item = f64>) -> Line {
    std::iter::once(number)
        .chain(values.into_iter().map(bits))
        .collect()
}

/// The line of a kernel's answer, or of its refusal, after which the record has +0 for each of `n` values.
fn kernel_line<A>(answer: Result<A, Refusal>, n: usize, flat: impl Fn(A) -> Vec<f64>) -> Line {
    match answer {
        Ok(answer) => line(0, flat(answer)),
        Err(refusal) => line(refusal.number().into(), vec![0.0; n]),
    }
}

fn flat_energy((w, dw, ddw): Energy) -> Vec<f64> {
    let mut flat = vec![w];
    flat.extend(dw.concat());
    flat.extend(ddw.concat().concat());
    flat
}

fn root_line(r: &mut Records) -> Option<Line> {
    let x = r.word()?;
    let word = root::sqrt_word(x);
    let number = root::sqrt(f64::from_bits(x));
    assert_eq!(number.to_bits(), word, "both forms of the root of {x:016x}");
    Some(vec![0, word])
}

fn bending_line(r: &mut Records) -> Option<Line> {
    let (ini, def) = (r.points()?, r.points()?);
    let answer = quadratic_bending::wdw(&ini, &def);
    Some(kernel_line(answer, 39, |(w, dwdp)| {
        [w.to_vec(), dwdp.concat().concat()].concat()
    }))
}

type Strains = fn(&[[f64; 2]; 3], &[[f64; 3]; 3]) -> Result<stvk_tri3::Strain, Refusal>;

fn strain_line(r: &mut Records, wdw: Strains) -> Option<Line> {
    let (ini, def) = (r.points()?, r.points()?);
    Some(kernel_line(wdw(&ini, &def), 30, |(w, dw)| {
        [w.to_vec(), dw.concat().concat()].concat()
    }))
}

fn stvk_line(r: &mut Records) -> Option<Line> {
    let (p0, p1) = (r.points()?, r.points()?);
    let answer = stvk_tri3::wdwddw_(p0, p1, r.material()?);
    Some(kernel_line(answer, 91, flat_energy))
}

fn plate_line(r: &mut Records) -> Option<Line> {
    let (p, u) = (r.points::<2, 3>()?, r.points()?);
    let answer = mitc_tri3::w_dw_ddw_plate_bending(&[&p[0], &p[1], &p[2]], &u, r.material()?);
    Some(kernel_line(answer, 91, flat_energy))
}

fn masses_line(r: &mut Records) -> Option<Line> {
    let (n, t, b) = (r.count()?, r.count()?, r.count()?);
    let material = r.material()?;
    let vtx2xy = r.numbers(n)?;
    let tri2vtx = r.counts(t)?;
    let mut mass = r.numbers(b)?;
    let answer = mitc_tri3::mass_lumped_plate_bending(&tri2vtx, &vtx2xy, material, &mut mass);
    Some(line(
        answer.err().map_or(0, |refusal| refusal.number().into()),
        mass,
    ))
}

/// The line of a skin's energy, or of its refusal, with the place behind the number: 0 where there is none.
fn skin_line(r: &mut Records) -> Option<Line> {
    let (n, m, t, b) = (r.count()?, r.count()?, r.count()?, r.count()?);
    let material = r.material()?;
    let (vtx2ini, vtx2def) = (r.numbers(n)?, r.numbers(m)?);
    let tri2vtx = r.counts(t)?;
    let mut dw = r.numbers(b)?;
    let answer = skin::wdw(&vtx2ini, &vtx2def, &tri2vtx, material, &mut dw);
    let (number, place, w) = match answer {
        Ok(w) => (0, 0, w),
        Err(refused) => (refused.refusal.number(), refused.place.unwrap_or(0), 0.0),
    };
    let mut line = vec![number.into(), place as u64, bits(w)];
    line.extend(dw.into_iter().map(bits));
    Some(line)
}

#[test]
fn every_record_is_answered_as_the_oracle_does() {
    let replay = Path::new(env!("CARGO_MANIFEST_DIR")).join("../crates/replay");
    let records = std::fs::read(replay.join("stdin")).expect("the records");
    let answers = std::fs::read_to_string(replay.join("stdout")).expect("the answers");
    let mut records = Records {
        left: &records,
        materials: [0; 2],
    };
    let mut ran = [0; 9];
    let mut answers = answers.lines().enumerate();
    for (at, want) in answers.by_ref().take_while(|(_, want)| *want != "?") {
        let kind = records.word().expect("a record for each answer");
        let got = match kind {
            1 => root_line(&mut records),
            2 => bending_line(&mut records),
            3 => strain_line(&mut records, stvk_tri3::wdw),
            4 => stvk_line(&mut records),
            5 => plate_line(&mut records),
            6 => masses_line(&mut records),
            7 => skin_line(&mut records),
            8 => strain_line(&mut records, stvk_tri3::wdw_green_lagrange),
            9 => {
                let helper = records.count().expect("a helper");
                records.numbers(HELPER_INPUTS[helper]).expect("its inputs");
                continue;
            }
            _ => panic!("line {}: no routine has the number {kind}", at + 1),
        };
        let got = got.expect("a whole record");
        assert_eq!(got, read(want), "line {}, kind {kind}", at + 1);
        ran[kind as usize] += 1;
    }
    assert!(answers.next().is_none(), "no answer follows the line `?`");
    println!("records compared, by kind: {:?}", &ran[1..]);
    assert!(
        ran[1..].iter().all(|&n| n > 0),
        "a kind has no record: {ran:?}"
    );
    assert!(!records.materials.contains(&0), "no Lame or no Young");
}
