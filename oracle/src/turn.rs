//! Which way a triangle of the plane turns. Masses and plate refuse one that turns right, with 6.

use del_geo_core::tri2;

#[derive(Clone, Copy, Debug, PartialEq)]
pub enum Turn {
    Left,
    Right,
    Flat,
}

impl Turn {
    /// By the area as it is computed: either zero and a NaN are flat, infinities are not.
    pub fn of([p0, p1, p2]: &[[f64; 2]; 3]) -> Turn {
        let area = tri2::area(p0, p1, p2);
        if area > 0.0 {
            Turn::Left
        } else if area < 0.0 {
            Turn::Right
        } else {
            Turn::Flat
        }
    }
}
