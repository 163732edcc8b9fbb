//! Grids, heights and faults that several lists draw from.
use crate::answer::Sides;
use crate::random::Random;

/// the value that a result slice holds before a call
pub const FILL: f32 = -77.5;

pub const TINY: f32 = 1e-45;

/// The kinds of heights; each kind of map is tried on each kind of grid.
pub const KINDS: usize = 7;

/// the kind of heights whose differences and sums run off
pub const EXTREME: usize = 5;

fn height(r: &mut Random, kind: usize) -> f32 {
    match kind {
        0 => r.unit() * 2.0 - 1.0,
        1 => r.pick(&[0.0, -0.0]),
        2 => f32::from_bits(r.word() & 0x8000_0fff),
        3 => r.within(0, 2000) as f32 - 1000.0,
        4 => r.finite(),
        EXTREME => r.pick(&[3e38, -3e38, f32::MAX, f32::MIN, 1.0]),
        _ => r.pick(&[0.0, -0.0, TINY, -TINY, f32::MIN_POSITIVE, 1.0, -1.0, 1e10]),
    }
}

pub fn map(r: &mut Random, n: usize, kind: usize) -> Vec<f32> {
    (0..n).map(|_| height(r, kind)).collect()
}

/// The kinds of relief: those of heights, then shapes.
pub const RELIEFS: usize = KINDS + 6;

/// A map of a kind: ties, heights around -1, nested pits, flats, ramps and bowls beside the kinds of single heights.
pub fn relief(r: &mut Random, size: Sides, kind: usize) -> Vec<f32> {
    let n = size.0 * size.1;
    let (a, b) = (r.unit(), r.unit());
    let (cx, cy) = (r.below(size.0) as f32, r.below(size.1) as f32);
    let mut cell = |i: usize| {
        let (x, y) = (i % size.0, i / size.0);
        let ring = x.min(y).min(size.0 - 1 - x).min(size.1 - 1 - y);
        let (fx, fy) = (x as f32, y as f32);
        match kind - KINDS {
            0 => r.below(3) as f32,
            1 => r.pick(&[-2.0, -1.0, -1.5, -0.5, 0.0]),
            // walls and moats by turns, each wall with gaps
            2 if ring % 2 == 0 && r.below(9) > 0 => 9.0 - ring as f32 * 0.5,
            2 => 1.0 - ring as f32 * 0.25,
            3 if r.below(12) > 0 => 0.5,
            3 => r.unit(),
            4 => a * fx + b * fy + r.below(2) as f32 * 0.25,
            _ => ((fx - cx) * (fx - cx) + (fy - cy) * (fy - cy)) * (a - 0.5),
        }
    };
    if kind < KINDS {
        map(r, n, kind)
    } else {
        (0..n).map(&mut cell).collect()
    }
}

/// A water level below all, above all, at a height, next to one, or a zero.
pub fn water(r: &mut Random, h: &[f32]) -> f32 {
    let near = h.get(r.below(h.len().max(1))).copied().filter(|x| x.is_finite()).unwrap_or(0.0);
    match r.below(9) {
        0 => f32::MIN,
        1 => f32::MAX,
        2 | 3 => near,
        4 => f32::from_bits(near.to_bits() ^ 1),
        5 => 0.0,
        6 => -0.0,
        7 => -near,
        _ => r.unit() - 0.5,
    }
}

/// The heights with one, or two, that are not finite; the earlier one is what a refusal carries.
pub fn spoilt(r: &mut Random, v: &[f32]) -> Vec<f32> {
    let mut v = v.to_vec();
    for _ in 0..r.within(1, 2) {
        let i = r.below(v.len());
        v[i] = r.pick(&[f32::NAN, f32::INFINITY, f32::NEG_INFINITY, f32::from_bits(0xff80_0001)]);
    }
    v
}

/// A map of n heights; each eighth is spoilt.
pub fn some_spoilt(r: &mut Random, i: usize, n: usize, kind: usize) -> Vec<f32> {
    let v = map(r, n, kind);
    if i % 8 == 5 {
        spoilt(r, &v)
    } else {
        v
    }
}

/// A grid up to most × most, each fourth with one row, each fourth with one column.
pub fn grid(r: &mut Random, i: usize, most: usize) -> Sides {
    let w = if i % 4 == 1 { 1 } else { r.within(1, most) };
    let h = if i % 4 == 3 { 1 } else { r.within(1, most) };
    (w, h)
}

/// Ends of p: the whole range, a part of it, reversed, or one place.
pub fn ends(r: &mut Random) -> (f32, f32) {
    let (a, b) = (r.unit(), r.unit());
    r.pick(&[(0.0, 1.0), (1.0, 0.0), (a, b), (a, a), (-0.0, 0.005), (1.0, 1.0)])
}

/// The faults that a task can have, each a bit.
pub mod fault {
    pub const SIDE: u32 = 1 << 0;
    pub const REDUCED: u32 = 1 << 1;
    pub const LENGTH: u32 = 1 << 2;
    pub const OTHER_LENGTH: u32 = 1 << 3;
    pub const COORDINATE: u32 = 1 << 5;
    pub const SETTING: u32 = 1 << 6;
    pub const MARKS: u32 = 1 << 7;
    pub const HEIGHT: u32 = 1 << 8;
    pub const RECEIVER: u32 = 1 << 9;
    pub const LIST: u32 = 1 << 10;
    pub const GRID_MARK: u32 = 1 << 11;
    pub const CELLS: u32 = 1 << 12;
    pub const SETTINGS_MARK: u32 = 1 << 13;
    pub const ROW_MARK: u32 = 1 << 14;
    pub const CUT: u32 = 1 << 15;
    pub const OVER: u32 = 1 << 16;
}

/// Sets of faults: they are tried alone, in pairs and all together, so that their order shows.
pub fn faults(of: &[u32]) -> Vec<u32> {
    let mut sets = vec![of.iter().sum()];
    for (i, a) in of.iter().enumerate() {
        sets.push(*a);
        for b in &of[..i] {
            sets.push(a + b);
        }
    }
    sets
}

/// A side outside 1 to 4,096 in place of one of the two.
pub fn bad_sides(r: &mut Random, size: Sides) -> Sides {
    let bad = r.pick(&[0, 4097, u32::MAX as usize]);
    r.pick(&[(bad, size.1), (size.0, bad), (bad, bad)])
}

/// A length next to n, which is at least 1.
pub fn bad_length(r: &mut Random, n: usize) -> usize {
    r.pick(&[n - 1, n + 1])
}

/// A float that is not finite.
pub fn not_finite(r: &mut Random) -> f32 {
    r.pick(&[f32::NAN, f32::INFINITY, f32::NEG_INFINITY])
}

/// A float outside lo to hi: next to an end, or not finite.
pub fn outside(r: &mut Random, lo: f32, hi: f32) -> f32 {
    let below = if lo == 0.0 { -TINY } else { lo - lo.abs() * 1e-6 };
    let bad = not_finite(r);
    r.pick(&[below, hi + hi.abs() * 1e-6, bad])
}
