//! Runs for streams to ask for: random settings on every kind of relief, and maps whose runs run off.
use crate::random::Random;
use crate::rules::streams::{Asked, Kind};
use crate::rules::Sides;
use crate::source::erosion::Settings;
use crate::terrain::{relief, water, TINY};

/// A working side: none, less than the longest, at it, or above.
fn work_res(r: &mut Random, size: Sides) -> u32 {
    let longest = size.0.max(size.1) as u32;
    let less = r.below(longest as usize) as u32;
    r.pick(&[0, less, less, longest, longest + 1, u32::MAX])
}

fn settings(r: &mut Random, size: Sides, map: &[f32], most: usize) -> Settings {
    let any = [r.unit(), r.unit(), r.unit()];
    Settings {
        water_level: water(r, map),
        strength: r.pick(&[0.0, -0.0, 1.0, 0.6, TINY, any[0]]),
        talus: r.pick(&[0.0, -0.0, 1.0, 0.2, any[1]]),
        uplift: r.pick(&[0.0, -0.0, 1.0, -1.0, 0.01, any[2], -any[2]]),
        iterations: r.within(0, most) as u32,
        work_res: work_res(r, size),
    }
}

/// A run of at most so many iterations on a relief of some shape.
pub fn on_relief(r: &mut Random, kind: Kind, size: Sides, shape: usize, most: usize) -> Asked {
    let map = relief(r, size, shape);
    let s = settings(r, size, &map, most);
    Asked { kind, size, s, stop: 0, map }
}

pub type Maker = fn(&mut Random, Kind) -> Asked;

/// A small grid with heights near the largest float.
pub fn steep(r: &mut Random, kind: Kind) -> Asked {
    let size = (r.within(1, 6), r.within(1, 6));
    let map = (0..size.0 * size.1).map(|_| (r.unit() * 2.0 - 1.0) * r.pick(&[f32::MAX, 2e38, 1e38])).collect();
    let s = Settings { water_level: r.pick(&[f32::MIN, 0.0, 3e38]), ..settings(r, size, &[0.0], 3) };
    Asked { kind, size, s, stop: 0, map }
}

/// Cells on a working grid of one cell, cut down to the lowest float: more than the difference, or the sum, can hold. (A talus pass whose
/// excess is above 2^65 or so runs off itself, so thermal runs come to no such place.)
pub fn deep(r: &mut Random, kind: Kind) -> Asked {
    let size = r.pick(&[(2, 1), (1, 2), (3, 1)]);
    let map = (0..size.0 * size.1).map(|_| r.pick(&[1.7e38, 1.1e38, -3e38, 3.4e38])).collect();
    let work_res = r.below(2) as u32;
    let s = Settings { water_level: f32::MIN, strength: 1.0, work_res, ..settings(r, size, &[0.0], 200) };
    Asked { kind, size, s, stop: 0, map }
}
