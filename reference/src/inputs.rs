//! Random passes: heights, thresholds, settings, records and faults.
use crate::answer::{Record, Sides};
use crate::random::Random;
use crate::talus::{prepared, Pass};
use crate::terrain::{
    bad_length, bad_sides, ends, fault, grid, not_finite, outside, relief, spoilt, water, RELIEFS, TINY,
};

/// The greatest threshold, and the floats next to it.
pub const MOST: f32 = 96.0;
pub const BELOW_MOST: f32 = f32::from_bits(0x42bf_ffff);
pub const ABOVE_MOST: f32 = f32::from_bits(0x42c0_0001);

/// Thresholds that are refused.
pub const BAD: [f32; 7] = [ABOVE_MOST, -TINY, -1.0, f32::MAX, f32::INFINITY, f32::NEG_INFINITY, f32::NAN];

/// Thresholds at the ends of the range.
pub const ENDS: [f32; 5] = [0.0, -0.0, TINY, BELOW_MOST, MOST];

/// A grid with its heights, the length of the result slice, and the pass.
#[derive(Clone)]
pub struct Task {
    pub size: Sides,
    pub heights: Vec<f32>,
    pub out: usize,
    pub pass: Pass,
}

/// A pass from 0 to 1, from the fresh record, that is never stopped.
pub fn whole(thresholds: [f32; 8], strength: f32, water_level: f32) -> Pass {
    Pass { thresholds, strength, water_level, ends: (0.0, 1.0), record: Record::FRESH, stop: 0 }
}

fn threshold(r: &mut Random) -> f32 {
    let any = r.unit();
    let some = [0.0, -0.0, TINY, any * 0.01, any * 0.25, any, any * 4.0, any * MOST, 1.0, 2.0, BELOW_MOST, MOST];
    r.pick(&some)
}

/// Eight thresholds: each drawn by itself, one below and seven of another, those of `slide_pass`, or eight of the ends.
pub fn thresholds(r: &mut Random) -> [f32; 8] {
    let (one, seven) = (threshold(r), threshold(r));
    match r.below(6) {
        0 => {
            let mut eight = [seven; 8];
            eight[r.below(8)] = one;
            eight
        }
        1 => prepared(r.unit() * 16.0),
        2 => [(); 8].map(|_| r.pick(&ENDS)),
        _ => [(); 8].map(|_| threshold(r)),
    }
}

fn record(r: &mut Random) -> Record {
    let any = r.unit();
    let last = r.pick(&[-1.0, 0.0, -0.0, 0.5, any, 1.0]);
    let asked = r.pick(&[0, 1, 9, (1 << 31) - 1, 1 << 31]);
    Record { last, asked, stopped: r.below(12) == 0 }
}

/// The i-th pass, on a grid of at most `most` columns and rows.
pub fn task(r: &mut Random, i: usize, most: usize) -> Task {
    let size = grid(r, i / RELIEFS, most);
    let heights = relief(r, size, i % RELIEFS);
    let any = r.unit();
    let strength = r.pick(&[0.0, -0.0, 1.0, 0.5, TINY, any]);
    let mut pass = whole(thresholds(r), strength, water(r, &heights));
    pass.ends = ends(r);
    if r.below(3) > 0 {
        pass.record = record(r);
        let asked = pass.record.asked;
        let later = asked + r.within(3, 9) as u32;
        pass.stop = r.pick(&[0, asked, asked + 1, asked + 2, later]);
    }
    Task { size, out: heights.len(), heights, pass }
}

/// A threshold outside its range, among the faults that a task can have.
const THRESHOLD: u32 = 1 << 4;

/// The faults of a pass, each a bit.
pub const FAULTS: [u32; 6] = [fault::SIDE, fault::LENGTH, THRESHOLD, fault::SETTING, fault::MARKS, fault::HEIGHT];

/// Puts a set of faults into a task.
pub fn damage(r: &mut Random, t: &mut Task, faults: u32) {
    let size = t.size;
    if faults & fault::HEIGHT != 0 {
        t.heights = spoilt(r, &t.heights);
    }
    if faults & THRESHOLD != 0 {
        t.pass.thresholds[r.below(8)] = r.pick(&BAD);
    }
    if faults & fault::SETTING != 0 {
        if r.below(2) == 0 {
            t.pass.strength = outside(r, 0.0, 1.0);
        } else {
            t.pass.water_level = not_finite(r);
        }
    }
    if faults & fault::MARKS != 0 {
        match r.below(4) {
            0 => t.pass.ends.0 = outside(r, 0.0, 1.0),
            1 => t.pass.ends.1 = outside(r, 0.0, 1.0),
            2 => t.pass.record.last = outside(r, -1.0, 1.0),
            _ => t.pass.record.asked = r.pick(&[(1 << 31) + 1, u32::MAX]),
        }
    }
    if faults & fault::LENGTH != 0 {
        let n = bad_length(r, t.heights.len());
        if r.below(2) == 0 {
            t.out = n;
        } else {
            t.heights.resize(n, 0.5);
        }
    }
    if faults & fault::SIDE != 0 {
        t.size = bad_sides(r, size);
    }
}
