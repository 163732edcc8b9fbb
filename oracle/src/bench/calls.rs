//! The library's calls as crates/harness exports them: a slice passes as pointer and length, and each gives an answer in one
//! word, document 01's number × 2^32 plus the place that it carries, 0 if none refuses.
use crate::exports;
use crate::lend::lend;
use crate::source::erosion::{Incision, Pass};
use crate::source::Record;

type Sides = (usize, usize);

/// The slices that a routing is lent.
pub struct Network {
    pub order: Vec<u32>,
    pub recv: Vec<u32>,
    pub spill: Vec<f32>,
    pub area: Vec<f32>,
    pub queue: Vec<u32>,
    pub status: Vec<u8>,
}

impl Network {
    pub fn new(n: usize) -> Network {
        Network {
            order: vec![0; n],
            recv: vec![0; n],
            spill: vec![0.0; n],
            area: vec![0.0; n],
            queue: vec![0; n],
            status: vec![0; n],
        }
    }

    pub fn route(&mut self, size: Sides, hmap: &[f32], water_level: f32) -> u64 {
        lend!(exports::harness_route; value [size.0, size.1] read [hmap] value [water_level]
            write [self.order, self.recv, self.spill, self.area, self.queue, self.status])
    }

    /// A routing and the incision along it; the heights incised stand where a routing alone leaves the spill heights.
    pub fn carve(&mut self, size: Sides, hmap: &[f32], s: &Incision) -> u64 {
        lend!(exports::harness_carve; value [size.0, size.1] read [hmap] value [s.k, s.uplift, s.water_level]
            write [self.order, self.recv, self.spill, self.area, self.queue, self.status])
    }
}

/// Receivers and a list that an incision is lent.
#[derive(Clone, Copy)]
pub struct Lent<'a> {
    pub recv: &'a [u32],
    pub list: &'a [u32],
}

/// An incision of `hmap` into `out` along receivers and a list.
pub fn incise(size: Sides, hmap: &[f32], s: &Incision, lent: Lent, out: &mut [f32], area: &mut [f32]) -> u64 {
    lend!(exports::harness_incise; value [size.0, size.1] read [hmap] value [s.k, s.uplift, s.water_level]
        read [lent.recv, lent.list] write [out, area])
}

/// The root of x, of crates/layout_calls.
pub fn root(x: f32) -> u64 {
    unsafe { exports::milofavurn_square_root(x) }
}

/// A pass of `hmap` into `out`, reported between the ends, and the record after it.
pub fn slide_pass(size: Sides, hmap: &[f32], out: &mut [f32], p: &Pass) -> (u64, Record) {
    let Pass { s, ends, mut r, stop } = *p;
    let word = lend!(exports::harness_slide_pass; value [size.0, size.1] read [hmap] write [out]
        value [s.threshold, s.strength, s.water_level, ends.0, ends.1, &mut r.last, &mut r.asked, &mut r.stopped, stop]);
    (word, r)
}

/// The same pass over the eight thresholds that the source makes of one: itself toward the sides, × `SQRT_2` toward the corners.
pub fn slide_pass_over(size: Sides, hmap: &[f32], out: &mut [f32], p: &Pass) -> (u64, Record) {
    let Pass { s, ends, mut r, stop } = *p;
    let (t, d) = (s.threshold, s.threshold * std::f32::consts::SQRT_2);
    let eight = [d, t, d, t, t, d, t, d];
    let word = lend!(exports::harness_slide_pass_over; value [size.0, size.1] read [hmap] write [out]
        value [&eight, s.strength, s.water_level, ends.0, ends.1, &mut r.last, &mut r.asked, &mut r.stopped, stop]);
    (word, r)
}
