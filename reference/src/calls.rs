//! The library's passes as crates/harness exports them. An answer is one word: the number × 2^32 plus the place that it
//! carries, 0 if none refuses.
use crate::answer::{Record, Sides};
use crate::exports;
use crate::lend::lend;
use crate::talus::Pass;

/// A pass of `heights` into `out` over the thresholds of `p`, and the record after it.
pub fn slide_pass_over(size: Sides, heights: &[f32], out: &mut [f32], p: &Pass) -> (u64, Record) {
    let Pass { thresholds, ends, record: mut r, .. } = *p;
    let word = lend!(exports::harness_slide_pass_over; value [size.0, size.1] read [heights] write [out]
        value [&thresholds, p.strength, p.water_level, ends.0, ends.1, &mut r.last, &mut r.asked, &mut r.stopped, p.stop]);
    (word, r)
}

/// The same pass by one threshold, in the place of those of `p`.
pub fn slide_pass(size: Sides, heights: &[f32], out: &mut [f32], threshold: f32, p: &Pass) -> (u64, Record) {
    let Pass { ends, record: mut r, .. } = *p;
    let word = lend!(exports::harness_slide_pass; value [size.0, size.1] read [heights] write [out]
        value [threshold, p.strength, p.water_level, ends.0, ends.1, &mut r.last, &mut r.asked, &mut r.stopped, p.stop]);
    (word, r)
}
