//! The library's calls on maps and reports as crates/harness_calls exports them, and on numbers as crates/layout_calls does. An answer is one
//! word: document 01's number × 2^32 plus the place that it carries, or the value where nothing is refused.
use crate::lend::lend;
use crate::rules::Sides;
use crate::source::Record;

mod exported {
    extern "C" {
        pub fn harness_least(v: *const f32, len: usize) -> u64;
        pub fn harness_greatest(v: *const f32, len: usize) -> u64;
        pub fn harness_normalize(v: *mut f32, len: usize, lo: f32, hi: f32) -> u64;
        pub fn harness_downsample(
            src: *const f32,
            src_len: usize,
            w: usize,
            h: usize,
            dst: *mut f32,
            dst_len: usize,
            dw: usize,
            dh: usize,
        ) -> u64;
        pub fn harness_add_upsampled(
            map: *mut f32,
            map_len: usize,
            w: usize,
            h: usize,
            delta: *const f32,
            delta_len: usize,
            dw: usize,
            dh: usize,
        ) -> u64;
        pub fn harness_bilinear(v: *const f32, len: usize, x: f32, y: f32, w: usize, h: usize) -> u64;
        pub fn harness_report(last: *mut f32, asked: *mut u32, stopped: *mut bool, p: f32, stop: u32) -> u64;
        pub fn milofavurn_working_sides(w: usize, h: usize, max_res: u32) -> u64;
    }
}

/// The words of min and of max.
pub fn get_min_max(v: &[f32]) -> (u64, u64) {
    (lend!(exported::harness_least; read [v]), lend!(exported::harness_greatest; read [v]))
}

pub fn normalize(v: &mut [f32], lo: f32, hi: f32) -> u64 {
    lend!(exported::harness_normalize; write [v] value [lo, hi])
}

pub fn downsample(src: &[f32], size: Sides, dst: &mut [f32], small: Sides) -> u64 {
    lend!(exported::harness_downsample; read [src] value [size.0, size.1] write [dst] value [small.0, small.1])
}

pub fn add_upsampled(map: &mut [f32], size: Sides, delta: &[f32], small: Sides) -> u64 {
    lend!(exported::harness_add_upsampled; write [map] value [size.0, size.1] read [delta] value [small.0, small.1])
}

pub fn bilinear(v: &[f32], x: f32, y: f32, size: Sides) -> u64 {
    lend!(exported::harness_bilinear; read [v] value [x, y, size.0, size.1])
}

pub fn work_size(size: Sides, max_res: u32) -> u64 {
    unsafe { exported::milofavurn_working_sides(size.0, size.1, max_res) }
}

/// A report: 1 to go on, 0 to stop, or a refusal; and the record after it.
pub fn report(r: Record, p: f32, stop: u32) -> (u64, Record) {
    let mut r = r;
    let word = lend!(exported::harness_report; value [&mut r.last, &mut r.asked, &mut r.stopped, p, stop]);
    (word, r)
}
