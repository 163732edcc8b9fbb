//! The functions of crates/harness and crates/layout_calls that the bench and the comparisons call, by the C convention: a slice passes as pointer
//! and length, an array as a pointer.
#![allow(dead_code)]

extern "C" {
    pub fn milofavurn_square_root(x: f32) -> u64;

    pub fn harness_route(
        w: usize,
        h: usize,
        hmap: *const f32,
        hmap_len: usize,
        water_level: f32,
        order: *mut u32,
        order_len: usize,
        recv: *mut u32,
        recv_len: usize,
        spill: *mut f32,
        spill_len: usize,
        area: *mut f32,
        area_len: usize,
        queue: *mut u32,
        queue_len: usize,
        status: *mut u8,
        status_len: usize,
    ) -> u64;

    pub fn harness_incise(
        w: usize,
        h: usize,
        hmap: *const f32,
        hmap_len: usize,
        k: f32,
        uplift: f32,
        water_level: f32,
        recv: *const u32,
        recv_len: usize,
        order: *const u32,
        order_len: usize,
        out: *mut f32,
        out_len: usize,
        area: *mut f32,
        area_len: usize,
    ) -> u64;

    pub fn harness_carve(
        w: usize,
        h: usize,
        hmap: *const f32,
        hmap_len: usize,
        k: f32,
        uplift: f32,
        water_level: f32,
        order: *mut u32,
        order_len: usize,
        recv: *mut u32,
        recv_len: usize,
        out: *mut f32,
        out_len: usize,
        area: *mut f32,
        area_len: usize,
        queue: *mut u32,
        queue_len: usize,
        status: *mut u8,
        status_len: usize,
    ) -> u64;

    pub fn harness_slide_pass(
        w: usize,
        h: usize,
        hmap: *const f32,
        hmap_len: usize,
        out: *mut f32,
        out_len: usize,
        threshold: f32,
        strength: f32,
        water_level: f32,
        from: f32,
        to: f32,
        last: *mut f32,
        asked: *mut u32,
        stopped: *mut bool,
        stop: u32,
    ) -> u64;

    pub fn harness_slide_pass_over(
        w: usize,
        h: usize,
        hmap: *const f32,
        hmap_len: usize,
        out: *mut f32,
        out_len: usize,
        thresholds: *const [f32; 8],
        strength: f32,
        water_level: f32,
        from: f32,
        to: f32,
        last: *mut f32,
        asked: *mut u32,
        stopped: *mut bool,
        stop: u32,
    ) -> u64;
}
