//! Numbers and maps: root, working sides, stop marks, extent, normalisation, block average, sum and sample.
use super::exported;
use super::tally::{number, same, shown, word, Tally};
use crate::calls;
use crate::random::Random;
use crate::rules::{self, Sides};
use crate::source::Record;
use crate::terrain::{bad_length, bad_sides, grid, map, not_finite, outside, some_spoilt, FILL, KINDS};

pub fn root(t: &mut Tally, r: &mut Random, i: usize) {
    let x = f32::from_bits(if i % 8 == 0 { r.word() } else { r.word() >> 1 });
    let a = rules::root(x);
    let alike = calls::root(x) == word(&a, |y| y.to_bits() as u64);
    t.compared("root", number(&a), alike, 1, || format!("{:08x}", x.to_bits()));
}

pub fn work_size(t: &mut Tally, r: &mut Random, i: usize) {
    let mut size = (r.within(1, 4096), r.within(1, 4096));
    let longest = size.0.max(size.1);
    let res = if i % 8 == 1 { r.word() } else { r.below(longest + 3) as u32 };
    if i % 16 == 0 {
        size = bad_sides(r, size);
    }
    let a = rules::work_size(size, res);
    let alike = exported::work_size(size, res) == word(&a, |s| (s.0 * 65536 + s.1) as u64);
    t.compared("work_size", number(&a), alike, size.0.saturating_mul(size.1), || format!("{size:?} at {res}"));
}

fn same_record(a: Record, b: Record) -> bool {
    (a.last.to_bits(), a.asked, a.stopped) == (b.last.to_bits(), b.asked, b.stopped)
}

/// A row of reports from a record, p rising.
pub fn reports(t: &mut Tally, r: &mut Random, i: usize) {
    let (steps, asked) = (r.within(1, 130), r.pick(&[0, 0, 0, 5, (1 << 31) - 1, 1 << 31, u32::MAX]));
    let last = if i % 16 == 3 { outside(r, -1.0, 1.0) } else { r.pick(&[-1.0, 0.0, 0.25, 1.0]) };
    let mut m = if i % 2 == 0 { Record::FRESH } else { Record { last, asked, stopped: r.below(9) == 0 } };
    let stop = if r.below(3) == 0 { 0 } else { m.asked.wrapping_add(r.within(0, steps + 1) as u32) };
    for step in 0..=steps {
        let p = if r.below(40) == 0 { outside(r, 0.0, 1.0) } else { step as f32 / steps as f32 };
        let (a, after) = rules::report(m, p, stop);
        let (w, ours) = exported::report(m, p, stop);
        let alike = w == word(&a, |on| *on as u64) && same_record(ours, after);
        t.compared("report", number(&a), alike, 1, || format!("{m:?}, p {:08x}, S {stop}", p.to_bits()));
        m = after;
    }
}

pub fn extent(t: &mut Tally, r: &mut Random, i: usize) {
    let n = r.within(0, 60);
    let v = if n == 0 { Vec::new() } else { some_spoilt(r, i / KINDS, n, i % KINDS) };
    let a = rules::get_min_max(&v);
    let (least, greatest) = exported::get_min_max(&v);
    let alike = least == word(&a, |m| m.0.to_bits() as u64) && greatest == word(&a, |m| m.1.to_bits() as u64);
    t.compared("get_min_max", number(&a), alike, n, || shown((n, 1), &v));
    let ends = [(0.0, 1.0), (-1.0, 1.0), (r.unit(), -r.unit()), (r.finite(), r.finite())];
    let (mut lo, hi) = r.pick(&ends);
    if r.below(12) == 0 {
        lo = not_finite(r);
    }
    let (mut ours, mut theirs) = (v.clone(), v.clone());
    let a = rules::normalize(&mut theirs, lo, hi);
    let w = exported::normalize(&mut ours, lo, hi);
    let alike = w == word(&a, |_| 0) && same(&ours, &theirs);
    t.compared("normalize", number(&a), alike, n, || format!("{lo:?} to {hi:?}, {}", shown((n, 1), &v)));
}

/// Reduced sides, one in sixteen of them bad, with a length to go with them.
fn reduced(r: &mut Random, size: Sides) -> (Sides, usize) {
    let mut small = (r.within(1, size.0), r.within(1, size.1));
    if r.below(16) == 0 {
        small = r.pick(&[(0, small.1), (small.0, 0), (size.0 + 1, small.1), (small.0, size.1 + 1)]);
    }
    let n = small.0 * small.1;
    (small, if n > 0 && r.below(16) == 0 { bad_length(r, n) } else { n })
}

/// A grid with its map; a side or the length of one in twenty is bad.
fn full(r: &mut Random, i: usize) -> (Sides, Sides, Vec<f32>) {
    let good = grid(r, i, if i % 10 == 0 { 40 } else { 12 });
    let n = good.0 * good.1;
    let len = if r.below(20) == 0 { bad_length(r, n) } else { n };
    let v = if len == 0 { Vec::new() } else { some_spoilt(r, i / KINDS, len, i % KINDS) };
    let size = if r.below(20) == 0 { bad_sides(r, good) } else { good };
    (good, size, v)
}

pub fn downsample(t: &mut Tally, r: &mut Random, i: usize) {
    let (good, size, src) = full(r, i);
    let (small, len) = reduced(r, good);
    let (mut ours, mut theirs) = (vec![FILL; len], vec![FILL; len]);
    let a = rules::downsample(&src, size, &mut theirs, small);
    let w = exported::downsample(&src, size, &mut ours, small);
    let alike = w == word(&a, |_| 0) && same(&ours, &theirs);
    t.compared("downsample", number(&a), alike, src.len(), || format!("to {small:?}, {}", shown(size, &src)));
}

pub fn add_upsampled(t: &mut Tally, r: &mut Random, i: usize) {
    let (good, size, before) = full(r, i);
    let (small, len) = reduced(r, good);
    let delta = if len == 0 { Vec::new() } else { some_spoilt(r, i / KINDS + 3, len, i / 3 % KINDS) };
    let (mut ours, mut theirs) = (before.clone(), before.clone());
    let a = rules::add_upsampled(&mut theirs, size, &delta, small);
    let w = exported::add_upsampled(&mut ours, size, &delta, small);
    let alike = w == word(&a, |_| 0) && same(&ours, &theirs);
    let input = || format!("{} and {}", shown(size, &before), shown(small, &delta));
    t.compared("add_upsampled", number(&a), alike, before.len(), input);
}

pub fn bilinear(t: &mut Tally, r: &mut Random, i: usize) {
    let (good, size, v) = full(r, i);
    let below = |side: usize| f32::from_bits((side as f32).to_bits() - 1);
    let at = |r: &mut Random, side: usize| match r.below(24) {
        0 => outside(r, 0.0, side as f32),
        1 | 2 => below(side),
        3 => r.below(side) as f32,
        _ => (r.unit() * side as f32).min(below(side)),
    };
    let (x, y) = (at(r, good.0), at(r, good.1));
    let a = rules::bilinear(&v, x, y, size);
    let alike = exported::bilinear(&v, x, y, size) == word(&a, |s| s.to_bits() as u64);
    let input = || format!("at {:08x}, {:08x}, {}", x.to_bits(), y.to_bits(), shown(size, &v));
    t.compared("bilinear", number(&a), alike, v.len(), input);
}

/// Both ways of a large map.
pub fn large(t: &mut Tally, r: &mut Random, size: Sides, small: Sides) {
    let src = map(r, size.0 * size.1, 0);
    let n = small.0 * small.1;
    let (mut ours, mut theirs) = (vec![FILL; n], vec![FILL; n]);
    let a = rules::downsample(&src, size, &mut theirs, small);
    let w = exported::downsample(&src, size, &mut ours, small);
    let alike = w == word(&a, |_| 0) && same(&ours, &theirs);
    t.compared("downsample", number(&a), alike, src.len(), || format!("to {small:?}, {}", shown(size, &src)));
    let (mut a_map, mut b_map) = (src.clone(), src.clone());
    let a = rules::add_upsampled(&mut b_map, size, &theirs, small);
    let w = exported::add_upsampled(&mut a_map, size, &theirs, small);
    let alike = w == word(&a, |_| 0) && same(&a_map, &b_map);
    t.compared("add_upsampled", number(&a), alike, src.len(), || shown(size, &src));
}
