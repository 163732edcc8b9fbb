//! The first part of the list: extent and normalisation of a map, block average, bilinear sample and sum.
use crate::list::{bits, call, word, List, Numbers, Task};
use crate::random::Random;
use crate::rules::{self, Sides};
use crate::terrain::fault::{COORDINATE, HEIGHT, LENGTH, OTHER_LENGTH, REDUCED, SIDE};
use crate::terrain::{bad_sides, faults, grid, map, some_spoilt, spoilt, FILL, KINDS, TINY};

pub fn list(l: &mut List, r: &mut Random) {
    extents(l, r);
    downsamples(l, r);
    sums(l, r);
    samples(l, r);
}

fn get_min_max(l: &mut List, v: &[f32]) {
    let a = rules::get_min_max(v);
    l.ended("get_min_max", &a);
    let least = Task { call: call::LEAST, read: v.to_vec(), ..Task::default() };
    l.plain(&least, word(&a, |x| bits(x.0)), &[]);
    l.plain(&Task { call: call::GREATEST, ..least }, word(&a, |x| bits(x.1)), &[]);
}

fn normalize(l: &mut List, v: &[f32], lo: f32, hi: f32) {
    let mut out = v.to_vec();
    let a = rules::normalize(&mut out, lo, hi);
    l.ended("normalize", &a);
    let t = Task { written: v.to_vec(), ..Task::of(call::NORMALIZE, Numbers::default(), &[lo, hi]) };
    l.plain(&t, word(&a, |_| 0), &out);
}

const TARGETS: [(f32, f32); 7] =
    [(0.0, 1.0), (1.0, 0.0), (-1.0, 1.0), (0.5, 0.5), (-0.0, -0.0), (-3e38, 3e38), (0.0, TINY)];
const BAD_TARGETS: [f32; 3] = [f32::NAN, f32::INFINITY, f32::NEG_INFINITY];

fn fixed_extents(l: &mut List) {
    let fixed: [&[f32]; 12] = [
        &[],
        &[0.0],
        &[-0.0],
        &[0.0, -0.0],
        &[-0.0, 0.0],
        &[-0.0, 0.0, -0.0],
        &[0.0, TINY],
        &[-3e38, 3e38],
        &[5.0, 5.0],
        &[1.0, 0.0],
        &[f32::MIN, f32::MAX],
        &[TINY, -TINY, 0.0],
    ];
    for v in fixed {
        get_min_max(l, v);
        for (lo, hi) in TARGETS {
            normalize(l, v, lo, hi);
        }
        for x in BAD_TARGETS {
            normalize(l, v, x, 1.0);
            normalize(l, v, 0.0, x);
        }
    }
}

fn extents(l: &mut List, r: &mut Random) {
    fixed_extents(l);
    for i in 0..260 {
        let n = r.within(1, if i % 16 == 0 { 60 } else { 12 });
        let v = map(r, n, i % KINDS);
        let (lo, hi) = r.pick(&TARGETS);
        get_min_max(l, &v);
        normalize(l, &v, lo, hi);
        if i % 4 == 0 {
            let s = spoilt(r, &v);
            get_min_max(l, &s);
            normalize(l, &s, lo, hi);
            normalize(l, &s, lo, r.pick(&BAD_TARGETS));
        }
    }
}

fn reduced(r: &mut Random, size: Sides) -> Sides {
    (r.within(1, size.0), r.within(1, size.1))
}

fn downsample(l: &mut List, src: &[f32], size: Sides, len: usize, small: Sides) {
    let written = vec![FILL; len];
    let mut dst = written.clone();
    let a = rules::downsample(src, size, &mut dst, small);
    l.ended("downsample", &a);
    let numbers = Numbers { size, reduced: small, ..Numbers::default() };
    let t = Task { read: src.to_vec(), written, ..Task::of(call::DOWNSAMPLE, numbers, &[]) };
    l.plain(&t, word(&a, |_| 0), &dst);
}

fn add_upsampled(l: &mut List, map: &[f32], size: Sides, delta: &[f32], small: Sides) {
    let mut out = map.to_vec();
    let a = rules::add_upsampled(&mut out, size, delta, small);
    l.ended("add_upsampled", &a);
    let numbers = Numbers { size, reduced: small, ..Numbers::default() };
    let t = Task { read: delta.to_vec(), written: map.to_vec(), ..Task::of(call::ADD_UPSAMPLED, numbers, &[]) };
    l.plain(&t, word(&a, |_| 0), &out);
}

fn bilinear(l: &mut List, v: &[f32], x: f32, y: f32, size: Sides) {
    let a = rules::bilinear(v, x, y, size);
    l.ended("bilinear", &a);
    let numbers = Numbers { size, ..Numbers::default() };
    let t = Task { read: v.to_vec(), ..Task::of(call::BILINEAR, numbers, &[x, y]) };
    l.plain(&t, word(&a, |x| bits(*x)), &[]);
}

/// each set of faults is tried so often
const TRIES: usize = 6;

fn bad_reduced(r: &mut Random, size: Sides, small: Sides) -> Sides {
    r.pick(&[(0, small.1), (small.0, 0), (size.0 + 1, small.1), (small.0, size.1 + 1)])
}

fn downsamples(l: &mut List, r: &mut Random) {
    for i in 0..150 {
        let size = grid(r, i, if i % 10 == 0 { 40 } else { 14 });
        let small = reduced(r, size);
        let src = some_spoilt(r, i, size.0 * size.1, i % KINDS);
        downsample(l, &src, size, small.0 * small.1, small);
    }
    for (size, small) in
        [((1, 1), (1, 1)), ((3, 1), (2, 1)), ((9, 9), (9, 9)), ((4096, 1), (3, 1)), ((1, 4096), (1, 5))]
    {
        let src = map(r, size.0 * size.1, 3);
        downsample(l, &src, size, small.0 * small.1, small);
    }
    for (w, h) in [(4097, 1), (1, 4097)] {
        downsample(l, &map(r, 4097, 1), (w, h), 1, (1, 1));
    }
    for f in faults(&[SIDE, REDUCED, LENGTH, OTHER_LENGTH, HEIGHT]).repeat(TRIES) {
        let t = faulty(r, f);
        let src = if f & HEIGHT != 0 { spoilt(r, &t.full) } else { t.full };
        downsample(l, &src, t.size, t.reduced.len(), t.small);
    }
}

/// Two grids with faults in their sides and lengths.
struct Faulty {
    size: Sides,
    small: Sides,
    full: Vec<f32>,
    reduced: Vec<f32>,
}

fn faulty(r: &mut Random, f: u32) -> Faulty {
    let mut size = (r.within(1, 6), r.within(2, 6));
    let mut small = reduced(r, size);
    if f & REDUCED != 0 {
        small = bad_reduced(r, size, small);
    }
    let (mut n, mut len) = (size.0 * size.1, small.0 * small.1);
    if f & LENGTH != 0 {
        n = r.pick(&[n - 1, n + 1]);
    }
    if f & OTHER_LENGTH != 0 {
        len = if len > 1 { r.pick(&[len - 1, len + 1]) } else { len + 1 };
    }
    if f & SIDE != 0 {
        size = bad_sides(r, size);
    }
    Faulty { size, small, full: map(r, n, 0), reduced: map(r, len, 0) }
}

fn sums(l: &mut List, r: &mut Random) {
    for i in 0..150 {
        let size = grid(r, i, if i % 10 == 0 { 40 } else { 12 });
        let small = if i % 5 == 4 { size } else { reduced(r, size) };
        let before = some_spoilt(r, i, size.0 * size.1, i % KINDS);
        let delta = some_spoilt(r, i + 3, small.0 * small.1, (i / 7) % KINDS);
        add_upsampled(l, &before, size, &delta, small);
    }
    for (size, small) in [((4, 1), (2, 1)), ((1, 1), (1, 1)), ((4096, 1), (7, 1)), ((1, 4096), (1, 4096))] {
        let before = map(r, size.0 * size.1, 0);
        let delta = map(r, small.0 * small.1, 0);
        add_upsampled(l, &before, size, &delta, small);
    }
    for i in 0..20 {
        let size = grid(r, i, 6);
        let small = reduced(r, size);
        let (before, delta) = (map(r, size.0 * size.1, 5), map(r, small.0 * small.1, 5));
        add_upsampled(l, &before, size, &delta, small);
    }
    for f in faults(&[SIDE, REDUCED, LENGTH, OTHER_LENGTH, HEIGHT]).repeat(TRIES) {
        let mut t = faulty(r, f);
        // in either grid, or in both, where the full one comes first
        let which = r.below(3);
        if f & HEIGHT != 0 && which != 0 {
            t.full = spoilt(r, &t.full);
        }
        if f & HEIGHT != 0 && which != 1 && !t.reduced.is_empty() {
            t.reduced = spoilt(r, &t.reduced);
        }
        add_upsampled(l, &t.full, t.size, &t.reduced, t.small);
    }
}

/// A coordinate from 0 to below the side: whole, half, just below the far edge, or anywhere.
fn coordinate(r: &mut Random, side: usize) -> f32 {
    let whole = r.below(side) as f32;
    match r.below(6) {
        0 => whole,
        1 => whole + 0.5,
        2 => f32::from_bits((side as f32).to_bits() - 1),
        3 => r.pick(&[0.0, -0.0, TINY]),
        4 => side as f32 - 1.0,
        _ => f32::from_bits((side as f32).to_bits() - 1).min(r.unit() * side as f32),
    }
}

fn samples(l: &mut List, r: &mut Random) {
    for i in 0..420 {
        let size = grid(r, i, if i % 40 == 0 { 40 } else { 5 });
        let v = some_spoilt(r, i, size.0 * size.1, i % KINDS);
        let (x, y) = (coordinate(r, size.0), coordinate(r, size.1));
        bilinear(l, &v, x, y, size);
    }
    let v = [1.0, 2.0, 3.0, 4.0];
    for (x, y) in [(1.5, 0.5), (0.5, 0.5), (0.5, 1.5), (1.5, 1.5), (1.0, 1.0), (0.0, 1.25)] {
        bilinear(l, &v, x, y, (2, 2));
    }
    for x in [f32::NAN, f32::INFINITY, f32::NEG_INFINITY, -TINY, -1.0, 2.0, f32::MAX] {
        bilinear(l, &v, x, 0.5, (2, 2));
        bilinear(l, &v, 0.5, x, (2, 2));
    }
    for f in faults(&[SIDE, LENGTH, COORDINATE, HEIGHT]).repeat(TRIES) {
        let t = faulty(r, f);
        let v = if f & HEIGHT != 0 { spoilt(r, &t.full) } else { t.full };
        let (mut x, mut y) = (r.unit(), r.unit());
        if f & COORDINATE != 0 {
            let bad = r.pick(&[f32::NAN, t.size.0.max(t.size.1) as f32, -1.0]);
            (x, y) = r.pick(&[(bad, y), (x, bad), (bad, bad)]);
        }
        bilinear(l, &v, x, y, t.size);
    }
}
