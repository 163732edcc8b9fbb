//! The working sides against the formula of `work_size` in the published source's resample.rs, in Rust's own f32.
use crate::random::Random;
use layout_host::{working_sides, Refusal};

const LARGEST: usize = 4096;

/// The formula of wgen's `work_size`: a map whose longest side fits is kept; else each side is multiplied by max_res / longest in binary32,
/// rounded half away from zero, and at least 1.
fn formula(w: usize, h: usize, max_res: u32) -> (usize, usize) {
    let longest = w.max(h);
    if longest <= max_res as usize {
        return (w, h);
    }
    let coef = max_res as f32 / longest as f32;
    let side = |s: usize| ((s as f32 * coef).round() as usize).max(1);
    (side(w), side(h))
}

fn compare(w: usize, h: usize, max_res: u32) {
    let good = (1..=LARGEST).contains(&w) && (1..=LARGEST).contains(&h);
    let expected = if good { Ok(formula(w, h, max_res)) } else { Err(Refusal(1)) };
    assert_eq!(working_sides(w, h, max_res), expected, "{w} x {h} at {max_res}");
}

#[test]
fn every_small_one() {
    for w in 0..=80 {
        for h in 0..=80 {
            for max_res in 0..=84 {
                compare(w, h, max_res);
            }
        }
    }
}

/// Every side against every working side below it, in turn the width and the height.
#[test]
fn every_side() {
    let mut random = Random::new(3);
    for side in 1..=LARGEST {
        for max_res in 0..=side as u32 {
            let other = 1 + random.below(side);
            if max_res % 2 == 0 {
                compare(side, other, max_res);
            } else {
                compare(other, side, max_res);
            }
        }
    }
}

#[test]
fn bad_sides() {
    for bad in [0, LARGEST + 1, 65_536, 1 << 32, (1 << 32) + 1, usize::MAX] {
        for max_res in [0, 1, 512, u32::MAX] {
            compare(bad, 1, max_res);
            compare(1, bad, max_res);
            compare(bad, bad, max_res);
        }
    }
}

#[test]
fn any_working_side() {
    for (w, h) in [(1, 1), (LARGEST, LARGEST), (LARGEST, 1), (513, 300)] {
        for max_res in [0, 1, 2, 511, 4095, 4096, 4097, 1 << 24, (1 << 24) + 1, u32::MAX] {
            compare(w, h, max_res);
        }
    }
}

/// Document 01's plates, and two that differ from exact rounding.
#[test]
fn plates() {
    assert_eq!(working_sides(4, 3, 2), Ok((2, 2)));
    assert_eq!(working_sides(513, 513, 512), Ok((512, 512)));
    compare(22, 11, 13);
    compare(38, 19, 27);
}
