//! Worked examples of document 02, by their bits.
use crate::inputs::{whole, MOST};
use crate::talus::{prepared, slide_pass_over};

fn slid(size: (usize, usize), heights: &[f32], thresholds: [f32; 8]) -> Vec<u32> {
    let mut out = vec![0.0; heights.len()];
    let (a, _) = slide_pass_over(size, heights, &mut out, &whole(thresholds, 0.5, 0.0));
    assert_eq!(a, Ok(()));
    out.iter().map(|x| x.to_bits()).collect()
}

#[test]
fn each_excess_over_its_own_threshold() {
    let left = slid((2, 2), &[4.0, 3.0, 2.0, 1.0], [MOST, MOST, MOST, MOST, 0.0, MOST, 1.0, 2.0]);
    assert_eq!(left, [0x4060_0000, 0x402a_aaab, 0x3fd5_5556, 0x400a_aaaa]);
}

#[test]
fn each_direction_has_its_own_threshold() {
    let heights = [21.0, 18.0, 15.0, 12.0, 24.0, 9.0, 6.0, 3.0, 0.0];
    let left = slid((3, 3), &heights, [2.0, 5.0, 8.0, 11.0, 14.0, 17.0, 20.0, 23.0]);
    let mut wanted = heights.map(|height: f32| height + 0.0625);
    wanted[4] = 23.5;
    assert_eq!(left, wanted.map(f32::to_bits));
}

#[test]
fn the_eight_of_one_threshold() {
    let left = slid((2, 2), &[4.0, 3.0, 2.0, 1.0], prepared(1.0));
    assert_eq!(left, [0x404d_413d, 0x4020_0000, 0x4013_9fea, 0x3ffe_3db4]);
}

#[test]
fn prepared_thresholds() {
    let corner = 0x3f35_04f3;
    let side = 0.5f32.to_bits();
    assert_eq!(prepared(0.5).map(f32::to_bits), [corner, side, corner, side, side, corner, side, corner]);
}
