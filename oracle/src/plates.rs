//! Document 01's worked examples, tried on the source with its stand-ins.
use crate::random::Random;
use crate::rules;
use crate::rules::runs::Counts;
use crate::rules::streams::{relief, Asked, Kind};
use crate::source::erosion::*;
use crate::source::fluvial_erosion::{fluvial_plan, rate};
use crate::source::thermal_erosion::thermal_plan;
use crate::streams::{stream, EXAMPLE};

#[test]
fn routing() {
    let a = route((3, 3), &[5.0, 5.0, 5.0, 5.0, 1.0, 4.0, 5.0, 5.0, 5.0], 0.0);
    assert_eq!(a.order, [5, 4, 0, 1, 2, 3, 6, 7, 8]);
    assert_eq!((a.spill[4], a.recv[4], a.area[5]), (4.0, 5, 2.0));
    let b = route((3, 3), &[3.0, 4.0, 9.0, 9.0, 10.0, 9.0, 9.0, 9.0, 9.0], 0.0);
    assert_eq!(b.order, [0, 1, 2, 3, 5, 6, 7, 8, 4]);
    assert_eq!(b.recv[4], 1);
}

#[test]
fn incision() {
    for (height, uplift, after) in [(1.0, 0.0, 0.5), (1.0, 0.5, 0.75), (0.0, 0.5, 0.0)] {
        let mut h = [height];
        let s = Incision { k: 1.0, uplift, water_level: 0.0 };
        incise((1, 1), &mut h, &[0], &[0], &s);
        assert_eq!(h, [after]);
    }
}

#[test]
fn talus() {
    for (threshold, water_level, after) in [(0.5, 1.0, [0.75, 0.25]), (1.0, 1.0, [1.0, 0.0]), (0.5, 2.0, [1.0, 0.0])] {
        let h = [1.0, 0.0];
        let mut out = h;
        let s = Talus { threshold, strength: 0.5, water_level };
        let (on, _) = slide_pass((2, 1), &h, &mut out, &Pass::whole(s));
        assert!(on);
        assert_eq!(out, after);
    }
}

#[test]
fn resampling() {
    assert_eq!(rules::work_size((4, 3), 2), Ok((2, 2)));
    assert_eq!(rules::work_size((513, 513), 512), Ok((512, 512)));
    let mut dst = [0.0; 2];
    assert_eq!(rules::downsample(&[1.0, 3.0, 5.0], (3, 1), &mut dst, (2, 1)), Ok(()));
    assert_eq!(dst, [2.0, 5.0]);
    let mut map = [0.0; 4];
    assert_eq!(rules::add_upsampled(&mut map, (4, 1), &[0.0, 4.0], (2, 1)), Ok(()));
    assert_eq!(map, [0.0, 1.0, 3.0, 4.0]);
    assert_eq!(rules::bilinear(&[1.0, 2.0, 3.0, 4.0], 1.5, 0.5, (2, 2)), Ok(2.5));
}

/// The stream's example: one cell, with S none, 1 and 2.
#[test]
fn one_cell() {
    let s = EXAMPLE;
    for (stop, bits, asked, stopped) in
        [(0, 0x3f7c_0fc1, 2, false), (1, 0x3f80_0000, 1, true), (2, 0x3f7c_0fc1, 2, true)]
    {
        let mut map = [1.0f32];
        let r = gen_fluvial_erosion((1, 1), &mut map, &s, stop);
        assert_eq!((map[0].to_bits(), r.asked, r.stopped), (bits, asked, stopped));
    }
}

/// The bytes that the stream's example prints, with S none, 1 and 2.
#[test]
fn printed() {
    let end = |number: u8, counts: [u8; 3]| {
        let mut end = vec![0x45, 0x4e, number, 0];
        for n in counts {
            end.extend([n, 0, 0, 0]);
        }
        end
    };
    let head = [0x47, 0x52, 1, 0, 1, 0, 0x52, 0x57];
    let (incised, as_it_came) = ([0xc1, 0x0f, 0x7c, 0x3f], [0, 0, 0x80, 0x3f]);
    for (stop, height, end) in
        [(0, incised, end(0, [1, 1, 2])), (1, as_it_came, end(21, [0, 0, 1])), (2, incised, end(21, [1, 0, 2]))]
    {
        let a = Asked { kind: Kind::Fluvial, size: (1, 1), s: EXAMPLE, stop, map: vec![1.0] };
        assert_eq!(relief(&stream(&a)).bytes, [&head[..], &height, &end].concat());
    }
    assert_eq!(relief(&[]).bytes, end(8, [0; 3]));
    assert_eq!(relief(&[0x47, 0x52, 0, 0, 1, 0]).bytes, end(1, [0; 3]));
    assert_eq!(relief(&[0x47, 0x52, 1, 16, 1, 16]).bytes, end(1, [0; 3]));
    assert_eq!(relief(&[0x47, 0x52, 65, 0, 64, 0]).bytes, end(9, [0; 3]));
    assert_eq!(relief(&[0x47, 0x52, 64, 0, 64, 0]).bytes, end(8, [0; 3]));
}

/// `PlanExamples` of crates/run_machine/specs/Examples.antt: the settings on a working grid whose longest side is 600.
#[test]
fn plans() {
    let s = Settings { water_level: 0.12, strength: 0.6, talus: 0.2, uplift: 0.25, iterations: 3, work_res: 600 };
    for size in [(300, 600), (600, 300)] {
        let (work, p) = fluvial_plan(size, &fluvial_conf(&s), s.water_level);
        assert_eq!((work, p.iterations, p.talus.passes), (size, 3, 2));
        assert_eq!((p.k.to_bits(), p.uplift, p.water_level), (0x40b4_0000, 0.25, 0.12));
        assert_eq!((p.talus.threshold.to_bits(), p.talus.diag_threshold.to_bits()), (0x3c86_37bd, 0x3cbd_d002));
        assert_eq!((p.talus.strength, p.talus.water_level), (0.5, 0.12));
        assert_eq!(fluvial_plan(size, &fluvial_conf(&Settings { iterations: 0, ..s }), 0.12).1.iterations, 1);
        for (talus, threshold) in [(0.2, 0x3c86_37bd), (0.25, 0x3c6b_edf9), (0.4, 0x3c16_feb5)] {
            let (_, p) = thermal_plan(size, &thermal_conf(&Settings { talus, ..s }), s.water_level);
            assert_eq!((p.threshold.to_bits(), p.strength, p.water_level), (threshold, 0.6, 0.12));
        }
    }
    for (size, iterations, passes) in
        [((300, 600), 0, 1), ((300, 600), 1, 2), ((300, 600), 5, 6), ((512, 1), 5, 5), ((4096, 1), 4096, 32768)]
    {
        let s = Settings { iterations, work_res: 4096, ..s };
        assert_eq!(thermal_plan(size, &thermal_conf(&s), s.water_level).1.passes, passes);
    }
}

/// The fractions of the same file: each the last one of a record that is stopped there, on maps of one row.
#[test]
fn fractions() {
    let s = Settings { water_level: 0.12, strength: 0.6, talus: 0.2, uplift: 0.25, iterations: 3, work_res: 4096 };
    let asked = [
        [0, 0x3e2a_aaab, 0x3e80_0000],
        [0x3eaa_aaab, 0x3f00_0000, 0x3f15_5555],
        [0x3f2a_aaab, 0x3f55_5555, 0x3f6a_aaab],
    ];
    for (stop, &p) in asked.as_flattened().iter().enumerate() {
        let r = gen_fluvial_erosion((600, 1), &mut [1.0; 600], &s, stop as u32 + 1);
        assert_eq!((r.last.to_bits(), r.stopped), (p, true));
    }
    let r = gen_fluvial_erosion((1200, 1), &mut [1.0; 1200], &s, 7);
    assert_eq!((r.last.to_bits(), r.stopped), (0x3f0e_38e3, true));
    let five = Settings { iterations: 5, ..s };
    for (stop, p) in [0, 0x3e2a_aaab, 0x3eaa_aaab, 0x3f00_0000, 0x3f2a_aaab, 0x3f55_5555].into_iter().enumerate() {
        let r = gen_thermal_erosion((600, 1), &mut [1.0; 600], &five, stop as u32 + 1);
        assert_eq!((r.last.to_bits(), r.stopped), (p, true));
    }
}

/// `RunExamples` of the same file.
#[test]
fn small_runs() {
    let s = Settings { water_level: 6.0, strength: 1.0, talus: 0.5, uplift: 0.25, iterations: 1, work_res: 512 };
    let mut map = [8.0, 5.0, 1.0];
    let run = rules::runs::gen_fluvial_erosion((1, 3), &mut map, &s, 0, &[]);
    assert_eq!((run.answer, run.counts), (Ok(()), Counts { incisions: 1, passes: 1, questions: 4 }));
    assert_eq!(map.map(f32::to_bits), [0x40e7_880a, 0x40be_9248, 0x3f80_0000]);
    let mut map = [8.0, 2.0];
    let run = rules::runs::gen_thermal_erosion(
        (2, 1),
        &mut map,
        &Settings { water_level: 0.12, strength: 0.6, talus: 0.2, iterations: 5, ..s },
        0,
        &[],
    );
    assert_eq!((run.answer, run.counts), (Ok(()), Counts { incisions: 0, passes: 1, questions: 1 }));
    assert_eq!(map.map(f32::to_bits), [0x40eb_2bfe, 0x4029_a804]);
    let mut map = [8.0, 6.0, 4.0, 1.0];
    let run =
        rules::runs::gen_fluvial_erosion((4, 1), &mut map, &Settings { water_level: 0.0, work_res: 2, ..s }, 0, &[]);
    assert_eq!((run.answer, run.counts), (Ok(()), Counts { incisions: 1, passes: 1, questions: 2 }));
    assert_eq!(map.map(f32::to_bits), [0x40db_42ca, 0x40af_e6a1, 0x4099_2e50, 0x401b_a44d]);
    // along the flood's list, and along one in which cell 4 stands before the cell that it drains into
    let map = [3.0, 3.0, 3.0, 3.0, 4.0, 1.0, 3.0, 3.0, 3.0];
    let net = route((3, 3), &map, 0.0);
    let k = fluvial_plan((3, 3), &fluvial_conf(&s), 0.0).1.k;
    for (list, centre) in [(net.order, 0x4086_8280), (vec![4, 0, 1, 2, 3, 5, 6, 7, 8], 0x4086_6666)] {
        let mut cut = map;
        incise((3, 3), &mut cut, &net.recv, &list, &Incision { k, uplift: 0.25, water_level: 0.0 });
        let rest = [0x404c_cccd; 4];
        assert_eq!(cut.map(f32::to_bits), *[&rest[..], &[centre, 0x3f9c_8a78], &rest[..3]].concat());
    }
}

/// The floor of areas: `FloorExample` of crates/incision_rates/specs/Rate.antt.
#[test]
fn area_floor() {
    assert_eq!(rate(1.0, 10006.0, 1.0).to_bits(), 0x3c23_d70a);
}

/// The example of crates/run_other_lists/specs/OtherLists.antt: the second routing's heights, the receivers of both, and
/// the run's end.
#[test]
fn two_inner_cells() {
    let map = [5.0, 5.0, 8.0, 6.0, 3.0, 4.0, 1.0, 8.0, 6.0, 4.0, 2.0, 8.0];
    let s = Settings { water_level: 0.0, strength: 1.0, talus: 0.5, uplift: 0.25, iterations: 1, work_res: 512 };
    let mut second = map;
    gen_fluvial_erosion((4, 3), &mut second, &s, 0);
    let heights = [
        [0x4094_f323, 0x408c_f598, 0x40a5_643e, 0x409c_d6a7],
        [0x4090_404f, 0x4081_1036, 0x411a_eed0, 0x40a5_643e],
        [0x40a4_aa8b, 0x406b_a34b, 0x40a6_96a9, 0x40ab_c100],
    ];
    assert_eq!(second.map(f32::to_bits), heights.as_flattened());
    assert_eq!(route((4, 3), &map, 0.0).recv, [0, 1, 2, 3, 4, 6, 10, 7, 8, 9, 10, 11]);
    assert_eq!(route((4, 3), &second, 0.0).recv, [0, 1, 2, 3, 4, 9, 5, 7, 8, 9, 10, 11]);
    let mut end = map;
    let run = rules::runs::gen_fluvial_erosion((4, 3), &mut end, &Settings { iterations: 2, ..s }, 0, &[]);
    assert_eq!((run.answer, run.counts), (Ok(()), Counts { incisions: 2, passes: 2, questions: 8 }));
    let heights = [
        [0x409a_2b10, 0x409b_f997, 0x40b3_1a3f, 0x40aa_5de6],
        [0x4095_8d8e, 0x4094_1293, 0x40f0_0d87, 0x40b3_1a3f],
        [0x40a1_2a8a, 0x4097_5d91, 0x40aa_cda4, 0x40b7_e29a],
    ];
    assert_eq!(end.map(f32::to_bits), heights.as_flattened());
}

/// Whether the whole numbers say that r is x's root, nearest, ties to even: with x = X × 4^k and r = R × 2^k the square of
/// 2 R lies within one of R's steps of 4 X. Both have at most 24 significant bits, so u128 holds all of it.
fn is_root(x: f32, r: f32) -> bool {
    let parts = |v: f32| {
        let (b, e) = (v.to_bits() & 0x7f_ffff, (v.to_bits() >> 23) as i32);
        if e == 0 {
            (b as u128, -149)
        } else {
            ((b | 0x80_0000) as u128, e - 150)
        }
    };
    let ((xm, xe), (rm, re)) = (parts(x), parts(r));
    // 4 x against (2 r ± 1)^2, all in units of 2^(2 re); a root has 24 bits, so 2 re ≤ xe
    let four_x = xm << (xe - 2 * re + 2);
    (2 * rm - 1).pow(2) < four_x && four_x < (2 * rm + 1).pow(2)
}

#[test]
fn roots_are_bracketed_by_squares() {
    let mut r = Random::new(1);
    for i in 0..2_000_000u32 {
        let bits = if i < 4096 { i + 1 } else { r.word() >> 1 };
        let x = f32::from_bits(bits);
        if x.is_finite() && x > 0.0 {
            assert!(is_root(x, x.sqrt()), "{bits:08x}");
        }
    }
}

/// The questions of a one-cell run depend on binary32.
#[test]
fn questions() {
    for (iterations, asked) in [(50, 59), (51, 51), (99, 99), (100, 74), (101, 68)] {
        let s = Settings { water_level: 0.0, strength: 1.0, talus: 0.0, uplift: 0.0, iterations, work_res: 512 };
        assert_eq!(gen_fluvial_erosion((1, 1), &mut [1.0], &s, 0).asked, asked);
    }
}

/// The key puts -0 before +0, and a -0 reached from a +0 keeps its sign.
#[test]
fn zeros_of_both_signs() {
    let mut h = [0.0; 9];
    h[8] = -0.0;
    let a = route((3, 3), &h, -1.0);
    assert_eq!((a.order[0], a.recv[4]), (8, 8));
    h[8] = 0.0;
    h[4] = -0.0;
    assert_eq!(route((3, 3), &h, -1.0).order[..4], [0, 4, 1, 2]);
}

/// A mix of the largest float with itself is finite at every fraction.
#[test]
fn mixes_of_the_largest_float() {
    for d in (0..=1.0_f32.to_bits()).map(f32::from_bits) {
        assert!(((1.0 - d) * f32::MAX + d * f32::MAX).is_finite());
    }
}

/// A sample of the largest float alone, at fractions of every size, is finite.
#[test]
fn samples_of_the_largest_float() {
    let mut r = Random::new(3);
    let v = [f32::MAX; 4];
    for _ in 0..400_000 {
        let mut fraction = || f32::from_bits(r.within(0x3300_0000, 0x3f7f_ffff) as u32);
        let (x, y) = (fraction(), fraction());
        assert!(rules::bilinear(&v, x, y, (2, 2)).is_ok());
    }
}
