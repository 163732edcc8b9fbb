//! Compares the library with this second implementation, bit for bit: random small grids, then large ones.
//! `compare [thousands]`: so many thousand rounds on small grids, 100 where none is given. docs/DIFFERENCES.md has the totals.
#[path = "../../oracle/src/answer.rs"]
mod answer;
mod calls;
#[path = "../../oracle/src/counts.rs"]
mod counts;
#[path = "../../oracle/src/exports.rs"]
mod exports;
mod inputs;
#[path = "../../oracle/src/lend.rs"]
mod lend;
#[path = "../../oracle/src/random.rs"]
#[allow(dead_code)]
mod random;
mod rules;
#[path = "../../oracle/src/compare/tally.rs"]
#[allow(dead_code)]
mod tally;
mod talus;
#[path = "../../oracle/src/terrain.rs"]
#[allow(dead_code)]
mod terrain;

use std::process::ExitCode;

use answer::{Record, Sides};
use inputs::{damage, task, thresholds, whole, Task, BAD, ENDS, FAULTS};
use random::Random;
use tally::{number, shown, word, Tally};
use talus::{prepared, slide_pass_over};
use terrain::{faults, FILL, RELIEFS, TINY};

const SEED: u64 = 7_616_167;

/// Bit for bit; a computed NaN as a NaN.
fn same(a: &[f32], b: &[f32]) -> bool {
    a.len() == b.len() && a.iter().zip(b).all(|(x, y)| x.to_bits() == y.to_bits() || (x.is_nan() && y.is_nan()))
}

fn same_record(a: Record, b: Record) -> bool {
    let last = a.last.to_bits() == b.last.to_bits() || (a.last.is_nan() && b.last.is_nan());
    last && (a.asked, a.stopped) == (b.asked, b.stopped)
}

fn input(t: &Task) -> String {
    let p = &t.pass;
    let floats = [p.strength, p.water_level, p.ends.0, p.ends.1, p.record.last].map(f32::to_bits);
    let eight = p.thresholds.map(f32::to_bits);
    let marks = (p.record.asked, p.record.stopped, p.stop);
    format!("thresholds {eight:08x?}, {floats:08x?}, {marks:?}, result {}, {}", t.out, shown(t.size, &t.heights))
}

/// A pass of both over eight thresholds: answer, record and result slice, which both fix on 21 and 22 too.
fn over(t: &mut Tally, call: &'static str, of: &Task) {
    let (mut ours, mut theirs) = (vec![FILL; of.out], vec![FILL; of.out]);
    let (a, after) = slide_pass_over(of.size, &of.heights, &mut theirs, &of.pass);
    let (w, r) = calls::slide_pass_over(of.size, &of.heights, &mut ours, &of.pass);
    let alike = w == word(&a, |_| 0) && same_record(r, after) && same(&ours, &theirs);
    t.compared(call, number(&a), alike, of.heights.len(), || input(of));
}

/// A threshold that `slide_pass` takes: its ends, and numbers between them.
fn single(r: &mut Random) -> f32 {
    let any = r.unit();
    r.pick(&[0.0, -0.0, TINY, 0.03, any * 0.01, any, any * 16.0, f32::from_bits(0x417f_ffff), 16.0])
}

/// The library's two calls: `slide_pass` of one threshold, and `slide_pass_over` of those prepared of it.
fn one_and_eight(t: &mut Tally, of: &Task, threshold: f32) {
    let mut of = of.clone();
    of.pass.thresholds = prepared(threshold);
    over(t, "slide_pass_over, prepared thresholds", &of);
    let (mut one, mut eight) = (vec![FILL; of.out], vec![FILL; of.out]);
    let (w, after) = calls::slide_pass(of.size, &of.heights, &mut one, threshold, &of.pass);
    let (v, r) = calls::slide_pass_over(of.size, &of.heights, &mut eight, &of.pass);
    let alike = v == w && same_record(r, after) && same(&one, &eight);
    t.compared("slide_pass against slide_pass_over", (w >> 32) as u32, alike, of.heights.len(), || input(&of));
}

fn small(rounds: usize) -> bool {
    let mut t = Tally::default();
    let r = &mut Random::new(SEED);
    let sets = faults(&FAULTS);
    for i in 0..rounds {
        let mut of = task(r, i, if i % 20 == 0 { 40 } else { 10 });
        if i % 8 == 3 {
            let f = r.pick(&sets);
            damage(r, &mut of, f);
        }
        over(&mut t, "slide_pass_over", &of);
        let threshold = single(r);
        one_and_eight(&mut t, &of, threshold);
    }
    t.print(&format!("{rounds} random small grids"))
}

/// Each of the eight places with each value at the ends of the range, and with each value outside: all of these are refused by 4.
fn places() -> bool {
    let (mut good, mut bad) = (Tally::default(), Tally::default());
    let r = &mut Random::new(SEED);
    for _ in 0..64 {
        let mut of = task(r, 2 * RELIEFS, 6);
        of.pass = whole(thresholds(r), 0.5, f32::MIN);
        for place in 0..8 {
            let held = of.pass.thresholds[place];
            for (values, t) in [(ENDS.as_slice(), &mut good), (BAD.as_slice(), &mut bad)] {
                for value in values {
                    of.pass.thresholds[place] = *value;
                    over(t, "slide_pass_over", &of);
                }
            }
            of.pass.thresholds[place] = held;
        }
    }
    let a = good.print("each place with the ends of the range");
    bad.print("each place with a value outside it") && bad.all(4) && good.all(0) && a
}

/// Slopes from the middle down to the border, with noise as high as sixteen steps of the slope.
fn hills(r: &mut Random, size: Sides) -> Vec<f32> {
    let far = (size.0 + size.1) as f32;
    let edge = |i: usize, side: usize| i.min(side - 1 - i) as f32 / far;
    (0..size.0 * size.1).map(|i| r.unit() * 16.0 / far + edge(i % size.0, size.0) + edge(i / size.0, size.1)).collect()
}

fn large() -> bool {
    let mut t = Tally::default();
    let r = &mut Random::new(SEED);
    for size in [(512, 512), (1024, 1024), (1, 4096), (4096, 1), (4096, 4096)] {
        let heights = hills(r, size);
        let eight = [(); 8].map(|_| r.unit() * 16.0 / (size.0 + size.1) as f32);
        let mut of = Task { size, out: heights.len(), heights, pass: whole(eight, 0.5, 0.12) };
        over(&mut t, "slide_pass_over", &of);
        of.pass.stop = r.within(1, 50) as u32;
        over(&mut t, "slide_pass_over", &of);
    }
    t.print("large grids: 512, 1,024 and 4,096 squared, 1 x 4,096 and 4,096 x 1")
}

fn main() -> ExitCode {
    let thousands = std::env::args().nth(1).and_then(|a| a.parse().ok()).unwrap_or(100);
    println!("seed {SEED}");
    let (a, b, c) = (places(), small(thousands * 1000), large());
    if a && b && c {
        println!("no difference");
        return ExitCode::SUCCESS;
    }
    ExitCode::FAILURE
}
