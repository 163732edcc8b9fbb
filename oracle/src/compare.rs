//! Compares the library with the source behind document 01's refusals, bit for bit: random small grids over all calls, then large ones.
//! `compare [thousands]`: so many thousand rounds on small grids (100 where none is given), eight new grids in each. docs/DIFFERENCES.md has the totals.
mod answer;
#[path = "bench/calls.rs"]
#[allow(dead_code)]
mod calls;
mod counts;
mod exports;
#[path = "compare/exported.rs"]
mod exported;
mod lend;
#[path = "bench/runs.rs"]
#[allow(dead_code)]
mod lib_runs;
#[path = "compare/maps.rs"]
mod maps;
#[path = "compare/passes.rs"]
mod passes;
#[allow(dead_code)]
mod random;
#[allow(dead_code)]
mod rules;
mod source;
#[allow(dead_code)]
mod standins;
#[path = "compare/tally.rs"]
mod tally;
#[allow(dead_code)]
mod terrain;
#[path = "compare/whole.rs"]
mod whole;

use std::process::ExitCode;

use passes::Land;
use random::Random;
use rules::Sides;
use source::erosion::Settings;
use tally::Tally;
use whole::Kind;

const SEED: u64 = 7_616_167;

/// Each round has a new map for the extents and a new grid for each of seven kinds of calls.
const GRIDS: usize = 8;

fn small(rounds: usize) -> bool {
    let (mut grids, mut numbers) = (Tally::default(), Tally::default());
    let r = &mut Random::new(SEED);
    for i in 0..rounds {
        maps::extent(&mut grids, r, i);
        maps::downsample(&mut grids, r, i);
        maps::add_upsampled(&mut grids, r, i);
        maps::bilinear(&mut grids, r, i);
        passes::route(&mut grids, r, i);
        passes::incise(&mut grids, r, i);
        passes::slide(&mut grids, r, i);
        whole::small(&mut grids, r, i);
        for j in 0..16 {
            maps::root(&mut numbers, r, j);
        }
        maps::work_size(&mut numbers, r, i);
        maps::reports(&mut numbers, r, i);
    }
    let a = grids.print(&format!("{} random small grids", rounds * GRIDS));
    numbers.print("numbers") && a
}

/// Each scratch slice of each call one shorter than a small grid: refused by 3, with every slice as it was.
fn short() -> bool {
    let mut t = Tally::default();
    let h = (0..12).map(|c| c as f32).collect();
    let land = Land { size: (4, 3), h, water_level: 0.0 };
    passes::short(&mut t, &land);
    whole::short(&mut t, &land);
    t.print("each scratch slice one shorter than its grid") && t.all(3)
}

/// Slopes from the middle down to the border, with noise as high as sixteen steps of the slope.
fn hills(r: &mut Random, size: Sides) -> Vec<f32> {
    let far = (size.0 + size.1) as f32;
    let edge = |i: usize, side: usize| i.min(side - 1 - i) as f32 / far;
    (0..size.0 * size.1).map(|i| r.unit() * 16.0 / far + edge(i % size.0, size.0) + edge(i / size.0, size.1)).collect()
}

fn noise(r: &mut Random, size: Sides) -> Vec<f32> {
    (0..size.0 * size.1).map(|_| r.unit()).collect()
}

/// On its full grid, with few iterations.
fn settings(size: Sides, iterations: u32) -> Settings {
    let work_res = size.0.max(size.1) as u32;
    Settings { water_level: 0.12, strength: 0.6, talus: 0.2, uplift: 0.001, iterations, work_res }
}

fn large() -> bool {
    let mut t = Tally::default();
    let r = &mut Random::new(SEED);
    for size in [(512, 512), (1024, 1024), (1, 4096), (4096, 1)] {
        for make in [hills, noise] {
            let h = make(r, size);
            passes::large(&mut t, r, size, h.clone(), 0.12);
            for kind in [Kind::Fluvial, Kind::Thermal] {
                let s = settings(size, 3);
                whole::large(&mut t, r, kind, size, h.clone(), &s, true);
                let s = Settings { work_res: 300, ..s };
                whole::large(&mut t, r, kind, size, h.clone(), &s, true);
            }
        }
        maps::large(&mut t, r, size, (size.0.div_ceil(3), size.1.div_ceil(3)));
    }
    let size = (4095, 4095);
    let h = hills(r, size);
    passes::large(&mut t, r, size, h.clone(), 0.12);
    for kind in [Kind::Fluvial, Kind::Thermal] {
        let s = Settings { work_res: 512, ..settings(size, 3) };
        whole::large(&mut t, r, kind, size, h.clone(), &s, true);
    }
    let size = (4096, 4096);
    let h = hills(r, size);
    passes::large(&mut t, r, size, h.clone(), 0.12);
    for kind in [Kind::Fluvial, Kind::Thermal] {
        whole::large(&mut t, r, kind, size, h.clone(), &settings(size, 1), false);
    }
    let size = (2048, 2048);
    for make in [hills, noise] {
        let h = make(r, size);
        passes::large(&mut t, r, size, h, 0.12);
    }
    t.print("large grids: sides 512, 1,024, 2,048, 4,095, 4,096, 1 x 4,096 and 4,096 x 1")
}

fn main() -> ExitCode {
    let thousands = std::env::args().nth(1).and_then(|a| a.parse().ok()).unwrap_or(100);
    println!("seed {SEED}");
    let (a, b, c) = (short(), small(thousands * 1000), large());
    if a && b && c {
        println!("no difference");
        return ExitCode::SUCCESS;
    }
    ExitCode::FAILURE
}
