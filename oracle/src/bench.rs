//! Measures the library's calls against the source's on the same heights in one process, and compares what they leave bit for bit.
//! `bench [root|route|incise|slide|runs|parts] [side]..` measures some of them; docs/BENCHMARKS.md has the command and what was measured.
#[allow(dead_code)]
mod answer;
#[path = "bench/calls.rs"]
mod calls;
mod exports;
mod lend;
#[allow(dead_code)]
mod random;
#[path = "bench/runs.rs"]
mod runs;
mod source;
#[allow(dead_code)]
mod standins;

use answer::Record;
use random::Random;
use source::erosion::{gen_fluvial_erosion, gen_thermal_erosion, Incision, Pass, Settings, Talus};
use source::flow::{accumulate, spill, FlowNet};
use source::fluvial_erosion::{self as fluvial, incision_params};

type Sides = (usize, usize);

/// how often both are measured, by turns, at least
const ROUNDS: usize = 7;
const ROUNDS_ABOVE_2000: usize = 5;

/// short calls are measured on until so many rounds, or so many seconds
const MOST_ROUNDS: usize = 401;
const SECONDS: f64 = 1.0;

/// The CPU time of this thread in seconds: what the machine does beside it does not count.
fn cpu_seconds() -> f64 {
    #[repr(C)]
    struct Time {
        seconds: i64,
        nanoseconds: i64,
    }
    extern "C" {
        fn clock_gettime(clock: i32, time: *mut Time) -> i32;
    }
    const THREAD_CPU: i32 = 3;
    let mut t = Time { seconds: 0, nanoseconds: 0 };
    // the clock writes its two numbers and nothing else
    let done = unsafe { clock_gettime(THREAD_CPU, &mut t) };
    assert!(done == 0, "no CPU clock");
    t.seconds as f64 + t.nanoseconds as f64 * 1e-9
}

fn timed(f: &mut dyn FnMut()) -> f64 {
    let began = cpu_seconds();
    f();
    cpu_seconds() - began
}

fn median(mut v: Vec<f64>) -> f64 {
    v.sort_by(f64::total_cmp);
    v[v.len() / 2]
}

/// Runs both by turns and prints a row of the table: the medians in milliseconds, and the source's over the library's.
fn row(call: &str, side: usize, kind: &str, ours: &mut dyn FnMut(), theirs: &mut dyn FnMut()) {
    row_of(call, side, kind, SECONDS, &mut || timed(ours), &mut || timed(theirs))
}

/// The same by the times that each side gives, measured for so many seconds.
fn row_of(
    call: &str,
    side: usize,
    kind: &str,
    seconds: f64,
    ours: &mut dyn FnMut() -> f64,
    theirs: &mut dyn FnMut() -> f64,
) {
    let (mut a, mut b) = (Vec::new(), Vec::new());
    let least = if side > 2000 { ROUNDS_ABOVE_2000 } else { ROUNDS };
    let began = cpu_seconds();
    while a.len() < least || (a.len() < MOST_ROUNDS && cpu_seconds() - began < seconds) {
        b.push(theirs());
        a.push(ours());
    }
    let (a, b) = (median(a) * 1e3, median(b) * 1e3);
    let digits = if a < 10.0 { 3 } else { 1 };
    println!("| `{call}` | {side}² | {kind} | {b:.digits$} | {a:.digits$} | {:.2} |", b / a);
}

fn same_floats(name: &str, a: &[f32], b: &[f32]) {
    assert!(a.len() == b.len() && a.iter().zip(b).all(|(x, y)| x.to_bits() == y.to_bits()), "{name} differ");
}

/// White noise from 0 to 1.
fn noise(r: &mut Random, size: Sides) -> Vec<f32> {
    (0..size.0 * size.1).map(|_| r.unit()).collect()
}

/// Smooth terrain: six octaves of lattice noise, each half as high as the one before.
fn smooth(r: &mut Random, size: Sides) -> Vec<f32> {
    let mut h = vec![0.0f32; size.0 * size.1];
    for octave in 0..6 {
        let cells = 3usize << octave;
        let lattice: Vec<f32> = (0..(cells + 1) * (cells + 1)).map(|_| r.unit()).collect();
        let at = |x: usize, y: usize| lattice[x + y * (cells + 1)];
        let weight = 0.5f32.powi(octave + 1);
        for y in 0..size.1 {
            let v = y as f32 / size.1 as f32 * cells as f32;
            for x in 0..size.0 {
                let u = x as f32 / size.0 as f32 * cells as f32;
                let (ix, iy) = (u as usize, v as usize);
                let (dx, dy) = (ease(u.fract()), ease(v.fract()));
                let north = at(ix, iy) * (1.0 - dx) + at(ix + 1, iy) * dx;
                let south = at(ix, iy + 1) * (1.0 - dx) + at(ix + 1, iy + 1) * dx;
                h[x + y * size.0] += weight * (north * (1.0 - dy) + south * dy);
            }
        }
    }
    h
}

fn ease(t: f32) -> f32 {
    t * t * (3.0 - 2.0 * t)
}

/// Both terrains of a side.
fn terrains(side: usize) -> [(&'static str, Vec<f32>); 2] {
    let mut r = Random::new(side as u64);
    [("smooth", smooth(&mut r, (side, side))), ("noise", noise(&mut r, (side, side)))]
}

fn same_cells(name: &str, a: &[u32], b: &[u32]) {
    assert!(a == b, "{name} differ");
}

const WATER: f32 = 0.12;

/// One root for each cell, through the C function, against the processor's.
fn roots(side: usize, kind: &str, h: &[f32]) {
    let (mut ours, mut theirs) = (vec![0.0; h.len()], vec![0.0; h.len()]);
    let mut lib = || ours.iter_mut().zip(h).for_each(|(y, x)| *y = f32::from_bits(calls::root(*x) as u32));
    row("root", side, kind, &mut lib, &mut || theirs.iter_mut().zip(h).for_each(|(y, x)| *y = x.sqrt()));
    same_floats("roots", &ours, &theirs);
}

/// The network: both sides keep their slices from run to run.
fn route(side: usize, kind: &str, h: &[f32]) {
    let size = (side, side);
    let mut ours = calls::Network::new(h.len());
    let mut theirs = FlowNet::new();
    row("route", side, kind, &mut || assert!(ours.route(size, h, WATER) == 0), &mut || theirs.route(size, h, WATER));
    same_cells("orders", &ours.order, &theirs.order);
    same_cells("receivers", &ours.recv, &theirs.recv);
    same_floats("spill heights", &ours.spill, spill(&theirs));
    same_floats("areas", &ours.area, &theirs.area);
}

/// One incision along the flood's network with the source's k for strength 0.6: areas along the list, a copy of the heights, the cut.
/// `incise` checks the network that it is lent.
fn incise(side: usize, kind: &str, h: &[f32]) {
    let size = (side, side);
    let s = Incision { k: 8.0 * 0.6 * (side as f32 / 512.0), uplift: 0.0, water_level: WATER };
    let mut net = FlowNet::new();
    net.route(size, h, WATER);
    let (recv, list) = (net.recv.clone(), net.order.clone());
    let lent = calls::Lent { recv: &recv, list: &list };
    let (mut ours, mut theirs, mut area) = (vec![0.0; h.len()], vec![0.0; h.len()], vec![0.0; h.len()]);
    let params = incision_params(s.k, s.uplift, s.water_level);
    let mut source = || {
        theirs.copy_from_slice(h);
        accumulate(&mut net);
        fluvial::incise(size, &mut theirs, &net, &params);
    };
    let mut checked = || assert!(calls::incise(size, h, &s, lent, &mut ours, &mut area) == 0);
    row("incise", side, kind, &mut checked, &mut source);
    let carved = incise_alone(side, kind, h, &s, &mut source);
    for (heights, areas) in [(&ours, &area), (&carved.spill, &carved.area)] {
        same_floats("heights", heights, &theirs);
        same_floats("areas", areas, &net.area);
    }
}

/// The incision with its areas, `incise_into`, with nothing checked: the time of a routing and the incision along it in
/// one call, less the time of the routing alone in the same slices. Each comes after such a call that does not count, so
/// that both find the same in the caches: three times in a round, and the median difference. The source is timed after a
/// turn of its own that does not count.
fn incise_alone(side: usize, kind: &str, h: &[f32], s: &Incision, source: &mut dyn FnMut()) -> calls::Network {
    let size = (side, side);
    let mut net = calls::Network::new(h.len());
    let mut ours = || {
        let differences = [(); 3].map(|_| {
            assert!(net.carve(size, h, s) == 0);
            let routing = timed(&mut || assert!(net.route(size, h, s.water_level) == 0));
            assert!(net.carve(size, h, s) == 0);
            timed(&mut || assert!(net.carve(size, h, s) == 0)) - routing
        });
        median(differences.to_vec())
    };
    row_of("incise_into", side, kind, 3.0 * SECONDS, &mut ours, &mut || {
        source();
        timed(source)
    });
    net
}

/// A pass of the library: by one threshold, or over the eight that the source makes of it.
type SlidePass = fn(Sides, &[f32], &mut [f32], &Pass) -> (u64, Record);

/// One talus pass with the source's threshold for talus 0.5 and its strength 0.5.
fn slide(side: usize, kind: &str, h: &[f32]) {
    slide_by(0.5, side, kind, h);
}

fn slide_by(talus: f32, side: usize, kind: &str, h: &[f32]) {
    let size = (side, side);
    let threshold = 0.03 * (1.0 - talus) * (1.0 - talus) / (side as f32 / 512.0);
    let p = Pass::whole(Talus { threshold, strength: 0.5, water_level: WATER });
    let (mut ours, mut theirs) = (vec![0.0; h.len()], vec![0.0; h.len()]);
    for (call, pass) in [("slide_pass", calls::slide_pass as SlidePass), ("slide_pass_over", calls::slide_pass_over)] {
        let mut lib = || assert!(pass(size, h, &mut ours, &p).0 == 0);
        row(call, side, kind, &mut lib, &mut || {
            theirs.copy_from_slice(h);
            assert!(source::erosion::slide_pass(size, h, &mut theirs, &p).0);
        });
        same_floats("heights", &ours, &theirs);
    }
}

/// The source's default settings; the working side is 512, so a run on a larger grid is reduced.
const FLUVIAL: Settings =
    Settings { water_level: WATER, strength: 0.6, talus: 0.2, uplift: 0.0, iterations: 50, work_res: 512 };
const THERMAL: Settings =
    Settings { water_level: WATER, strength: 0.5, talus: 0.5, uplift: 0.0, iterations: 50, work_res: 512 };

/// Where the time of a fluvial run goes: the calls of one iteration on the map as it is after some of them.
fn parts(side: usize, kind: &str, h: &[f32]) {
    for iterations in [0, 10, 25, 49] {
        let mut map = h.to_vec();
        if iterations > 0 {
            gen_fluvial_erosion((side, side), &mut map, &Settings { iterations, ..FLUVIAL }, 0);
        }
        let kind = format!("{kind}, after {iterations}");
        route(side, &kind, &map);
        incise(side, &kind, &map);
        slide_by(FLUVIAL.talus, side, &kind, &map);
    }
}

/// A whole run on a copy of the heights.
fn whole_run(
    call: &str,
    side: usize,
    kind: &str,
    h: &[f32],
    lib: &mut dyn FnMut(&mut [f32]) -> u64,
    source: &mut dyn FnMut(&mut [f32]),
) {
    let (mut ours, mut theirs) = (h.to_vec(), h.to_vec());
    let mut run = || {
        ours.copy_from_slice(h);
        assert!(runs::number(lib(&mut ours)) == 0);
    };
    row(call, side, kind, &mut run, &mut || {
        theirs.copy_from_slice(h);
        source(&mut theirs);
    });
    same_floats("heights", &ours, &theirs);
}

/// Whole runs with the default settings.
fn whole_runs(side: usize, kind: &str, h: &[f32]) {
    let size = (side, side);
    let mut scratch = runs::Scratch::new(h.len());
    whole_run("gen_thermal_erosion", side, kind, h, &mut |v| scratch.thermal(size, v, &THERMAL, 0), &mut |v| {
        gen_thermal_erosion(size, v, &THERMAL, 0);
    });
    whole_run("gen_fluvial_erosion", side, kind, h, &mut |v| scratch.fluvial(size, v, &FLUVIAL, 0), &mut |v| {
        gen_fluvial_erosion(size, v, &FLUVIAL, 0);
    });
}

/// A word, what it measures on each terrain, and the sides if none is asked for.
type Table = (&'static str, fn(usize, &str, &[f32]), &'static [usize]);

const TABLES: [Table; 6] = [
    ("root", roots, &[1024]),
    ("route", route, &[256, 512, 1024, 4096]),
    ("incise", incise, &[256, 512, 1024, 4096]),
    ("slide", slide, &[256, 512, 1024, 4096]),
    ("runs", whole_runs, &[512, 1024, 4096]),
    ("parts", parts, &[512]),
];

fn main() {
    let args: Vec<String> = std::env::args().skip(1).collect();
    let asked: Vec<usize> = args.iter().filter_map(|a| a.parse().ok()).collect();
    let named: Vec<&String> = args.iter().filter(|a| a.parse::<usize>().is_err()).collect();
    println!("| call | grid | terrain | source, ms | library, ms | source / library |");
    println!("|---|---|---|---|---|---|");
    for (name, measure, sides) in TABLES {
        if named.is_empty() || named.iter().any(|a| *a == name) {
            for side in if asked.is_empty() { sides } else { &asked[..] } {
                for (kind, h) in terrains(*side) {
                    measure(*side, kind, &h);
                }
            }
        }
    }
}
