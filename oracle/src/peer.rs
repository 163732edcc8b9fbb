//! Compares the library's spill heights with those of SAGA's 'Fill Sinks XXL (Wang & Liu)' at minimum slope 0, on the same grids.
//! `peer FOLDER [side]..` writes grids to the folder, runs `saga_cmd` (Debian's package saga) on them and `route` of the library,
//! and compares cell by cell as numbers. docs/DIFFERENCES.md has the command and what was found.
#[allow(dead_code)]
mod answer;
#[path = "bench/calls.rs"]
#[allow(dead_code)]
mod calls;
mod exports;
mod lend;
#[allow(dead_code)]
mod random;
#[allow(dead_code)]
mod source;
#[allow(dead_code)]
mod standins;

use random::Random;
use std::fs;
use std::path::Path;
use std::process::{Command, Stdio};
use std::time::Instant;

type Sides = (usize, usize);

/// SAGA's binary grid: a header, and the heights row by row, low byte first.
fn store(folder: &Path, name: &str, size: Sides, h: &[f32]) {
    let header = format!(
        "NAME\t= {name}\nDATAFORMAT\t= FLOAT\nBYTEORDER_BIG\t= FALSE\nPOSITION_XMIN\t= 0.0\nPOSITION_YMIN\t= 0.0\n\
         CELLCOUNT_X\t= {}\nCELLCOUNT_Y\t= {}\nCELLSIZE\t= 1.0\nZ_FACTOR\t= 1.0\nNODATA_VALUE\t= -99999.0\nTOPTOBOTTOM\t= FALSE\n",
        size.0, size.1
    );
    let bytes: Vec<u8> = h.iter().flat_map(|x| x.to_le_bytes()).collect();
    fs::write(folder.join(format!("{name}.sgrd")), header).expect("the folder can be written");
    fs::write(folder.join(format!("{name}.sdat")), bytes).expect("the folder can be written");
}

fn load(folder: &Path, name: &str) -> Vec<f32> {
    let bytes = fs::read(folder.join(format!("{name}.sdat"))).expect("SAGA wrote its grid");
    bytes.chunks_exact(4).map(|b| f32::from_le_bytes([b[0], b[1], b[2], b[3]])).collect()
}

/// Runs SAGA's tool on the grid `name`, to `name`-filled; the seconds that the command took, start and files included.
fn saga(folder: &Path, name: &str) -> f64 {
    let began = Instant::now();
    let done = Command::new("saga_cmd")
        .args(["--cores=1", "ta_preprocessor", "5"])
        .arg("-ELEV")
        .arg(folder.join(format!("{name}.sgrd")))
        .arg("-FILLED")
        .arg(folder.join(format!("{name}-filled.sgrd")))
        .args(["-MINSLOPE", "0"])
        .stdout(Stdio::null())
        .stderr(Stdio::null())
        .status()
        .expect("saga_cmd runs");
    assert!(done.success(), "saga_cmd failed on {name}");
    began.elapsed().as_secs_f64()
}

/// Terrains with depressions: noise, steps of eight heights (flats and ties), and a long slope with noise on it.
fn grids(side: usize) -> [(&'static str, Vec<f32>); 3] {
    let mut r = Random::new(side as u64);
    let noise: Vec<f32> = (0..side * side).map(|_| r.unit()).collect();
    let steps = noise.iter().map(|x| (x * 8.0).floor()).collect();
    let slope = noise.iter().enumerate().map(|(i, x)| x + (i % side) as f32 / 64.0).collect();
    [("noise", noise), ("steps", steps), ("slope", slope)]
}

fn main() {
    let args: Vec<String> = std::env::args().skip(1).collect();
    let folder = Path::new(args.first().expect("peer FOLDER [side].."));
    let asked: Vec<usize> = args[1..].iter().map(|a| a.parse().expect("a side is a number")).collect();
    println!("| grid | terrain | cells | above their height | differ | `route`, s | saga_cmd, s |");
    println!("|---|---|---|---|---|---|---|");
    for &side in if asked.is_empty() { &[3, 64, 512, 1024, 2048][..] } else { &asked } {
        for (kind, h) in grids(side) {
            store(folder, kind, (side, side), &h);
            let theirs_seconds = saga(folder, kind);
            let theirs = load(folder, &format!("{kind}-filled"));
            let mut ours = calls::Network::new(h.len());
            let began = Instant::now();
            // water below every height: the border alone is base level, as in the tool
            assert!(ours.route((side, side), &h, -1.0) == 0);
            let seconds = began.elapsed().as_secs_f64();
            assert!(theirs.len() == h.len());
            let differ = ours.spill.iter().zip(&theirs).filter(|(a, b)| a != b).count();
            let raised = ours.spill.iter().zip(&h).filter(|(a, b)| a != b).count();
            println!("| {side}² | {kind} | {} | {raised} | {differ} | {seconds:.3} | {theirs_seconds:.3} |", h.len());
        }
    }
}
