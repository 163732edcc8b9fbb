//! The last part of the list: streams, whole and damaged, with what `relief` prints.
mod damage;
mod runs;

use crate::list::{call, List};
use crate::random::Random;
use crate::rules::streams::{grid_record, relief, row_records, Asked, Kind, Printed, FLUVIAL, THERMAL};
use crate::rules::Sides;
use crate::source::erosion::Settings;
use crate::terrain::{self, grid, EXTREME, KINDS, RELIEFS, TINY};
use runs::{deep, on_relief, steep, Maker};

const BOTH: [Kind; 2] = [Kind::Fluvial, Kind::Thermal];

/// The example of document 01.
pub const EXAMPLE: Settings =
    Settings { water_level: 0.0, strength: 1.0, talus: 0.0, uplift: 0.0, iterations: 1, work_res: 512 };

const LAND: Settings =
    Settings { water_level: -0.5, strength: 0.6, talus: 0.2, uplift: 0.001, iterations: 3, work_res: 512 };

fn settings_record(a: &Asked) -> Vec<u8> {
    let s = &a.s;
    let (mark, floats) = match a.kind {
        Kind::Fluvial => (FLUVIAL, vec![s.water_level, s.strength, s.talus, s.uplift]),
        Kind::Thermal => (THERMAL, vec![s.water_level, s.talus, s.strength]),
    };
    let mut out = mark.to_vec();
    for x in floats {
        out.extend(x.to_bits().to_le_bytes());
    }
    for n in [s.iterations, s.work_res, a.stop] {
        out.extend(n.to_le_bytes());
    }
    out
}

/// The stream that asks for a run.
pub fn stream(a: &Asked) -> Vec<u8> {
    [grid_record(a.size), settings_record(a), row_records(a.size, &a.map)].concat()
}

fn asked(kind: Kind, size: Sides, s: Settings, map: Vec<f32>) -> Asked {
    Asked { kind, size, s, stop: 0, map }
}

/// A stream of the list, counted by what it comes to.
fn put(l: &mut List, bytes: &[u8]) -> Printed {
    let p = relief(bytes);
    l.stream(call::RELIEF, bytes, &p.bytes);
    let name = match &p.ran {
        Some((a, _)) if p.number == 0 || p.number > 9 => match (a.kind, a.is_reduced()) {
            (Kind::Fluvial, false) => "relief, fluvial run on the full grid",
            (Kind::Fluvial, true) => "relief, reduced fluvial run",
            (Kind::Thermal, false) => "relief, thermal run on the full grid",
            (Kind::Thermal, true) => "relief, reduced thermal run",
        },
        _ => "relief, no run",
    };
    l.count(name, p.number);
    if let Some(place) = p.ran.as_ref().and_then(|(_, run)| run.ran_off) {
        l.note(name, place);
    }
    p
}

pub fn list(l: &mut List, r: &mut Random) {
    cells(l);
    damage::list(l, r);
    reliefs(l, r);
    stops(l, r);
    run_offs(l, r);
}

/// Document 01's example with S 0 to 3, and other runs on one cell: iterations whose questions depend on binary32, working sides, no iteration and
/// the most.
fn cells(l: &mut List) {
    for kind in BOTH {
        let one = |s: Settings, h: f32| asked(kind, (1, 1), s, vec![h]);
        for stop in [0, 1, 2, 3, u32::MAX] {
            put(l, &stream(&Asked { stop, ..one(EXAMPLE, 1.0) }));
        }
        for iterations in [0, 1, 2, 50, 51, 99, 100, 101, 511, 512, 513, 4095, 4096] {
            for work_res in [0, 1, 512, u32::MAX] {
                put(l, &stream(&one(Settings { iterations, work_res, ..EXAMPLE }, 1.0)));
            }
        }
        for h in [0.0, -0.0, TINY, -1.0, f32::MAX] {
            put(l, &stream(&one(Settings { uplift: 1.0, iterations: 3, ..EXAMPLE }, h)));
        }
    }
}

/// Random settings on every kind of relief; then large grids, up to the longest stream that is accepted.
fn reliefs(l: &mut List, r: &mut Random) {
    for i in 0..600 {
        let size = grid(r, i / 2 / RELIEFS, if i % 40 < 2 { 30 } else { 9 });
        let most = if i % 10 < 2 { 60 } else { 5 };
        let mut a = on_relief(r, BOTH[i % 2], size, i / 2 % RELIEFS, most);
        a.stop = r.pick(&[0, 0, 0, 2, 7, 40]);
        put(l, &stream(&a));
    }
    for kind in BOTH {
        for (size, shape, iterations, work_res) in [
            ((64, 64), 0, 6, 512),
            ((64, 64), KINDS + 2, 20, 31),
            ((60, 40), KINDS + 4, 9, 60),
            ((40, 60), 0, 30, 47),
            ((1100, 3), 0, 2, 4096),
            ((2, 1100), 0, 3, 777),
            ((4096, 1), 0, 1, 4096),
            ((1, 4096), 0, 1, 777),
        ] {
            let map = terrain::relief(r, size, shape);
            let mut bytes = stream(&asked(kind, size, Settings { iterations, work_res, ..LAND }, map));
            put(l, &bytes);
            if size == (1, 4096) {
                bytes.push(0);
                put(l, &bytes);
            }
        }
    }
}

/// S at each question and past the last, of full-grid and of reduced runs.
fn stops(l: &mut List, r: &mut Random) {
    for i in 0..24 {
        let size = grid(r, i / 2, 5);
        let shape = if i % 8 < 2 { EXTREME } else { i / 2 % RELIEFS };
        let mut a = on_relief(r, BOTH[i % 2], size, shape, 3);
        let asked = put(l, &stream(&a)).ran.map_or(0, |(_, run)| run.counts.questions);
        for stop in 1..=asked + 1 {
            a.stop = stop;
            put(l, &stream(&a));
        }
    }
}

/// Runs that run off, until each place has some, with a stop at their first questions.
fn run_offs(l: &mut List, r: &mut Random) {
    let (steep, deep): (Maker, Maker) = (steep, deep);
    for (kind, place, make) in [
        (Kind::Fluvial, "downsampling", steep),
        (Kind::Fluvial, "an incision", steep),
        (Kind::Fluvial, "a pass", steep),
        (Kind::Fluvial, "the difference", deep),
        (Kind::Fluvial, "the final sum", deep),
        (Kind::Thermal, "downsampling", steep),
        (Kind::Thermal, "a pass", steep),
    ] {
        let mut found = 0;
        while found < 8 {
            let mut a = make(r, kind);
            let Some((_, run)) = relief(&stream(&a)).ran else { continue };
            if run.ran_off == Some(place) {
                found += 1;
                for stop in 0..=run.counts.questions.min(6) {
                    a.stop = stop;
                    put(l, &stream(&a));
                }
            }
        }
    }
}
