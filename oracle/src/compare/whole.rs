//! Whole runs: number, place, counts and the map after the call.
use super::passes::{damaged, land, Land};
use super::tally::{number, same, shown, Tally};
use crate::lib_runs::Scratch;
use crate::random::Random;
use crate::rules::runs::{gen_fluvial_erosion, gen_thermal_erosion, Run};
use crate::rules::Sides;
use crate::source::erosion::Settings;
use crate::terrain::outside;

#[derive(Clone, Copy, PartialEq)]
pub enum Kind {
    Fluvial,
    Thermal,
}

/// The word of a run's end, as crates/harness_runs gives it.
fn end_word(run: &Run) -> u64 {
    let c = &run.counts;
    let place = run.answer.err().map_or(0, |r| r.place) as u64;
    (number(&run.answer) as u64) << 48
        | (c.incisions as u64) << 32
        | (place + ((c.passes as u64) << 16 | c.questions as u64))
}

/// what scratch is full of before a run
const HELD: u8 = 7;

/// The questions that the run asked. `room`: the lengths of the scratch slices, which a refusal leaves as they were.
fn compared(t: &mut Tally, kind: Kind, l: &Land, s: &Settings, stop: u32, room: &[usize]) -> u32 {
    let (mut ours, mut theirs) = (l.h.clone(), l.h.clone());
    let mut scratch = Scratch::of(room, HELD);
    let (name, run, w) = if kind == Kind::Fluvial {
        let run = gen_fluvial_erosion(l.size, &mut theirs, s, stop, room);
        ("gen_fluvial_erosion", run, scratch.fluvial(l.size, &mut ours, s, stop))
    } else {
        let run = gen_thermal_erosion(l.size, &mut theirs, s, stop, room);
        ("gen_thermal_erosion", run, scratch.thermal(l.size, &mut ours, s, stop))
    };
    let refused = (1..=9).contains(&number(&run.answer));
    let alike = w == end_word(&run) && same(&ours, &theirs) && (!refused || scratch.holds(HELD));
    let input = || {
        let floats = [s.water_level, s.strength, s.talus, s.uplift].map(f32::to_bits);
        let rest = (s.iterations, s.work_res, stop);
        format!(
            "settings {floats:08x?}, iterations, working side, S {rest:?}, scratch {room:?}, {}",
            shown(l.size, &l.h)
        )
    };
    t.compared(name, number(&run.answer), alike, l.h.len(), input);
    run.counts.questions
}

/// How many scratch slices a run is lent.
fn slices(kind: Kind) -> usize {
    if kind == Kind::Fluvial {
        8
    } else {
        3
    }
}

/// Each scratch slice of both runs in turn one shorter than the grid.
pub fn short(t: &mut Tally, l: &Land) {
    let s = Settings { water_level: 0.0, strength: 0.6, talus: 0.2, uplift: 0.001, iterations: 2, work_res: 512 };
    for kind in [Kind::Fluvial, Kind::Thermal] {
        for which in 0..slices(kind) {
            let mut room = vec![l.h.len(); slices(kind)];
            room[which] -= 1;
            compared(t, kind, l, &s, 0, &room);
        }
    }
}

/// A small run, stopped or not; a reduced one in three.
pub fn small(t: &mut Tally, r: &mut Random, i: usize) {
    let kind = if i % 2 == 0 { Kind::Fluvial } else { Kind::Thermal };
    let mut l = land(r, i / 2, if i % 40 == 0 { 20 } else { 8 });
    let any = [r.unit(), r.unit(), r.unit()];
    let longest = l.size.0.max(l.size.1);
    let mut s = Settings {
        water_level: 0.0,
        strength: r.pick(&[0.0, 1.0, 0.6, any[0]]),
        talus: r.pick(&[0.0, 1.0, 0.2, any[1]]),
        uplift: if kind == Kind::Fluvial { r.pick(&[0.0, 1.0, -1.0, 0.01, any[2], -any[2]]) } else { 0.0 },
        iterations: r.within(0, if i % 10 < 2 { 25 } else { 4 }) as u32,
        work_res: if r.below(3) == 0 { r.below(longest) as u32 } else { 512 },
    };
    match r.below(40) {
        0 => s.strength = outside(r, 0.0, 1.0),
        1 => s.talus = outside(r, 0.0, 1.0),
        2 => s.iterations = 4097,
        3 if kind == Kind::Fluvial => s.uplift = outside(r, -1.0, 1.0),
        _ => {}
    }
    let mut room = vec![l.h.len() + r.below(2); slices(kind)];
    if r.below(20) == 0 {
        let which = r.below(room.len());
        room[which] = l.h.len() - 1;
    }
    damaged(r, &mut l);
    s.water_level = l.water_level;
    let stop = if r.below(2) == 0 { 0 } else { r.within(1, 60) as u32 };
    compared(t, kind, &l, &s, stop, &room);
}

/// Runs of a large grid on its full grid: to the end, and from the same map stopped at a random question.
pub fn large(t: &mut Tally, r: &mut Random, kind: Kind, size: Sides, h: Vec<f32>, s: &Settings, stopped: bool) {
    let l = Land { size, h, water_level: s.water_level };
    let room = vec![l.h.len(); slices(kind)];
    let asked = compared(t, kind, &l, s, 0, &room);
    if stopped {
        compared(t, kind, &l, s, r.within(1, asked.max(1) as usize) as u32, &room);
    }
}
