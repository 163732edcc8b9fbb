//! Routing, incision, talus and the whole runs of the source, as calls on plain values.
use super::flow::{lent, spill, FlowNet};
use super::fluvial_erosion::{self as fluvial, FluvialErosionConf};
use super::thermal_erosion::{self as thermal, ThermalErosionConf};
use super::{Marks, Record};

type Sides = (usize, usize);

pub struct Routed {
    pub order: Vec<u32>,
    pub recv: Vec<u32>,
    pub spill: Vec<f32>,
    pub area: Vec<f32>,
}

pub fn route(size: Sides, h: &[f32], water_level: f32) -> Routed {
    let mut net = FlowNet::new();
    net.route(size, h, water_level);
    Routed { spill: spill(&net).to_vec(), order: net.order, recv: net.recv, area: net.area }
}

/// The settings of a direct incision.
#[derive(Clone, Copy)]
pub struct Incision {
    pub k: f32,
    pub uplift: f32,
    pub water_level: f32,
}

/// Incision along lent receivers and a lent list.
pub fn incise(size: Sides, h: &mut [f32], recv: &[u32], list: &[u32], s: &Incision) {
    let params = fluvial::incision_params(s.k, s.uplift, s.water_level);
    fluvial::incise(size, h, &lent(recv, list), &params);
}

/// The settings of a direct talus pass.
#[derive(Clone, Copy)]
pub struct Talus {
    pub threshold: f32,
    pub strength: f32,
    pub water_level: f32,
}

/// A talus pass: its settings, the ends that it reports between, the record before it, and S.
#[derive(Clone, Copy)]
pub struct Pass {
    pub s: Talus,
    pub ends: (f32, f32),
    pub r: Record,
    pub stop: u32,
}

impl Pass {
    /// One that reports from 0 to 1, from the fresh record, and is never stopped.
    #[allow(dead_code)]
    pub fn whole(s: Talus) -> Pass {
        Pass { s, ends: (0.0, 1.0), r: Record::FRESH, stop: 0 }
    }
}

/// One pass into `out`, a copy of `h` at entry: whether it came to its end, and the record.
pub fn slide_pass(size: Sides, h: &[f32], out: &mut [f32], p: &Pass) -> (bool, Record) {
    let params = thermal::pass_params(p.s.threshold, p.s.strength, p.s.water_level);
    let mut marks = Marks::new(p.r, p.stop);
    let on = thermal::pass(size, h, out, &params, p.ends, &mut marks.progress);
    (on, marks.record())
}

/// The settings of a whole run; a thermal run has no uplift.
#[derive(Clone, Copy)]
pub struct Settings {
    pub water_level: f32,
    pub strength: f32,
    pub talus: f32,
    pub uplift: f32,
    pub iterations: u32,
    pub work_res: u32,
}

pub fn fluvial_conf(s: &Settings) -> FluvialErosionConf {
    FluvialErosionConf {
        strength: s.strength,
        talus: s.talus,
        uplift: s.uplift,
        iterations: s.iterations,
        legacy_water_level: None,
        work_res: s.work_res,
    }
}

pub fn thermal_conf(s: &Settings) -> ThermalErosionConf {
    ThermalErosionConf {
        talus: s.talus,
        strength: s.strength,
        iterations: s.iterations,
        legacy_water_level: None,
        work_res: s.work_res,
    }
}

pub fn gen_fluvial_erosion(size: Sides, map: &mut [f32], s: &Settings, stop: u32) -> Record {
    let mut marks = Marks::new(Record::FRESH, stop);
    fluvial::gen_fluvial_erosion(size, map, &fluvial_conf(s), s.water_level, &mut marks.progress);
    marks.record()
}

pub fn gen_thermal_erosion(size: Sides, map: &mut [f32], s: &Settings, stop: u32) -> Record {
    let mut marks = Marks::new(Record::FRESH, stop);
    thermal::gen_thermal_erosion(size, map, &thermal_conf(s), s.water_level, &mut marks.progress);
    marks.record()
}
