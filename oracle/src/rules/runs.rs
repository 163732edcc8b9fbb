//! Whole runs behind their refusals: the source's own routing, incision, passes and resampling in the order of its
//! loops, with document 01's tests between them. Where nothing runs off, the source's whole run must agree.
use super::{heights, length, refuse, run_off, scratch, setting, sides, within, Answer, Sides};
use crate::source::erosion::{self, fluvial_conf, thermal_conf, Settings};
use crate::source::flow::FlowNet;
use crate::source::fluvial_erosion::{self as fluvial, FluvialParams};
use crate::source::resample::{add_upsampled, downsample};
use crate::source::thermal_erosion::{self as thermal, ThermalParams};
use crate::source::{Marks, Record};

/// What an answer carries beside its number.
#[derive(Clone, Copy, Debug, PartialEq)]
pub struct Counts {
    pub incisions: u32,
    pub passes: u32,
    pub questions: u32,
}

impl Counts {
    const NONE: Counts = Counts { incisions: 0, passes: 0, questions: 0 };
}

/// The place at which a run ran off, for the list's summary.
pub type Place = Option<&'static str>;

/// The end of a run.
pub struct Run {
    pub answer: Answer<()>,
    pub counts: Counts,
    pub ran_off: Place,
}

/// A run on its working grid: the heights of the last completed incision or pass, the marks and the counts.
struct Course {
    size: Sides,
    heights: Vec<f32>,
    marks: Marks,
    incisions: u32,
    passes: u32,
    ran_off: Place,
}

impl Course {
    fn new(size: Sides, heights: Vec<f32>, stop: u32) -> Course {
        Course { size, heights, marks: Marks::new(Record::FRESH, stop), incisions: 0, passes: 0, ran_off: None }
    }

    /// 22, with the place for the summary.
    fn finite(&mut self, v: &[f32], place: &'static str) -> Answer<()> {
        let a = run_off(v);
        if a.is_err() {
            self.ran_off = Some(place);
        }
        a
    }

    fn incision(&mut self, params: &FluvialParams) -> Answer<()> {
        let mut net = FlowNet::new();
        net.route(self.size, &self.heights, params.water_level);
        let mut out = self.heights.clone();
        fluvial::incise(self.size, &mut out, &net, params);
        self.finite(&out, "an incision")?;
        self.heights = out;
        self.incisions += 1;
        Ok(())
    }

    fn pass(&mut self, params: &ThermalParams, from: f32, to: f32) -> Answer<()> {
        let mut out = self.heights.clone();
        if !thermal::pass(self.size, &self.heights, &mut out, params, (from, to), &mut self.marks.progress) {
            return refuse(21);
        }
        self.finite(&out, "a pass")?;
        self.heights = out;
        self.passes += 1;
        Ok(())
    }

    fn fluvial(&mut self, params: &FluvialParams) -> Answer<()> {
        let iterations = params.iterations as f32;
        let passes = params.talus.passes as f32;
        for it in 0..params.iterations {
            if !self.marks.progress.report(it as f32 / iterations) {
                return refuse(21);
            }
            self.incision(params)?;
            for pass in 0..params.talus.passes {
                let from = (it as f32 + 0.5 + 0.5 * pass as f32 / passes) / iterations;
                let to = (it as f32 + 0.5 + 0.5 * (pass + 1) as f32 / passes) / iterations;
                self.pass(&params.talus, from, to)?;
            }
        }
        Ok(())
    }

    fn thermal(&mut self, params: &ThermalParams) -> Answer<()> {
        let passes = params.passes as f32;
        for pass in 0..params.passes {
            self.pass(params, pass as f32 / passes, (pass + 1) as f32 / passes)?;
        }
        Ok(())
    }

    /// A run whose working sides are not the full ones: on a reduced copy, the difference added back. The map is written only
    /// when all is done.
    fn reduced(&mut self, size: Sides, map: &mut [f32], iterate: impl FnOnce(&mut Course) -> Answer<()>) -> Answer<()> {
        let small = downsample(map, size, self.size);
        self.finite(&small, "downsampling")?;
        self.heights = small.clone();
        iterate(self)?;
        let delta: Vec<f32> = self.heights.iter().zip(&small).map(|(e, s)| e - s).collect();
        self.finite(&delta, "the difference")?;
        let mut out = map.to_vec();
        add_upsampled(&mut out, size, &delta, self.size);
        self.finite(&out, "the final sum")?;
        map.copy_from_slice(&out);
        Ok(())
    }
}

/// The run on the working grid; of a full-grid run the map holds the heights of the last completed incision or pass.
fn run(
    size: Sides,
    work: Sides,
    map: &mut [f32],
    stop: u32,
    iterate: impl FnOnce(&mut Course) -> Answer<()>,
) -> (Run, Record) {
    let mut c = Course::new(work, map.to_vec(), stop);
    let answer = if work == size {
        let a = iterate(&mut c);
        map.copy_from_slice(&c.heights);
        a
    } else {
        c.reduced(size, map, iterate)
    };
    let r = c.marks.record();
    let counts = Counts { incisions: c.incisions, passes: c.passes, questions: r.asked };
    (Run { answer, counts, ran_off: c.ran_off }, r)
}

fn refused(answer: Answer<()>) -> Run {
    Run { answer, counts: Counts::NONE, ran_off: None }
}

/// `room`: the lengths of the scratch slices.
fn accepted(size: Sides, map: &[f32], s: &Settings, room: &[usize]) -> Answer<()> {
    sides(size)?;
    length(size, map.len())?;
    scratch(size, room)?;
    setting(s.water_level.is_finite() && within(s.strength, 0.0, 1.0) && within(s.talus, 0.0, 1.0))?;
    setting(within(s.uplift, -1.0, 1.0) && s.iterations <= 4096)?;
    heights(map)
}

/// Where nothing ran off, the source's whole run ends alike.
fn agrees(ours: &[f32], r: Record, run: &Run, source: &[f32], theirs: Record) {
    let bits = |v: &[f32]| v.iter().map(|x| x.to_bits()).collect::<Vec<u32>>();
    if run.ran_off.is_none() {
        assert_eq!(bits(ours), bits(source));
        assert_eq!((r.last.to_bits(), r.asked, r.stopped), (theirs.last.to_bits(), theirs.asked, theirs.stopped));
    }
}

/// A whole run where the call accepts it: `steps` drives it step by step on the map, `source` runs the source's own on a copy.
fn whole(
    accepted: Answer<()>,
    map: &mut [f32],
    steps: impl FnOnce(&mut [f32]) -> (Run, Record),
    source: impl FnOnce(&mut [f32]) -> Record,
) -> Run {
    if let Err(e) = accepted {
        return refused(Err(e));
    }
    let mut copy = map.to_vec();
    let (ended, r) = steps(map);
    let theirs = source(&mut copy);
    agrees(map, r, &ended, &copy, theirs);
    ended
}

pub fn gen_fluvial_erosion(size: Sides, map: &mut [f32], s: &Settings, stop: u32, room: &[usize]) -> Run {
    let steps = |map: &mut [f32]| {
        let (work, params) = fluvial::fluvial_plan(size, &fluvial_conf(s), s.water_level);
        run(size, work, map, stop, |c| c.fluvial(&params))
    };
    whole(accepted(size, map, s, room), map, steps, |m| erosion::gen_fluvial_erosion(size, m, s, stop))
}

/// The uplift of the settings is no part of a thermal run.
pub fn gen_thermal_erosion(size: Sides, map: &mut [f32], s: &Settings, stop: u32, room: &[usize]) -> Run {
    let steps = |map: &mut [f32]| {
        let (work, params) = thermal::thermal_plan(size, &thermal_conf(s), s.water_level);
        run(size, work, map, stop, |c| c.thermal(&params))
    };
    whole(accepted(size, map, s, room), map, steps, |m| erosion::gen_thermal_erosion(size, m, s, stop))
}
