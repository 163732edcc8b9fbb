//! The source's functions, as build.rs took them, each file in its module, with the source's own `use` lines. The
//! functions below an include hand out what the source keeps private.
#![allow(dead_code)]
use std::sync::atomic::{AtomicU32, Ordering};
use std::sync::mpsc::{channel, Sender};
use std::sync::Arc;

pub mod erosion;

pub use crate::answer::Record;
use flow::{receiver_distance, FlowNet};
use resample::{add_upsampled, downsample, work_size};

/// Stands for the user interface's messages, which nobody receives here.
pub enum ThreadMessage {
    ExporterStepProgress(f32),
    GeneratorStepProgress(f32),
}

include!(concat!(env!("OUT_DIR"), "/marks.rs"));

/// The source's `Progress` in the state of a record, with a closure that counts its questions and says yes to the S-th.
pub struct Marks {
    pub progress: Progress,
    asked: Arc<AtomicU32>,
}

impl Marks {
    pub fn new(r: Record, stop: u32) -> Marks {
        let asked = Arc::new(AtomicU32::new(r.asked));
        let counter = asked.clone();
        let (tx, _) = channel();
        let stale = move || counter.fetch_add(1, Ordering::Relaxed) + 1 == stop;
        let mut progress = Progress::new(tx, false, f32::INFINITY, Box::new(stale));
        progress.last_checked = r.last;
        progress.cancelled = r.stopped;
        Marks { progress, asked }
    }

    pub fn record(&self) -> Record {
        Record {
            last: self.progress.last_checked,
            asked: self.asked.load(Ordering::Relaxed),
            stopped: self.progress.cancelled,
        }
    }
}

pub mod resample {
    use crate::standins::StandIns;

    include!(concat!(env!("OUT_DIR"), "/resample.rs"));
}

pub mod flow {
    use std::cmp::Reverse;
    use std::collections::BinaryHeap;
    use std::f32::consts::SQRT_2;

    use super::{DIRX, DIRY};
    use crate::standins::StandIns;

    include!(concat!(env!("OUT_DIR"), "/flow.rs"));

    /// The spill heights of a routed network.
    pub fn spill(net: &FlowNet) -> &[f32] {
        &net.filled
    }

    /// Areas along the network's order once more.
    pub fn accumulate(net: &mut FlowNet) {
        net.accumulate();
    }

    /// A network with lent receivers and a lent list, its areas summed along them.
    pub fn lent(recv: &[u32], list: &[u32]) -> FlowNet {
        let mut net = FlowNet::new();
        net.recv = recv.to_vec();
        net.order = list.to_vec();
        net.accumulate();
        net
    }
}

pub mod thermal_erosion {
    use std::f32::consts::SQRT_2;

    use super::{add_upsampled, downsample, work_size, Progress, DIRX, DIRY};
    use crate::standins::StandIns;

    include!(concat!(env!("OUT_DIR"), "/thermal_erosion.rs"));

    /// The source's pass, for whole runs that are tested between passes.
    pub fn pass(
        size: (usize, usize),
        hmap: &[f32],
        out: &mut [f32],
        params: &ThermalParams,
        ends: (f32, f32),
        progress: &mut Progress,
    ) -> bool {
        slide_pass(size, hmap, out, params, ends.0, ends.1, progress)
    }

    /// The parameters of a direct talus pass.
    pub fn pass_params(threshold: f32, strength: f32, water_level: f32) -> ThermalParams {
        ThermalParams { threshold, diag_threshold: threshold * SQRT_2, strength, passes: 1, water_level }
    }
}

pub mod fluvial_erosion {
    use super::thermal_erosion::{slide_pass, ThermalErosionConf, ThermalParams};
    use super::{add_upsampled, downsample, receiver_distance, work_size, FlowNet, Progress};
    use crate::standins::StandIns;

    include!(concat!(env!("OUT_DIR"), "/fluvial_erosion.rs"));

    /// The incision coefficient of an area out of n cells, one cell away from the receiver.
    pub fn rate(area: f32, n_cells: f32, k: f32) -> f32 {
        incision_coef(area, n_cells, k, 1.0)
    }

    /// The parameters of a direct incision.
    pub fn incision_params(k: f32, uplift: f32, water_level: f32) -> FluvialParams {
        FluvialParams {
            k,
            uplift,
            iterations: 1,
            water_level,
            talus: super::thermal_erosion::pass_params(0.0, 0.0, water_level),
        }
    }
}
