//! Whole runs as crates/harness_runs exports them, with the scratch slices that they are lent. An answer is one word: 16 bits each for document
//! 01's number, incisions, passes and questions; a place instead of the last two where a refusal carries one.
use crate::lend::lend;
use crate::source::erosion::Settings;
use crate::Sides;

mod exported {
    /// A whole run with its settings, of which the first are floats, and the slices that it is lent.
    macro_rules! run {
        ($name:ident; $($setting:ident),*; $($lent:ident: $element:ty),*) => {
            pub fn $name(
                w: usize,
                h: usize,
                hmap: *mut f32,
                hmap_len: usize,
                $($setting: f32,)*
                iterations: u32,
                work_res: u32,
                stop: u32,
                $($lent: *mut $element, _: usize,)*
            ) -> u64;
        };
    }

    extern "C" {
        run!(harness_thermal_run; water_level, talus, strength; small: f32, eroded: f32, copy: f32);
        run!(harness_fluvial_run; water_level, strength, talus, uplift; small: f32, eroded: f32, copy: f32,
            area: f32, order: u32, recv: u32, queue: u32, status: u8);
    }
}

/// Document 01's number of a run's answer, 0 if none refuses.
pub fn number(word: u64) -> u32 {
    (word >> 48) as u32
}

/// The slices that a run is lent; a thermal run takes the first three.
pub struct Scratch {
    small: Vec<f32>,
    eroded: Vec<f32>,
    copy: Vec<f32>,
    area: Vec<f32>,
    order: Vec<u32>,
    recv: Vec<u32>,
    queue: Vec<u32>,
    status: Vec<u8>,
}

impl Scratch {
    pub fn new(n: usize) -> Scratch {
        Scratch::of(&[n; 8], 0)
    }

    /// Slices of these lengths, in the order above, each full of one value; those left out are empty.
    pub fn of(lengths: &[usize], held: u8) -> Scratch {
        let len = |i: usize| lengths.get(i).copied().unwrap_or(0);
        let floats = |i: usize| vec![held as f32; len(i)];
        let cells = |i: usize| vec![held as u32; len(i)];
        Scratch {
            small: floats(0),
            eroded: floats(1),
            copy: floats(2),
            area: floats(3),
            order: cells(4),
            recv: cells(5),
            queue: cells(6),
            status: vec![held; len(7)],
        }
    }

    /// Whether every slice is still full of that value.
    #[allow(dead_code)]
    pub fn holds(&self, held: u8) -> bool {
        let floats = [&self.small, &self.eroded, &self.copy, &self.area];
        let cells = [&self.order, &self.recv, &self.queue];
        floats.into_iter().flatten().all(|x| *x == held as f32)
            && cells.into_iter().flatten().all(|c| *c == held as u32)
            && self.status.iter().all(|s| *s == held)
    }

    /// The answer of a thermal run.
    pub fn thermal(&mut self, size: Sides, map: &mut [f32], s: &Settings, stop: u32) -> u64 {
        lend!(exported::harness_thermal_run; value [size.0, size.1] write [map]
            value [s.water_level, s.talus, s.strength, s.iterations, s.work_res, stop]
            write [self.small, self.eroded, self.copy])
    }

    /// The answer of a fluvial run.
    pub fn fluvial(&mut self, size: Sides, map: &mut [f32], s: &Settings, stop: u32) -> u64 {
        lend!(exported::harness_fluvial_run; value [size.0, size.1] write [map]
            value [s.water_level, s.strength, s.talus, s.uplift, s.iterations, s.work_res, stop]
            write [self.small, self.eroded, self.copy, self.area, self.order, self.recv, self.queue, self.status])
    }
}
