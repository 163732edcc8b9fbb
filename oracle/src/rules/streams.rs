//! Document 01's 'The stream': from the bytes of an input to those that `relief` prints. Written from the document, apart
//! from the Rattle code: the reader takes record after record off the front, the writer appends.
use super::runs::{gen_fluvial_erosion, gen_thermal_erosion, Run};
use super::{refuse, sides, Answer, Sides};
use crate::source::erosion::Settings;
use crate::source::resample::work_size;

pub type Mark = [u8; 2];

pub const GRID: Mark = [0x47, 0x52];
pub const FLUVIAL: Mark = [0x46, 0x4c];
pub const THERMAL: Mark = [0x54, 0x48];
pub const ROW: Mark = [0x52, 0x57];
pub const END: Mark = [0x45, 0x4e];

/// the most cells that the program takes
pub const MAX_CELLS: usize = 4096;

#[derive(Clone, Copy, PartialEq)]
pub enum Kind {
    Fluvial,
    Thermal,
}

/// What a stream asks for.
pub struct Asked {
    pub kind: Kind,
    pub size: Sides,
    pub s: Settings,
    pub stop: u32,
    pub map: Vec<f32>,
}

impl Asked {
    /// Whether the run works on a reduced grid.
    pub fn is_reduced(&self) -> bool {
        work_size(self.size, self.s.work_res as usize) != self.size
    }

    fn run(&mut self) -> Run {
        match self.kind {
            Kind::Fluvial => gen_fluvial_erosion(self.size, &mut self.map, &self.s, self.stop, &[]),
            Kind::Thermal => gen_thermal_erosion(self.size, &mut self.map, &self.s, self.stop, &[]),
        }
    }
}

/// What is left of an input. Whatever it does not hold any more is an early end, 8.
struct Input<'a> {
    left: &'a [u8],
}

impl Input<'_> {
    fn take<const N: usize>(&mut self) -> Answer<[u8; N]> {
        match self.left.split_first_chunk() {
            Some((front, left)) => {
                self.left = left;
                Ok(*front)
            }
            None => refuse(8),
        }
    }

    fn mark(&mut self, mark: Mark) -> Answer<()> {
        if self.take()? != mark {
            return refuse(8);
        }
        Ok(())
    }

    fn side(&mut self) -> Answer<usize> {
        Ok(u16::from_le_bytes(self.take()?) as usize)
    }

    fn number(&mut self) -> Answer<u32> {
        Ok(u32::from_le_bytes(self.take()?))
    }

    fn float(&mut self) -> Answer<f32> {
        Ok(f32::from_bits(self.number()?))
    }

    /// The values of a settings record, but for S, which comes last.
    fn settings(&mut self, kind: Kind) -> Answer<Settings> {
        let water_level = self.float()?;
        let (strength, talus, uplift) = match kind {
            Kind::Fluvial => (self.float()?, self.float()?, self.float()?),
            Kind::Thermal => {
                let talus = self.float()?;
                (self.float()?, talus, 0.0)
            }
        };
        let (iterations, work_res) = (self.number()?, self.number()?);
        Ok(Settings { water_level, strength, talus, uplift, iterations, work_res })
    }
}

/// What the bytes ask for, or 8 of the grid record, 1, 9, 8 of the rest.
fn read(bytes: &[u8]) -> Answer<Asked> {
    let mut from = Input { left: bytes };
    from.mark(GRID)?;
    let size = (from.side()?, from.side()?);
    sides(size)?;
    if size.0 * size.1 > MAX_CELLS {
        return refuse(9);
    }
    let kind = match from.take()? {
        FLUVIAL => Kind::Fluvial,
        THERMAL => Kind::Thermal,
        _ => return refuse(8),
    };
    let s = from.settings(kind)?;
    let stop = from.number()?;
    let mut map = Vec::new();
    for _ in 0..size.1 {
        from.mark(ROW)?;
        for _ in 0..size.0 {
            map.push(from.float()?);
        }
    }
    if !from.left.is_empty() {
        return refuse(8);
    }
    Ok(Asked { kind, size, s, stop, map })
}

fn number(answer: &Answer<()>) -> u32 {
    match answer {
        Ok(()) => 0,
        Err(r) => r.number,
    }
}

fn end_record(number: u32, counts: [u32; 3]) -> Vec<u8> {
    let mut out = END.to_vec();
    out.extend((number as u16).to_le_bytes());
    for n in counts {
        out.extend(n.to_le_bytes());
    }
    out
}

pub fn grid_record(size: Sides) -> Vec<u8> {
    let mut out = GRID.to_vec();
    out.extend((size.0 as u16).to_le_bytes());
    out.extend((size.1 as u16).to_le_bytes());
    out
}

/// Rows of w heights. A grid of no columns has rows of none, so it is told how many it has.
pub fn row_records(size: Sides, map: &[f32]) -> Vec<u8> {
    let mut out = Vec::new();
    for y in 0..size.1 {
        out.extend(ROW);
        for x in 0..size.0 {
            out.extend(map[x + y * size.0].to_bits().to_le_bytes());
        }
    }
    out
}

/// What came of an input.
pub struct Printed {
    pub bytes: Vec<u8>,
    pub number: u32,
    /// what the input asks for, with the map after the run, and the end of that run; nothing on 8, 1 and 9
    pub ran: Option<(Asked, Run)>,
}

/// The program. 4 and 5, which come last, are the whole run's own.
pub fn relief(input: &[u8]) -> Printed {
    let mut asked = match read(input) {
        Ok(asked) => asked,
        Err(r) => return Printed { bytes: end_record(r.number, [0; 3]), number: r.number, ran: None },
    };
    let run = asked.run();
    let number = number(&run.answer);
    let mut bytes = Vec::new();
    if !(1..=9).contains(&number) {
        bytes.extend(grid_record(asked.size));
        bytes.extend(row_records(asked.size, &asked.map));
    }
    bytes.extend(end_record(number, [run.counts.incisions, run.counts.passes, run.counts.questions]));
    Printed { bytes, number, ran: Some((asked, run)) }
}
