//! Document 02, card 5: a talus pass over any eight thresholds in scan order, each 0 to 96, and document 01, 'Talus',
//! for all else. Written from their words, cell by cell.
use crate::answer::{Answer, Record, Sides};
use crate::rules::{
    check_finite, check_heights, check_length, check_range, check_record, check_sides, refusal, report,
};

/// NW, N, NE, W, E, SW, S, SE: columns to the east and rows to the south.
const SCAN_ORDER: [(i32, i32); 8] = [(-1, -1), (0, -1), (1, -1), (-1, 0), (1, 0), (-1, 1), (0, 1), (1, 1)];

/// What a pass takes beside its grid: thresholds in scan order, strength, water level, the ends that it reports between, the record before it
/// and S.
#[derive(Clone, Copy)]
pub struct Pass {
    pub thresholds: [f32; 8],
    pub strength: f32,
    pub water_level: f32,
    pub ends: (f32, f32),
    pub record: Record,
    pub stop: u32,
}

fn check(size: Sides, heights: &[f32], out: &[f32], p: &Pass) -> Answer<()> {
    check_sides(size)?;
    check_length(size, heights.len())?;
    check_length(size, out.len())?;
    for threshold in p.thresholds {
        check_range(threshold, 0.0, 96.0)?;
    }
    check_range(p.strength, 0.0, 1.0)?;
    check_finite(p.water_level)?;
    check_range(p.ends.0, 0.0, 1.0)?;
    check_range(p.ends.1, 0.0, 1.0)?;
    check_record(p.record)?;
    check_heights(heights)
}

/// The cell one step on, if there is one.
fn neighbour((w, h): Sides, cell: usize, step: (i32, i32)) -> Option<usize> {
    let x = (cell % w) as i32 + step.0;
    let y = (cell / w) as i32 + step.1;
    let inside = 0 <= x && x < w as i32 && 0 <= y && y < h as i32;
    inside.then(|| x as usize + y as usize * w)
}

/// A cell's excesses above 0, in scan order, each with the neighbour toward which it is.
fn excesses(size: Sides, heights: &[f32], cell: usize, thresholds: &[f32; 8]) -> Vec<(usize, f32)> {
    let mut counted = Vec::new();
    for (step, threshold) in SCAN_ORDER.iter().zip(thresholds) {
        if let Some(other) = neighbour(size, cell, *step) {
            let excess = (heights[cell] - heights[other]) - threshold;
            if excess > 0.0 {
                counted.push((other, excess));
            }
        }
    }
    counted
}

fn slide_cell(size: Sides, heights: &[f32], out: &mut [f32], p: &Pass, cell: usize) {
    if heights[cell] < p.water_level {
        return;
    }
    let counted = excesses(size, heights, cell, &p.thresholds);
    let (mut total, mut greatest) = (0.0f32, 0.0f32);
    for (_, excess) in &counted {
        total += excess;
        greatest = if greatest >= *excess { greatest } else { *excess };
    }
    if total <= 0.0 {
        return;
    }
    let moved = p.strength * greatest;
    out[cell] -= moved;
    for (other, excess) in counted {
        out[other] += moved * excess / total;
    }
}

/// One pass from `heights` into `out`, and the record after it. On 1 to 5 `out` stays as it is and the record as given; on 21 and 22 `out` holds
/// the rows done so far.
pub fn slide_pass_over(size: Sides, heights: &[f32], out: &mut [f32], p: &Pass) -> (Answer<()>, Record) {
    let mut r = p.record;
    if let Err(e) = check(size, heights, out, p) {
        return (Err(e), r);
    }
    out.copy_from_slice(heights);
    let (from, to) = p.ends;
    for y in 0..size.1 {
        if r.stopped {
            break;
        }
        for x in 0..size.0 {
            slide_cell(size, heights, out, p, x + y * size.0);
        }
        report(&mut r, from + (to - from) * y as f32 / size.1 as f32, p.stop);
    }
    if r.stopped {
        return (refusal(21), r);
    }
    if out.iter().any(|height| !height.is_finite()) {
        return (refusal(22), r);
    }
    (Ok(()), r)
}

/// The eight thresholds that `slide_pass` makes of one: itself toward the sides, times the square root of 2 toward the corners.
pub fn prepared(threshold: f32) -> [f32; 8] {
    let diagonal = threshold * std::f32::consts::SQRT_2;
    SCAN_ORDER.map(|(x, y)| if x != 0 && y != 0 { diagonal } else { threshold })
}
