//! Routing and single passes behind their refusals. A result slice is given as it is before the call.
use super::{heights, length, record_ok, refuse, run_off, scratch, setting, sides, within, Answer, Refusal, Sides};
use crate::source::erosion::{self, Incision, Pass, Routed};
use crate::source::Record;

/// The lengths of the slices that `route` is lent beside the heights.
#[derive(Clone, Copy)]
pub struct RouteRoom {
    pub order: usize,
    pub recv: usize,
    pub spill: usize,
    pub area: usize,
    /// scratch: the queue and the cells' states
    pub queue: usize,
    pub status: usize,
}

pub fn route(size: Sides, h: &[f32], water_level: f32, room: RouteRoom) -> Answer<Routed> {
    sides(size)?;
    for len in [h.len(), room.order, room.recv, room.spill, room.area] {
        length(size, len)?;
    }
    scratch(size, &[room.queue, room.status])?;
    setting(water_level.is_finite())?;
    heights(h)?;
    Ok(erosion::route(size, h, water_level))
}

/// Whether cells a and b of a grid w wide are neighbours.
fn adjacent(w: usize, a: usize, b: usize) -> bool {
    let near = |p: usize, q: usize| p.abs_diff(q) <= 1;
    a != b && near(a % w, b % w) && near(a / w, b / w)
}

/// 6: a lent receiver that is neither its own cell nor a neighbour, with the first such cell.
fn receivers(size: Sides, recv: &[u32]) -> Answer<()> {
    let bad = |i: usize| {
        let r = recv[i] as usize;
        r != i && (r >= recv.len() || !adjacent(size.0, i, r))
    };
    match (0..recv.len()).find(|i| bad(*i)) {
        Some(i) => Err(Refusal { number: 6, place: i as u32 }),
        None => Ok(()),
    }
}

/// 7: the first position whose entry is no cell, stood earlier, or has another cell as receiver that did not stand earlier.
fn work_list(recv: &[u32], list: &[u32]) -> Answer<()> {
    let mut stood = vec![false; recv.len()];
    for (p, c) in list.iter().enumerate() {
        let c = *c as usize;
        let bad = c >= recv.len() || stood[c] || (recv[c] as usize != c && !stood[recv[c] as usize]);
        if bad {
            return Err(Refusal { number: 7, place: p as u32 });
        }
        stood[c] = true;
    }
    Ok(())
}

/// The heights incised into `out`, whose content is free on 22; `area` is the length of the scratch for areas.
pub fn incise(
    size: Sides,
    h: &[f32],
    s: &Incision,
    recv: &[u32],
    list: &[u32],
    out: &mut [f32],
    area: usize,
) -> Answer<()> {
    sides(size)?;
    for len in [h.len(), recv.len(), list.len(), out.len()] {
        length(size, len)?;
    }
    scratch(size, &[area])?;
    setting(within(s.k, 0.0, 64.0) && within(s.uplift, -1.0, 1.0) && s.water_level.is_finite())?;
    heights(h)?;
    receivers(size, recv)?;
    work_list(recv, list)?;
    out.copy_from_slice(h);
    erosion::incise(size, out, recv, list, s);
    run_off(out)
}

/// One pass into `out`, whose content is free on 21 and 22, and the record; on 1 to 5 the record as given.
pub fn slide_pass(size: Sides, h: &[f32], out: &mut [f32], p: &Pass) -> (Answer<()>, Record) {
    if let Err(e) = slide_refusal(size, h, out, p) {
        return (Err(e), p.r);
    }
    out.copy_from_slice(h);
    let (on, after) = erosion::slide_pass(size, h, out, p);
    // a stop inside a pass that would run off comes first
    (if on { run_off(out) } else { refuse(21) }, after)
}

fn slide_refusal(size: Sides, h: &[f32], out: &[f32], p: &Pass) -> Answer<()> {
    let Pass { s, ends, r, .. } = *p;
    sides(size)?;
    length(size, h.len())?;
    length(size, out.len())?;
    setting(within(s.threshold, 0.0, 16.0) && within(s.strength, 0.0, 1.0) && s.water_level.is_finite())?;
    setting(within(ends.0, 0.0, 1.0) && within(ends.1, 0.0, 1.0) && record_ok(r))?;
    heights(h)
}
