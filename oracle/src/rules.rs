//! The refusals of document 01 around the source's functions: each call checks what it takes in number order, and gives
//! 22 where its result is not finite. Written from the document, apart from the Rattle code.
pub use crate::answer::{Answer, Refusal, Sides};
use crate::source::{self, resample, Marks, Record};

pub mod passes;
pub mod runs;
pub mod streams;

const MAX_SIDE: usize = 4096;

fn refuse<T>(number: u32) -> Answer<T> {
    Err(Refusal { number, place: 0 })
}

/// 1: a side outside 1 to 4,096.
fn sides(size: Sides) -> Answer<()> {
    let bad = |s: usize| s < 1 || s > MAX_SIDE;
    if bad(size.0) || bad(size.1) {
        return refuse(1);
    }
    Ok(())
}

/// 2: a reduced side that is 0 or greater than the full one.
fn reduced(size: Sides, small: Sides) -> Answer<()> {
    let bad = |full: usize, s: usize| s == 0 || s > full;
    if bad(size.0, small.0) || bad(size.1, small.1) {
        return refuse(2);
    }
    Ok(())
}

/// 3: a slice that does not hold exactly its grid's cells.
fn length(size: Sides, len: usize) -> Answer<()> {
    if len != size.0 * size.1 {
        return refuse(3);
    }
    Ok(())
}

/// 3: scratch that holds fewer cells than its grid.
fn scratch(size: Sides, lens: &[usize]) -> Answer<()> {
    if lens.iter().any(|len| *len < size.0 * size.1) {
        return refuse(3);
    }
    Ok(())
}

/// Whether a setting lies in its range; a NaN lies in none.
fn within(x: f32, lo: f32, hi: f32) -> bool {
    lo <= x && x <= hi
}

/// Whether a record may be given to a call.
fn record_ok(r: Record) -> bool {
    within(r.last, -1.0, 1.0) && r.asked <= 1 << 31
}

/// 4: a setting outside its range, of which `ok` is the test.
fn setting(ok: bool) -> Answer<()> {
    if !ok {
        return refuse(4);
    }
    Ok(())
}

/// 5: a height not finite, with the first such cell.
fn heights(v: &[f32]) -> Answer<()> {
    match v.iter().position(|h| !h.is_finite()) {
        Some(i) => Err(Refusal { number: 5, place: i as u32 }),
        None => Ok(()),
    }
}

/// 22: a result not finite.
fn run_off(v: &[f32]) -> Answer<()> {
    if v.iter().any(|h| !h.is_finite()) {
        return refuse(22);
    }
    Ok(())
}

/// The square root; 4: an operand below 0 or not finite.
pub fn root(x: f32) -> Answer<f32> {
    setting(x.is_finite() && x >= 0.0)?;
    Ok(x.sqrt())
}

pub fn work_size(size: Sides, max_res: u32) -> Answer<Sides> {
    sides(size)?;
    Ok(resample::work_size(size, max_res as usize))
}

/// Whether to go on, with the record; on 4 the record as given.
pub fn report(r: Record, p: f32, stop: u32) -> (Answer<bool>, Record) {
    if let Err(e) = setting(within(p, 0.0, 1.0) && record_ok(r)) {
        return (Err(e), r);
    }
    let mut marks = Marks::new(r, stop);
    let on = marks.progress.report(p);
    (Ok(on), marks.record())
}

pub fn get_min_max(v: &[f32]) -> Answer<(f32, f32)> {
    heights(v)?;
    Ok(source::get_min_max(v))
}

/// On a refusal the slice stays as it is.
pub fn normalize(v: &mut [f32], lo: f32, hi: f32) -> Answer<()> {
    setting(lo.is_finite() && hi.is_finite())?;
    heights(v)?;
    let mut out = v.to_vec();
    source::normalize(&mut out, lo, hi);
    run_off(&out)?;
    v.copy_from_slice(&out);
    Ok(())
}

/// On 1 to 5 `dst` stays as it is; on 22 it holds the averages.
pub fn downsample(src: &[f32], size: Sides, dst: &mut [f32], small: Sides) -> Answer<()> {
    sides(size)?;
    reduced(size, small)?;
    length(size, src.len())?;
    length(small, dst.len())?;
    heights(src)?;
    dst.copy_from_slice(&resample::downsample(src, size, small));
    run_off(dst)
}

pub fn bilinear(v: &[f32], x: f32, y: f32, size: Sides) -> Answer<f32> {
    sides(size)?;
    length(size, v.len())?;
    setting(0.0 <= x && x < size.0 as f32 && 0.0 <= y && y < size.1 as f32)?;
    heights(v)?;
    let sample = resample::bilinear(v, x, y, size);
    run_off(&[sample])?;
    Ok(sample)
}

/// On a refusal the map stays as it is.
pub fn add_upsampled(map: &mut [f32], size: Sides, delta: &[f32], small: Sides) -> Answer<()> {
    sides(size)?;
    reduced(size, small)?;
    length(size, map.len())?;
    length(small, delta.len())?;
    heights(map)?;
    heights(delta)?;
    let mut out = map.to_vec();
    resample::add_upsampled(&mut out, size, delta, small);
    run_off(&out)?;
    map.copy_from_slice(&out);
    Ok(())
}
