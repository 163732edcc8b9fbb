//! Ranges and refusals of documents 01 and 02, and stop marks, in plain Rust.
use crate::answer::{Answer, Record, Refusal, Sides};

const LONGEST_SIDE: usize = 4096;
const MOST_ASKED: u32 = 1 << 31;

pub fn refusal<T>(number: u32) -> Answer<T> {
    Err(Refusal { number, place: 0 })
}

/// 1: a side outside 1 to 4,096.
pub fn check_sides((w, h): Sides) -> Answer<()> {
    if (1..=LONGEST_SIDE).contains(&w) && (1..=LONGEST_SIDE).contains(&h) {
        return Ok(());
    }
    refusal(1)
}

/// 3: a map or result that does not hold exactly its grid's cells.
pub fn check_length((w, h): Sides, length: usize) -> Answer<()> {
    if length == w * h {
        return Ok(());
    }
    refusal(3)
}

/// 4: a setting outside its range. Ends belong to it, a NaN lies in none, -0 counts as 0.
pub fn check_range(x: f32, least: f32, greatest: f32) -> Answer<()> {
    if x >= least && x <= greatest {
        return Ok(());
    }
    refusal(4)
}

/// 4: a water level that is not finite.
pub fn check_finite(x: f32) -> Answer<()> {
    check_range(x, f32::MIN, f32::MAX)
}

/// 4: a record whose last p lies outside -1 to 1, or with more than 2^31 questions.
pub fn check_record(r: Record) -> Answer<()> {
    check_range(r.last, -1.0, 1.0)?;
    if r.asked > MOST_ASKED {
        return refusal(4);
    }
    Ok(())
}

/// 5: a height that is not finite, with the first such cell.
pub fn check_heights(heights: &[f32]) -> Answer<()> {
    for (cell, height) in heights.iter().enumerate() {
        if !height.is_finite() {
            return Err(Refusal { number: 5, place: cell as u32 });
        }
    }
    Ok(())
}

/// A report of p: a question is asked where p - last is 0.01 or more, and the S-th question stops.
pub fn report(r: &mut Record, p: f32, stop: u32) {
    if !r.stopped && p - r.last >= 0.01 {
        r.last = p;
        r.asked += 1;
        r.stopped = r.asked == stop;
    }
}
