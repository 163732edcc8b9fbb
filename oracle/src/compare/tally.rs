//! What was compared: how many answers of each call have which number, and the smallest input of each call on which the two differ.
use std::collections::BTreeMap;

use crate::answer::{Answer, Sides};
use crate::counts::{by_call, Counts};

#[derive(Default)]
pub struct Tally {
    counts: Counts,
    differ: BTreeMap<&'static str, usize>,
    /// the number of cells, and the input
    smallest: BTreeMap<&'static str, (usize, String)>,
}

/// Document 01's number of an answer, 0 if none refuses.
pub fn number<T>(a: &Answer<T>) -> u32 {
    a.as_ref().err().map_or(0, |r| r.number)
}

/// An answer in one word: the value, or the number × 2^32 plus the place.
pub fn word<T>(a: &Answer<T>, value: impl Fn(&T) -> u64) -> u64 {
    match a {
        Ok(v) => value(v),
        Err(r) => (r.number as u64) << 32 | r.place as u64,
    }
}

/// Bit for bit: a NaN that a refused call leaves is the one that was handed in.
pub fn same(a: &[f32], b: &[f32]) -> bool {
    a.len() == b.len() && a.iter().zip(b).all(|(x, y)| x.to_bits() == y.to_bits())
}

/// Sides and heights as bits, for the report of a mismatch.
pub fn shown(size: Sides, h: &[f32]) -> String {
    let bits: Vec<String> = h.iter().take(64).map(|x| format!("{:08x}", x.to_bits())).collect();
    format!("{} x {}, {} heights: {}", size.0, size.1, h.len(), bits.join(" "))
}

impl Tally {
    /// One comparison: the number that the source's side answers, and whether all outputs are the same.
    pub fn compared(&mut self, call: &'static str, number: u32, alike: bool, cells: usize, input: impl Fn() -> String) {
        *self.counts.entry((call, number)).or_insert(0) += 1;
        if !alike {
            *self.differ.entry(call).or_insert(0) += 1;
            if self.smallest.get(call).map_or(true, |s| cells < s.0) {
                self.smallest.insert(call, (cells, input()));
            }
        }
    }

    /// Whether every answer has that number.
    pub fn all(&self, number: u32) -> bool {
        self.counts.keys().all(|(_, n)| *n == number)
    }

    /// Prints a row for each call; gives whether nothing differed.
    pub fn print(&self, title: &str) -> bool {
        let total: usize = self.counts.values().sum();
        println!("{title}: {total} comparisons");
        println!("| call | compared | accepted | refused (number: times) | differ |");
        println!("|---|---|---|---|---|");
        for (call, of) in by_call(&self.counts) {
            let all: usize = of.iter().map(|c| c.1).sum();
            let done = of.iter().find(|c| c.0 == 0).map_or(0, |c| c.1);
            let refused: Vec<String> = of.iter().filter(|c| c.0 > 0).map(|c| format!("{}: {}", c.0, c.1)).collect();
            let differ = self.differ.get(call).copied().unwrap_or(0);
            println!("| {call} | {all} | {done} | {} | {differ} |", refused.join(", "));
        }
        for (call, (cells, input)) in &self.smallest {
            println!("smallest input on which {call} differs, {cells} cells: {input}");
        }
        println!();
        self.differ.is_empty()
    }
}
