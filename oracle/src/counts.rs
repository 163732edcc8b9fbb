//! How often each call ended in each refusal; number 0 is none.
use std::collections::BTreeMap;

pub type Counts = BTreeMap<(&'static str, u32), usize>;

/// The calls in order, each with its numbers and how often each was met.
pub fn by_call(counts: &Counts) -> Vec<(&'static str, Vec<(u32, usize)>)> {
    let mut calls: Vec<&str> = counts.keys().map(|k| k.0).collect();
    calls.dedup();
    let of = |call: &str| counts.iter().filter(|(k, _)| k.0 == call).map(|(k, n)| (k.1, *n)).collect();
    calls.into_iter().map(|call| (call, of(call))).collect()
}
