//! The part of the list on passes over eight thresholds.
use crate::answer::Record;
use crate::inputs::{damage, task, whole, Task, BAD, ENDS, FAULTS, MOST};
use crate::list::{self, result, word, List, Numbers, Rest};
use crate::random::Random;
use crate::talus::{prepared, slide_pass_over};
use crate::terrain::{faults, EXTREME, FILL, RELIEFS};

/// The word that a task of this call begins with; oracle/README.md has those of all calls.
const SLIDE_PASS_OVER: u32 = 14;

/// The record after the call.
fn add(l: &mut List, t: &Task) -> Record {
    let p = &t.pass;
    let written = vec![FILL; t.out];
    let mut out = written.clone();
    let (a, after) = slide_pass_over(t.size, &t.heights, &mut out, p);
    l.ended("slide_pass_over", &a);
    let numbers = Numbers { size: t.size, stop: p.stop, ..Numbers::default() };
    let of = list::Task::of(SLIDE_PASS_OVER, numbers, &[p.strength, p.water_level, p.ends.0, p.ends.1]);
    let rest = Rest { values: p.thresholds.to_vec(), ..p.record.into() };
    let task = list::Task { read: t.heights.clone(), written, rest, ..of };
    l.task(&task, &after.into(), word(&a, |_| 0), result(&a, &out));
    after
}

/// The examples of crates/plates, and each place of eight thresholds with each value at the ends of the range and outside.
fn examples(l: &mut List) {
    let three = [MOST, MOST, MOST, MOST, 0.0, MOST, 1.0, 2.0];
    let mut t = Task { size: (2, 2), heights: vec![4.0, 3.0, 2.0, 1.0], out: 4, pass: whole(three, 0.5, 0.0) };
    add(l, &t);
    t.pass.stop = 1;
    add(l, &t);
    t.pass = whole(prepared(1.0), 0.5, 0.0);
    add(l, &t);
    let eight = [2.0, 5.0, 8.0, 11.0, 14.0, 17.0, 20.0, 23.0];
    let heights = vec![21.0, 18.0, 15.0, 12.0, 24.0, 9.0, 6.0, 3.0, 0.0];
    let middle = Task { size: (3, 3), heights, out: 9, pass: whole(eight, 0.5, 0.0) };
    add(l, &middle);
    for place in 0..8 {
        for value in ENDS.iter().chain(&BAD) {
            let mut t = middle.clone();
            t.pass.thresholds[place] = *value;
            add(l, &t);
        }
    }
}

/// S at each question and past the last, on heights that stay finite and on heights that run off, where a stop comes first.
fn stops(l: &mut List, r: &mut Random) {
    for i in 0..8 {
        let mut t = task(r, i, 6);
        if i % 2 == 0 {
            t.heights = crate::terrain::map(r, t.out, EXTREME);
        }
        t.pass = whole(t.pass.thresholds, 1.0, f32::MIN);
        let asked = add(l, &t).asked;
        for stop in 1..=asked + 1 {
            t.pass.stop = stop;
            add(l, &t);
        }
    }
}

pub fn list(l: &mut List, r: &mut Random) {
    examples(l);
    for i in 0..10 * RELIEFS {
        let t = task(r, i, if i % 20 == 0 { 34 } else { 8 });
        add(l, &t);
    }
    stops(l, r);
    for f in faults(&FAULTS).repeat(8) {
        let mut t = task(r, 2 * RELIEFS, 4);
        damage(r, &mut t, f);
        add(l, &t);
    }
}
