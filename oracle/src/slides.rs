//! The third part of the list, behind the incisions: single talus passes with their stop marks.
use crate::list::{self, call::SLIDE_PASS, result, word, List, Numbers};
use crate::random::Random;
use crate::rules::passes::slide_pass as ask_slide_pass;
use crate::rules::Sides;
use crate::source::erosion::{Pass, Talus};
use crate::source::Record;
use crate::terrain::fault::{HEIGHT, LENGTH, MARKS, SETTING, SIDE};
use crate::terrain::{
    bad_length, bad_sides, ends, faults, grid, map, not_finite, outside, relief, spoilt, water, EXTREME, FILL, RELIEFS, TINY,
};

struct Task {
    size: Sides,
    h: Vec<f32>,
    out: usize,
    p: Pass,
}

/// The record after the call.
fn slide_pass(l: &mut List, t: &Task) -> Record {
    let Pass { s, ends, r, stop } = t.p;
    let written = vec![FILL; t.out];
    let mut out = written.clone();
    let (a, after) = ask_slide_pass(t.size, &t.h, &mut out, &t.p);
    l.ended("slide_pass", &a);
    let numbers = Numbers { size: t.size, stop, ..Numbers::default() };
    let floats = [s.threshold, s.strength, s.water_level, ends.0, ends.1];
    let of = list::Task::of(SLIDE_PASS, numbers, &floats);
    let task = list::Task { read: t.h.clone(), written, rest: r.into(), ..of };
    l.task(&task, &after.into(), word(&a, |_| 0), result(&a, &out));
    after
}

fn settings(r: &mut Random, water_level: f32) -> Talus {
    let any = r.unit();
    let threshold = r.pick(&[0.0, -0.0, 16.0, 0.03, TINY, any, any * 0.25, 1.0]);
    let strength = r.pick(&[0.0, -0.0, 1.0, 0.5, TINY, any]);
    Talus { threshold, strength, water_level }
}

fn record(r: &mut Random) -> Record {
    let any = r.unit();
    let last = r.pick(&[-1.0, 0.0, -0.0, 0.5, any, 1.0]);
    let asked = r.pick(&[0, 1, 9, 1 << 31]);
    Record { last, asked, stopped: r.below(12) == 0 }
}

fn task(r: &mut Random, size: Sides, kind: usize) -> Task {
    let h = relief(r, size, kind);
    let s = settings(r, 0.0);
    let water_level = water(r, &h);
    let out = h.len();
    let p = Pass { ends: ends(r), ..Pass::whole(Talus { water_level, ..s }) };
    Task { size, h, out, p }
}

pub fn slides(l: &mut List, r: &mut Random) {
    for (threshold, water_level) in [(0.5, 1.0), (1.0, 1.0), (0.5, 2.0)] {
        let s = Talus { threshold, strength: 0.5, water_level };
        let h = vec![1.0, 0.0];
        slide_pass(l, &Task { size: (2, 1), h, out: 2, p: Pass::whole(s) });
    }
    for i in 0..390 {
        let size = grid(r, i / RELIEFS, if i % 20 == 0 { 34 } else { 10 });
        let mut t = task(r, size, i % RELIEFS);
        if i % 3 > 0 {
            t.p.r = record(r);
            let later = t.p.r.asked + r.within(2, 9) as u32;
            t.p.stop = r.pick(&[0, t.p.r.asked, t.p.r.asked + 1, later]);
        }
        slide_pass(l, &t);
    }
    for (size, kind) in [((64, 64), 0), ((4096, 1), 3), ((1, 4096), 0)] {
        let mut t = task(r, size, kind);
        t.p.s = Talus { threshold: 0.01, strength: 0.5, water_level: -0.5 };
        t.p.ends = (0.0, 1.0);
        slide_pass(l, &t);
    }
    stops(l, r);
    refusals(l, r);
}

/// S at each question and past the last, on heights that stay finite and on heights that run off, where a stop comes first.
fn stops(l: &mut List, r: &mut Random) {
    for i in 0..14 {
        let size = (r.within(1, 4), r.within(1, 9));
        let mut t = task(r, size, if i % 2 == 0 { EXTREME } else { 0 });
        t.p.s.strength = r.pick(&[0.0, 0.5, 1.0]);
        t.p.s.water_level = f32::MIN;
        t.p.ends = r.pick(&[(0.0, 1.0), (0.25, 0.5), (0.0, 0.04), (1.0, 0.0)]);
        if i % 4 == 3 {
            t.p.r = Record { last: 0.0, asked: 5, stopped: false };
        }
        let asked = slide_pass(l, &t).asked;
        for stop in t.p.r.asked..=asked + 1 {
            t.p.stop = stop;
            slide_pass(l, &t);
        }
        t.p.stop = 0;
        t.p.r.stopped = true;
        slide_pass(l, &t);
    }
}

fn refusals(l: &mut List, r: &mut Random) {
    for f in faults(&[SIDE, LENGTH, SETTING, MARKS, HEIGHT]).repeat(10) {
        let size = (r.within(1, 4), r.within(2, 4));
        let mut t = task(r, size, 0);
        t.p.r = record(r);
        if f & HEIGHT != 0 {
            t.h = spoilt(r, &t.h);
        }
        if f & SETTING != 0 {
            match r.below(3) {
                0 => t.p.s.threshold = outside(r, 0.0, 16.0),
                1 => t.p.s.strength = outside(r, 0.0, 1.0),
                _ => t.p.s.water_level = not_finite(r),
            }
        }
        if f & MARKS != 0 {
            match r.below(4) {
                0 => t.p.ends.0 = outside(r, 0.0, 1.0),
                1 => t.p.ends.1 = outside(r, 0.0, 1.0),
                2 => t.p.r.last = outside(r, -1.0, 1.0),
                _ => t.p.r.asked = r.pick(&[(1 << 31) + 1, u32::MAX]),
            }
        }
        if f & LENGTH != 0 {
            let len = bad_length(r, t.h.len());
            if r.below(2) == 0 {
                t.out = len;
            } else {
                t.h = map(r, len, 0);
            }
        }
        if f & SIDE != 0 {
            t.size = bad_sides(r, size);
        }
        slide_pass(l, &t);
    }
}
