//! The third part of the list: incision along lent receivers and lists.
use crate::list::{self, call::INCISE, result, word, List, Numbers, Rest, ROOM};
use crate::random::Random;
use crate::rules::passes::incise as ask_incise;
use crate::rules::Sides;
use crate::source::erosion::{self, Incision};
use crate::terrain::fault::{HEIGHT, LENGTH, LIST, RECEIVER, SETTING, SIDE};
use crate::terrain::{
    bad_length, bad_sides, faults, grid, not_finite, outside, relief, spoilt, water, EXTREME, FILL, KINDS, RELIEFS,
    TINY,
};

/// A task: sides, heights, settings, network and the length of the result.
struct Task {
    size: Sides,
    h: Vec<f32>,
    s: Incision,
    recv: Vec<u32>,
    list: Vec<u32>,
    out: usize,
}

fn incise(l: &mut List, t: &Task) {
    let written = vec![FILL; t.out];
    let mut out = written.clone();
    let a = ask_incise(t.size, &t.h, &t.s, &t.recv, &t.list, &mut out, ROOM);
    l.ended("incise", &a);
    let numbers = Numbers { size: t.size, ..Numbers::default() };
    let settings = [t.s.k, t.s.uplift, t.s.water_level];
    let rest = Rest { cells: vec![t.recv.clone(), t.list.clone()], ..Rest::default() };
    let task = list::Task { read: t.h.clone(), written, rest, ..list::Task::of(INCISE, numbers, &settings) };
    l.task(&task, &Rest::default(), word(&a, |_| 0), result(&a, &out));
}

/// The neighbours of a cell.
fn neighbours(size: Sides, c: usize) -> Vec<usize> {
    let near = |p: usize, side: usize| p.saturating_sub(1)..=(p + 1).min(side - 1);
    let all = near(c / size.0, size.1).flat_map(|y| near(c % size.0, size.0).map(move |x| x + y * size.0));
    all.filter(|i| *i != c).collect()
}

fn shuffled(r: &mut Random, n: usize) -> Vec<usize> {
    let mut v: Vec<usize> = (0..n).collect();
    for i in (1..n).rev() {
        v.swap(i, r.below(i + 1));
    }
    v
}

/// Receivers with a list of theirs: cells in any order, each into a neighbour that stands already, or into itself.
fn random_network(r: &mut Random, size: Sides) -> (Vec<u32>, Vec<u32>) {
    let order = shuffled(r, size.0 * size.1);
    let mut stood = vec![false; order.len()];
    let mut recv = vec![0; order.len()];
    for c in &order {
        let near: Vec<usize> = neighbours(size, *c).into_iter().filter(|i| stood[*i]).collect();
        recv[*c] = if near.is_empty() || r.below(8) == 0 { *c as u32 } else { r.pick(&near) as u32 };
        stood[*c] = true;
    }
    (recv, order.into_iter().map(|c| c as u32).collect())
}

/// Another list of the receivers: in each step any cell whose receiver stands already.
fn another_list(r: &mut Random, recv: &[u32]) -> Vec<u32> {
    let mut fed = vec![Vec::new(); recv.len()];
    let mut ready = Vec::new();
    for (c, to) in recv.iter().enumerate() {
        if *to as usize == c {
            ready.push(c as u32);
        } else {
            fed[*to as usize].push(c as u32);
        }
    }
    let mut list = Vec::new();
    while !ready.is_empty() {
        let c = ready.swap_remove(r.below(ready.len()));
        ready.extend(&fed[c as usize]);
        list.push(c);
    }
    list
}

/// The flood's network of the heights with another list, or receivers and a list at random.
fn network(r: &mut Random, size: Sides, h: &[f32], water_level: f32) -> (Vec<u32>, Vec<u32>) {
    if r.below(2) == 0 {
        return random_network(r, size);
    }
    let recv = erosion::route(size, h, water_level).recv;
    let list = another_list(r, &recv);
    (recv, list)
}

fn settings(r: &mut Random, water_level: f32) -> Incision {
    let any = [r.unit() * 64.0, r.unit()];
    let k = r.pick(&[0.0, -0.0, 64.0, 1.0, 0.5, TINY, any[0], any[1]]);
    let uplift = r.pick(&[0.0, -0.0, 1.0, -1.0, 0.001, any[1], -any[1]]);
    Incision { k, uplift, water_level }
}

fn task(r: &mut Random, size: Sides, kind: usize) -> Task {
    let h = relief(r, size, kind);
    let water_level = water(r, &h);
    let s = settings(r, water_level);
    let (recv, list) = network(r, size, &h, water_level);
    let n = h.len();
    Task { size, h, s, recv, list, out: n }
}

pub fn incisions(l: &mut List, r: &mut Random) {
    plates(l);
    for i in 0..330 {
        let size = grid(r, i / RELIEFS, if i % 20 == 0 { 30 } else { 9 });
        let t = task(r, size, i % RELIEFS);
        incise(l, &t);
    }
    run_offs(l, r);
    // more than 10,000 cells, where the floor of the areas is above one cell
    for (size, k) in [((104, 100), 8.0), ((3, 3500), 64.0)] {
        let h = relief(r, size, 0);
        let recv = erosion::route(size, &h, -0.5).recv;
        let list = another_list(r, &recv);
        let n = h.len();
        incise(l, &Task { size, h, s: Incision { k, uplift: 0.001, water_level: -0.5 }, recv, list, out: n });
    }
    refusals(l, r);
    damaged(l, r);
}

/// One cell, with settings at the ends of their ranges and beyond.
fn plates(l: &mut List) {
    let one = |h: f32, k: f32, uplift: f32, water_level: f32| Task {
        size: (1, 1),
        h: vec![h],
        s: Incision { k, uplift, water_level },
        recv: vec![0],
        list: vec![0],
        out: 1,
    };
    let above = f32::from_bits(64f32.to_bits() + 1);
    let over = f32::from_bits(0x3f80_0001);
    for h in [1.0, 0.0, -0.0, -1.0, TINY] {
        for uplift in [0.0, 0.5, 1.0, -1.0, over, -over, f32::NAN] {
            incise(l, &one(h, 1.0, uplift, 0.0));
        }
        for k in [0.0, -0.0, 64.0, above, -TINY, f32::NAN, f32::INFINITY] {
            incise(l, &one(h, k, 0.0, -0.0));
        }
    }
    for water_level in [f32::NAN, f32::INFINITY, f32::NEG_INFINITY, f32::MAX, f32::MIN] {
        incise(l, &one(1.0, 1.0, 0.0, water_level));
    }
}

/// Heights that run off, alone or after others that did not.
fn run_offs(l: &mut List, r: &mut Random) {
    for i in 0..60 {
        let size = grid(r, i, 5);
        let mut t = task(r, size, if i % 3 == 0 { EXTREME } else { 0 });
        let c = r.below(t.h.len());
        t.h[c] = f32::MAX;
        let any = r.unit();
        t.s.water_level = r.pick(&[f32::MAX / 2.0, 3.3e38, -3e38, 0.0]);
        t.s.k = r.pick(&[64.0, 1.0, any, 0.0]);
        incise(l, &t);
    }
}

fn refusals(l: &mut List, r: &mut Random) {
    for f in faults(&[SIDE, LENGTH, SETTING, HEIGHT, RECEIVER, LIST]).repeat(7) {
        let size = (r.within(1, 5), r.within(3, 5));
        let mut t = task(r, size, 0);
        if f & RECEIVER != 0 {
            bad_receiver(r, &mut t);
        }
        if f & LIST != 0 {
            bad_list(r, &mut t);
        }
        if f & HEIGHT != 0 {
            t.h = spoilt(r, &t.h);
        }
        if f & SETTING != 0 {
            match r.below(3) {
                0 => t.s.k = outside(r, 0.0, 64.0),
                1 => t.s.uplift = outside(r, -1.0, 1.0),
                _ => t.s.water_level = not_finite(r),
            }
        }
        if f & LENGTH != 0 {
            let n = t.h.len();
            match r.below(4) {
                0 => t.h.resize(bad_length(r, n), 0.0),
                1 => t.recv.resize(bad_length(r, n), 0),
                2 => t.list.resize(bad_length(r, n), 0),
                _ => t.out = bad_length(r, n),
            }
        }
        if f & SIDE != 0 {
            t.size = bad_sides(r, size);
        }
        incise(l, &t);
    }
}

/// A receiver outside the grid, two cells away, or beside it in number only.
fn bad_receiver(r: &mut Random, t: &mut Task) {
    let (w, n) = (t.size.0, t.h.len());
    for _ in 0..r.within(1, 2) {
        let c = r.below(n);
        let far: Vec<usize> = (0..n).filter(|i| *i != c && !neighbours(t.size, c).contains(i)).collect();
        let bad = if far.is_empty() { n } else { r.pick(&far) };
        // the last cell of a row and the first of the next
        let wrapped = if w > 2 && c % w == w - 1 { c + 1 } else { bad };
        t.recv[c] = r.pick(&[bad, wrapped, n, n + 1, u32::MAX as usize]) as u32;
    }
}

/// An entry that is no cell, that stood earlier, or that stands before its receiver.
fn bad_list(r: &mut Random, t: &mut Task) {
    let n = t.list.len();
    for _ in 0..r.within(1, 2) {
        let p = r.below(n);
        match r.below(4) {
            0 => t.list[p] = r.pick(&[n as u32, n as u32 + 1, u32::MAX]),
            1 => t.list[p] = r.pick(&t.list),
            2 => t.list.swap(p, r.below(n)),
            _ => t.list.reverse(),
        }
    }
}

/// Damaged lists and receivers of larger grids, some of which are still right; rings of receivers.
fn damaged(l: &mut List, r: &mut Random) {
    for i in 0..150 {
        let size = grid(r, i, 9);
        let mut t = task(r, size, i % KINDS);
        match i % 3 {
            0 => bad_list(r, &mut t),
            1 => bad_receiver(r, &mut t),
            _ => {
                let c = r.below(t.h.len());
                let near = neighbours(size, c);
                if !near.is_empty() {
                    let other = r.pick(&near);
                    t.recv[c] = other as u32;
                    t.recv[other] = c as u32;
                }
            }
        }
        incise(l, &t);
    }
}
