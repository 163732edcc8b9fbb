//! Networks, incisions along the flood's list and others, and talus passes with stops.
use super::tally::{number, same, shown, word, Tally};
use crate::calls::{self, Network};
use crate::random::Random;
use crate::rules::passes::{self as rules, RouteRoom};
use crate::rules::Sides;
use crate::source::erosion::{Incision, Pass, Talus};
use crate::source::Record;
use crate::terrain::{bad_length, bad_sides, grid, not_finite, outside, relief, spoilt, water, FILL, RELIEFS};

/// A grid with heights of each kind in turn.
pub struct Land {
    pub size: Sides,
    pub h: Vec<f32>,
    pub water_level: f32,
}

pub fn land(r: &mut Random, i: usize, most: usize) -> Land {
    let size = grid(r, i / RELIEFS, most);
    let h = relief(r, size, i % RELIEFS);
    let water_level = water(r, &h);
    Land { size, h, water_level }
}

/// One in twelve with a bad side, length, water level or height, or two of these.
pub fn damaged(r: &mut Random, land: &mut Land) {
    if r.below(12) > 0 {
        return;
    }
    for _ in 0..r.within(1, 2) {
        match r.below(4) {
            0 => land.size = bad_sides(r, land.size),
            1 => {
                let n = land.h.len();
                land.h.resize(bad_length(r, n.max(1)), 0.5);
            }
            2 => land.water_level = not_finite(r),
            _ if !land.h.is_empty() => land.h = spoilt(r, &land.h),
            _ => {}
        }
    }
}

/// Whether a slice that was full of one value before the call still is.
fn untouched(v: &[f32]) -> bool {
    v.iter().all(|x| x.to_bits() == FILL.to_bits())
}

/// What a status holds before the call.
const STATE: u8 = 7;

/// Whether all slices of a network that were filled before the call still are.
fn kept(net: &Network) -> bool {
    let cells = net.order.iter().chain(&net.recv).chain(&net.queue).all(|c| *c == FILL.to_bits());
    cells && untouched(&net.spill) && untouched(&net.area) && net.status.iter().all(|s| *s == STATE)
}

/// The network that the library leaves; slices of the lengths given, filled before the call. What a routing refuses, a
/// routing and incision in one call refuses alike.
fn routed(t: &mut Tally, l: &Land, room: RouteRoom) -> Network {
    let mut ours = Network::new(0);
    let cell = FILL.to_bits();
    (ours.order, ours.recv) = (vec![cell; room.order], vec![cell; room.recv]);
    (ours.spill, ours.area) = (vec![FILL; room.spill], vec![FILL; room.area]);
    (ours.queue, ours.status) = (vec![cell; room.queue], vec![STATE; room.status]);
    let a = rules::route(l.size, &l.h, l.water_level, room);
    let w = ours.route(l.size, &l.h, l.water_level);
    let left = match &a {
        Ok(n) => {
            ours.order == n.order && ours.recv == n.recv && same(&ours.spill, &n.spill) && same(&ours.area, &n.area)
        }
        Err(_) => kept(&ours),
    };
    let alike = w == word(&a, |_| 0) && left;
    let input = || format!("water {:08x}, {}", l.water_level.to_bits(), shown(l.size, &l.h));
    t.compared("route", number(&a), alike, l.h.len(), input);
    if a.is_err() {
        let s = Incision { k: 1.0, uplift: 0.0, water_level: l.water_level };
        let alike = ours.carve(l.size, &l.h, &s) == w && kept(&ours);
        t.compared("route and incise in one call", number(&a), alike, l.h.len(), input);
    }
    ours
}

fn room(n: usize) -> RouteRoom {
    RouteRoom { order: n, recv: n, spill: n, area: n, queue: n, status: n }
}

pub fn route(t: &mut Tally, r: &mut Random, i: usize) {
    let mut l = land(r, i, if i % 20 == 0 { 30 } else { 10 });
    let mut room = room(l.h.len());
    room.queue += r.below(3);
    room.status += r.below(3);
    if r.below(30) == 0 {
        let len = bad_length(r, l.h.len());
        match r.below(4) {
            0 => room.order = len,
            1 => room.recv = len,
            2 => room.spill = len,
            _ => room.area = len,
        }
    }
    match r.below(60) {
        0 => room.queue = l.h.len() - 1,
        1 => room.status = l.h.len() - 1,
        _ => {}
    }
    damaged(r, &mut l);
    routed(t, &l, room);
}

/// Another list of the receivers: in each step any cell whose receiver stands already.
pub fn another_list(r: &mut Random, recv: &[u32]) -> Vec<u32> {
    // the cells that drain into each cell, one row after the other
    let mut from = vec![0usize; recv.len() + 1];
    let inner = |c: usize| recv[c] as usize != c;
    for c in (0..recv.len()).filter(|c| inner(*c)) {
        from[recv[c] as usize + 1] += 1;
    }
    for c in 0..recv.len() {
        from[c + 1] += from[c];
    }
    let (mut next, mut fed) = (from.clone(), vec![0u32; from[recv.len()]]);
    for c in (0..recv.len()).filter(|c| inner(*c)) {
        let to = recv[c] as usize;
        fed[next[to]] = c as u32;
        next[to] += 1;
    }
    let mut ready: Vec<u32> = (0..recv.len()).filter(|c| !inner(*c)).map(|c| c as u32).collect();
    let mut list = Vec::with_capacity(recv.len());
    while !ready.is_empty() {
        let c = ready.swap_remove(r.below(ready.len()));
        ready.extend(&fed[from[c as usize]..from[c as usize + 1]]);
        list.push(c);
    }
    list
}

/// What an incision is lent beside the land.
struct Lent<'a> {
    recv: &'a [u32],
    list: &'a [u32],
    out: usize,
    area: usize,
}

/// The heights that the library leaves and its word.
fn incised(t: &mut Tally, call: &'static str, l: &Land, s: &Incision, lent: &Lent) -> (u64, Vec<f32>) {
    let (mut ours, mut theirs) = (vec![FILL; lent.out], vec![FILL; lent.out]);
    let a = rules::incise(l.size, &l.h, s, lent.recv, lent.list, &mut theirs, lent.area);
    let mut area = vec![FILL; lent.area];
    let net = calls::Lent { recv: lent.recv, list: lent.list };
    let w = calls::incise(l.size, &l.h, s, net, &mut ours, &mut area);
    // the result slice counts as scratch on 22
    let refused = (1..=9).contains(&number(&a));
    let left = (number(&a) == 22 || same(&ours, &theirs)) && (!refused || untouched(&area));
    let alike = w == word(&a, |_| 0) && left;
    let input = || {
        let settings = [s.k, s.uplift, s.water_level].map(f32::to_bits);
        format!("k, uplift, water {settings:08x?}, {}, {:?}, {:?}", shown(l.size, &l.h), lent.recv, lent.list)
    };
    t.compared(call, number(&a), alike, l.h.len(), input);
    (w, ours)
}

/// Routing and incision in one call, which does not test its result for run-offs: the network of the routing alone, and
/// the heights of the incision along its list, a NaN as a NaN.
fn carved(t: &mut Tally, l: &Land, s: &Incision, net: &Network, incised: &(u64, Vec<f32>)) {
    let mut ours = Network::new(l.h.len());
    let w = ours.carve(l.size, &l.h, s);
    let network = ours.order == net.order && ours.recv == net.recv && same(&ours.area, &net.area);
    let heights =
        ours.spill.iter().zip(&incised.1).all(|(a, b)| a.to_bits() == b.to_bits() || (a.is_nan() && b.is_nan()));
    let alike = w == 0 && network && heights;
    let input = || format!("k {}, uplift {}, water {}, {}", s.k, s.uplift, s.water_level, shown(l.size, &l.h));
    t.compared("route and incise in one call", 0, alike, l.h.len(), input);
}

/// Along the flood's own list and along another list of its receivers: each against the source, and one against the other.
fn both_lists(t: &mut Tally, r: &mut Random, l: &Land, s: &Incision, net: &Network) {
    let n = l.h.len();
    let lent = |list| Lent { recv: &net.recv, list, out: n, area: n };
    let other = another_list(r, &net.recv);
    let a = incised(t, "incise, the flood's list", l, s, &lent(&net.order));
    let b = incised(t, "incise, another list", l, s, &lent(&other));
    carved(t, l, s, net, &a);
    let alike = a.0 == b.0 && (a.0 >> 32 == 22 || same(&a.1, &b.1));
    let input = || format!("k {}, uplift {}, {}, {other:?}", s.k, s.uplift, shown(l.size, &l.h));
    t.compared("one list against the other", (a.0 >> 32) as u32, alike, n, input);
}

pub fn settings(r: &mut Random, water_level: f32) -> Incision {
    let any = [r.unit() * 64.0, r.unit()];
    let k = r.pick(&[0.0, 64.0, 1.0, any[0], any[1]]);
    let uplift = r.pick(&[0.0, 1.0, -1.0, 0.001, any[1], -any[1]]);
    Incision { k, uplift, water_level }
}

pub fn incise(t: &mut Tally, r: &mut Random, i: usize) {
    let mut l = land(r, i, if i % 20 == 0 { 30 } else { 10 });
    let mut s = settings(r, l.water_level);
    let mut net = routed(t, &l, room(l.h.len()));
    if i % 2 == 0 {
        return both_lists(t, r, &l, &s, &net);
    }
    net.order = another_list(r, &net.recv);
    let n = l.h.len();
    match r.below(16) {
        0 => s.k = outside(r, 0.0, 64.0),
        1 => s.uplift = outside(r, -1.0, 1.0),
        2 | 3 => net.recv[r.below(n)] = r.below(n + 2) as u32,
        4 | 5 => net.order[r.below(n)] = r.below(n + 2) as u32,
        6 => net.order.swap(r.below(n), r.below(n)),
        7 => drop(net.order.pop()),
        _ => {}
    }
    damaged(r, &mut l);
    s.water_level = l.water_level;
    let (out, area) = (if r.below(30) == 0 { n + 1 } else { n }, if r.below(30) == 0 { n - 1 } else { n + r.below(3) });
    incised(t, "incise, any receivers and list", &l, &s, &Lent { recv: &net.recv, list: &net.order, out, area });
}

/// Each scratch slice of routing and incision in turn one shorter than the grid.
pub fn short(t: &mut Tally, l: &Land) {
    let n = l.h.len();
    routed(t, l, RouteRoom { queue: n - 1, ..room(n) });
    routed(t, l, RouteRoom { status: n - 1, ..room(n) });
    let all: Vec<u32> = (0..n as u32).collect();
    let s = Incision { k: 1.0, uplift: 0.0, water_level: l.water_level };
    incised(t, "incise", l, &s, &Lent { recv: &all, list: &all, out: n, area: n - 1 });
}

/// A pass into a result of some length.
fn slid(t: &mut Tally, l: &Land, p: &Pass, out: usize) -> Record {
    let (mut ours, mut theirs) = (vec![FILL; out], vec![FILL; out]);
    let (a, after) = rules::slide_pass(l.size, &l.h, &mut theirs, p);
    let (w, left) = calls::slide_pass(l.size, &l.h, &mut ours, p);
    let record = |m: Record| (m.last.to_bits(), m.asked, m.stopped);
    // the result slice counts as scratch on 21 and 22
    let alike = w == word(&a, |_| 0) && record(left) == record(after) && (number(&a) > 20 || same(&ours, &theirs));
    let input = || {
        let settings = [p.s.threshold, p.s.strength, p.s.water_level, p.ends.0, p.ends.1].map(f32::to_bits);
        format!("settings {settings:08x?}, {:?}, S {}, {}", p.r, p.stop, shown(l.size, &l.h))
    };
    t.compared("slide_pass", number(&a), alike, l.h.len(), input);
    if (0.0..=16.0).contains(&p.s.threshold) {
        let mut over = vec![FILL; out];
        let (v, kept) = calls::slide_pass_over(l.size, &l.h, &mut over, p);
        let alike = v == word(&a, |_| 0) && record(kept) == record(after) && (number(&a) > 20 || same(&over, &theirs));
        t.compared("slide_pass_over, the eight of one threshold", number(&a), alike, l.h.len(), input);
    }
    after
}

pub fn slide(t: &mut Tally, r: &mut Random, i: usize) {
    let mut l = land(r, i, if i % 20 == 0 { 30 } else { 10 });
    let any = [r.unit(), r.unit(), r.unit()];
    let threshold = r.pick(&[0.0, 16.0, 0.03, any[0], any[0] * 0.1]);
    let strength = r.pick(&[0.0, 1.0, 0.5, any[1]]);
    let mut s = Talus { threshold, strength, water_level: 0.0 };
    let mut m = if i % 2 == 0 { Record::FRESH } else { Record { last: any[2], asked: 9, stopped: r.below(12) == 0 } };
    let mut ends = r.pick(&[(0.0, 1.0), (1.0, 0.0), (any[0], any[1]), (0.0, 0.02)]);
    match r.below(40) {
        0 => s.threshold = outside(r, 0.0, 16.0),
        1 => s.strength = outside(r, 0.0, 1.0),
        2 => ends.1 = outside(r, 0.0, 1.0),
        3 => m.asked = (1 << 31) + 1,
        _ => {}
    }
    let n = l.h.len();
    damaged(r, &mut l);
    s.water_level = l.water_level;
    let later = m.asked.wrapping_add(r.within(1, 12) as u32);
    let stop = r.pick(&[0, m.asked, later]);
    let out = if r.below(40) == 0 { bad_length(r, n) } else { l.h.len() };
    slid(t, &l, &Pass { s, ends, r: m, stop }, out);
}

/// How far the marks of one reading of a large list go (crates/lent_list): cells on both sides of it are tried.
const STRETCH: usize = 8_388_608;

/// The flood's list with one fault at a time: an entry that is no cell, one that stands twice, two that have changed places, and one that stands
/// where its receiver stood, of a random cell and of one by the end of a stretch.
fn faulty_lists(t: &mut Tally, r: &mut Random, l: &Land, s: &Incision, net: &Network) {
    let n = l.h.len();
    let near = STRETCH.saturating_sub(2 * l.size.0);
    let drains = |c: &usize| net.recv[*c] as usize != *c;
    for fault in 0..5 {
        let (p, q, any) = (r.below(n), r.below(n), r.below(n));
        let mut list = net.order.clone();
        let place = |cell: u32| net.order.iter().position(|c| *c == cell);
        match fault {
            0 => list[p] = r.pick(&[n as u32, u32::MAX]),
            1 => list[p] = list[q],
            2 => list.swap(p, q),
            _ => {
                let from = if fault == 4 && near + 4 * l.size.0 < n { near + r.below(4 * l.size.0) } else { any };
                let Some(c) = (from..n).chain(0..from).find(drains) else { continue };
                let (Some(a), Some(b)) = (place(c as u32), place(net.recv[c])) else { continue };
                list.swap(a, b);
            }
        }
        incised(t, "incise, a faulty list", l, s, &Lent { recv: &net.recv, list: &list, out: n, area: n });
    }
}

/// A large grid: its network, an incision along both lists and along faulty ones, a pass to the end and one that stops at a random question.
pub fn large(t: &mut Tally, r: &mut Random, size: Sides, h: Vec<f32>, water_level: f32) {
    let l = Land { size, h, water_level };
    let n = l.h.len();
    let net = routed(t, &l, room(n));
    let scale = size.0.max(size.1) as f32 / 512.0;
    let s = Incision { k: 4.8 * scale, uplift: 0.001, water_level };
    both_lists(t, r, &l, &s, &net);
    faulty_lists(t, r, &l, &s, &net);
    drop(net);
    let mut p = Pass::whole(Talus { threshold: 0.0075 / scale, strength: 0.5, water_level });
    let asked = slid(t, &l, &p, n).asked;
    p.stop = r.within(1, asked.max(1) as usize) as u32;
    slid(t, &l, &p, n);
}
