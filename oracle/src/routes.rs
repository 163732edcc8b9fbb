//! The fourth part of the list: the network of a map, answered by the source's `FlowNet::route` itself.
use crate::list::{call::ROUTE, word, List, Numbers, Rest, Task, ROOM};
use crate::random::Random;
use crate::rules::passes::{route as ask_route, RouteRoom};
use crate::rules::Sides;
use crate::terrain::fault::{HEIGHT, LENGTH, OTHER_LENGTH, SETTING, SIDE};
use crate::terrain::{
    bad_length, bad_sides, faults, grid, map, not_finite, relief, some_spoilt, spoilt, water, FILL, KINDS, RELIEFS,
    TINY,
};

pub fn list(l: &mut List, r: &mut Random) {
    plates(l);
    reliefs(l, r);
    refusals(l, r);
}

fn route(l: &mut List, size: Sides, h: &[f32], water_level: f32, room: RouteRoom) {
    let floats = |n: usize| vec![FILL; n];
    let cells = |n: usize| vec![FILL.to_bits(); n];
    let lent = || Rest {
        floats: vec![floats(room.area)],
        cells: vec![cells(room.order), cells(room.recv)],
        ..Rest::default()
    };
    let a = ask_route(size, h, water_level, room);
    l.ended("route", &a);
    let told = word(&a, |_| 0);
    let (after, spill) = match a {
        Ok(net) => (Rest { floats: vec![net.area], cells: vec![net.order, net.recv], ..Rest::default() }, net.spill),
        Err(_) => (lent(), floats(room.spill)),
    };
    let of = Task::of(ROUTE, Numbers { size, ..Numbers::default() }, &[water_level]);
    let t = Task { read: h.to_vec(), written: floats(room.spill), rest: lent(), ..of };
    l.task(&t, &after, told, Some(&spill));
}

/// Result slices of n cells, and the program's scratch.
fn room(n: usize) -> RouteRoom {
    RouteRoom { order: n, recv: n, spill: n, area: n, queue: ROOM, status: ROOM }
}

fn good(l: &mut List, size: Sides, h: &[f32], water_level: f32) {
    route(l, size, h, water_level, room(h.len()));
}

/// Single grids: the examples of the documents, zeros of both signs, differences that overflow.
fn plates(l: &mut List) {
    let (big, low) = (f32::MAX, f32::MIN);
    let squares: [([f32; 9], f32); 10] = [
        ([5.0, 5.0, 5.0, 5.0, 1.0, 4.0, 5.0, 5.0, 5.0], 0.0),
        ([3.0, 4.0, 9.0, 9.0, 10.0, 9.0, 9.0, 9.0, 9.0], 0.0),
        ([0.0, 0.0, 0.0, 0.0, 0.0, 0.0, 0.0, 0.0, -0.0], -1.0),
        ([0.0, 0.0, 0.0, 0.0, -0.0, 0.0, 0.0, 0.0, 0.0], -1.0),
        ([-0.0, -0.0, -0.0, -0.0, 0.0, -0.0, -0.0, -0.0, -0.0], -1.0),
        ([-2.0, -1.0, -2.0, -1.0, -1.5, -1.0, -2.0, -1.0, -2.0], -9.0),
        ([big, big, low, big, big, big, big, low, big], low),
        ([low, big, big, big, big, big, big, big, low], low),
        ([TINY, 0.0, TINY, -TINY, TINY, 0.0, TINY, -0.0, TINY], -1.0),
        ([1.0; 9], 1.0),
    ];
    for (h, water_level) in squares {
        good(l, (3, 3), &h, water_level);
        good(l, (9, 1), &h, water_level);
        good(l, (1, 9), &h, water_level);
    }
    for h in [0.0, -0.0, 1.0, -1.0, TINY, f32::MAX, f32::MIN] {
        for water_level in [0.0, -0.0, 1.0, f32::MIN, f32::MAX] {
            good(l, (1, 1), &[h], water_level);
        }
    }
}

fn reliefs(l: &mut List, r: &mut Random) {
    for i in 0..520 {
        let size = grid(r, i / RELIEFS, if i % 20 == 0 { 34 } else { 12 });
        let h = relief(r, size, i % RELIEFS);
        let water_level = water(r, &h);
        good(l, size, &h, water_level);
    }
    for (size, kind) in
        [((64, 64), 0), ((64, 64), KINDS + 2), ((4096, 1), 3), ((1, 4096), KINDS), ((48, 70), KINDS + 4)]
    {
        let h = relief(r, size, kind);
        good(l, size, &h, f32::MIN);
    }
    for i in 0..80 {
        let size = grid(r, i, 6);
        let h = some_spoilt(r, 5, size.0 * size.1, i % KINDS);
        good(l, size, &h, 0.0);
    }
}

fn refusals(l: &mut List, r: &mut Random) {
    for (w, h) in [(4097, 1), (1, 4097)] {
        let heights = map(r, 4097, 1);
        good(l, (w, h), &heights, 0.0);
    }
    for f in faults(&[SIDE, LENGTH, OTHER_LENGTH, SETTING, HEIGHT]).repeat(8) {
        let mut size = (r.within(1, 5), r.within(2, 5));
        let n = size.0 * size.1;
        let len = if f & LENGTH != 0 { bad_length(r, n) } else { n };
        let mut h = map(r, len, 0);
        let mut room = room(n);
        if f & OTHER_LENGTH != 0 {
            let len = bad_length(r, n);
            match r.below(4) {
                0 => room.order = len,
                1 => room.recv = len,
                2 => room.spill = len,
                _ => room.area = len,
            }
        }
        let water_level = if f & SETTING != 0 { not_finite(r) } else { 0.0 };
        if f & HEIGHT != 0 {
            h = spoilt(r, &h);
        }
        if f & SIDE != 0 {
            size = bad_sides(r, size);
        }
        route(l, size, &h, water_level, room);
    }
}
