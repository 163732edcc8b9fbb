//! Streams that are refused, and their neighbours that are not: each refusal alone and with every other one, so that their order shows.
use super::{asked, put, stream, BOTH, LAND};
use crate::list::List;
use crate::random::Random;
use crate::rules::streams::{Asked, Kind, Mark, END, FLUVIAL, GRID, MAX_CELLS, ROW, THERMAL};
use crate::rules::Sides;
use crate::terrain::fault::{CELLS, CUT, GRID_MARK, HEIGHT, OVER, ROW_MARK, SETTING, SETTINGS_MARK, SIDE};
use crate::terrain::faults;

/// the sides, the settings' mark and the settings in a stream
const SIDES: usize = 2;
const SETTINGS: usize = 6;
const VALUES: usize = 8;

/// what a value of the settings has to be
#[derive(Clone, Copy)]
enum Range {
    Finite,
    Unit,
    Uplift,
    Iterations,
    Any,
}

fn ranges(kind: Kind) -> &'static [Range] {
    use Range::*;
    match kind {
        Kind::Fluvial => &[Finite, Unit, Unit, Uplift, Iterations, Any, Any],
        Kind::Thermal => &[Finite, Unit, Unit, Iterations, Any, Any],
    }
}

/// NaNs of both signs, quiet and not, and the infinities
const NOT_FINITE: [u32; 6] = [0x7fc0_0000, 0xffc0_0001, 0x7f80_0001, 0xff80_0001, 0x7f80_0000, 0xff80_0000];

impl Range {
    /// Values outside, the nearest ones first.
    fn outside(self) -> Vec<u32> {
        let near: &[u32] = match self {
            Range::Finite => &[],
            Range::Unit => &[0x8000_0001, 0x3f80_0001, 0x4000_0000, 0xbf80_0000, 0x7f7f_ffff],
            Range::Uplift => &[0xbf80_0001, 0x3f80_0001, 0xc000_0000],
            Range::Iterations => return vec![4097, 0x1_0000, 0x1_0001, 0x8000_0000, u32::MAX],
            Range::Any => return vec![],
        };
        [near, &NOT_FINITE].concat()
    }

    /// The ends, and values next to them.
    fn inside(self) -> &'static [u32] {
        match self {
            Range::Finite => &[0x7f7f_ffff, 0xff7f_ffff, 0x8000_0000],
            Range::Unit => &[0, 0x8000_0000, 1, 0x3f7f_ffff, 0x3f80_0000],
            Range::Uplift => &[0xbf80_0000, 0x3f80_0000, 0x8000_0000],
            Range::Iterations => &[0, 1, 4096],
            Range::Any => &[0, 1, 2, 0x1_0000, u32::MAX],
        }
    }
}

/// Where the rows begin.
fn rows(kind: Kind) -> usize {
    VALUES + 4 * ranges(kind).len()
}

fn row(a: &Asked, y: usize) -> usize {
    rows(a.kind) + y * (2 + 4 * a.size.0)
}

fn cell(a: &Asked, i: usize) -> usize {
    row(a, i / a.size.0) + 2 + 4 * (i % a.size.0)
}

fn write<const N: usize>(bytes: &mut [u8], at: usize, what: [u8; N]) {
    bytes[at..at + N].copy_from_slice(&what);
}

fn write_sides(bytes: &mut [u8], size: Sides) {
    write(bytes, SIDES, (size.0 as u16).to_le_bytes());
    write(bytes, SIDES + 2, (size.1 as u16).to_le_bytes());
}

/// A good stream of some heights.
fn good(kind: Kind, size: Sides) -> Asked {
    let map = (0..size.0 * size.1).map(|i| (i * 7 % 5) as f32 * 0.25).collect();
    asked(kind, size, LAND, map)
}

/// A stream whose number is known beforehand.
fn refused(l: &mut List, bytes: &[u8], number: u32) {
    assert_eq!(put(l, bytes).number, number, "{bytes:02x?}");
}

pub fn list(l: &mut List, r: &mut Random) {
    for kind in BOTH {
        cut_and_left_over(l, kind);
        marks(l, kind);
        sides(l, kind);
        settings(l, kind);
        heights(l, kind);
    }
    pairs(l, r);
    whole_grids(l, r);
}

/// Every truncation, the empty input among them, and bytes left over.
fn cut_and_left_over(l: &mut List, kind: Kind) {
    let a = good(kind, (2, 2));
    let bytes = stream(&a);
    for n in 0..bytes.len() {
        refused(l, &bytes[..n], 8);
    }
    assert_eq!(put(l, &bytes).number, 0);
    let last_row = bytes[row(&a, 1)..].to_vec();
    let end = [&END[..], &[0; 14]].concat();
    for more in [&[0][..], &[0x52], &ROW, &[0; 4], &last_row, &end, &bytes, &[0; 300]] {
        refused(l, &[&bytes[..], more].concat(), 8);
    }
}

/// Every other mark of the document, marks with a byte changed or both swapped.
fn wrong_marks(mark: Mark) -> Vec<Mark> {
    let [a, b] = mark;
    let near = [[b, a], [a + 1, b], [a, b - 1], [a | 0x20, b | 0x20], [a, a], [0, 0], [0xff, 0xff]];
    let others = [GRID, FLUVIAL, THERMAL, ROW, END].into_iter().filter(|m| *m != mark);
    near.into_iter().chain(others).collect()
}

fn marks(l: &mut List, kind: Kind) {
    let a = good(kind, (2, 3));
    for at in [0, SETTINGS, row(&a, 0), row(&a, 1), row(&a, 2)] {
        let bytes = stream(&a);
        for mark in wrong_marks([bytes[at], bytes[at + 1]]) {
            let mut bytes = bytes.clone();
            write(&mut bytes, at, mark);
            refused(l, &bytes, 8);
        }
    }
}

/// Grid records alone, and in front of the rest of another grid.
fn sides(l: &mut List, kind: Kind) {
    let good = stream(&good(kind, (3, 2)));
    for (size, number) in [
        ((0, 0), 1),
        ((0, 1), 1),
        ((1, 0), 1),
        ((0, 2), 1),
        ((3, 0), 1),
        ((4097, 1), 1),
        ((1, 4097), 1),
        ((4097, 4097), 1),
        ((0, 65535), 1),
        ((65535, 0), 1),
        ((32769, 2), 1),
        ((4096, 4096), 9),
        ((4096, 2), 9),
        ((2, 4096), 9),
        ((65, 64), 9),
        ((64, 65), 9),
        ((1366, 3), 9),
        ((64, 64), 8),
        ((4096, 1), 8),
        ((1, 4096), 8),
        ((1365, 3), 8),
        ((2, 3), 8),
        ((3, 1), 8),
        ((3, 3), 8),
        ((2, 2), 8),
        ((4, 2), 8),
    ] {
        let mut bytes = good.clone();
        write_sides(&mut bytes, size);
        refused(l, &bytes, number);
        refused(l, &bytes[..SETTINGS], number);
    }
}

/// Each setting outside its range and at its ends.
fn settings(l: &mut List, kind: Kind) {
    let bytes = stream(&good(kind, (2, 1)));
    for (i, range) in ranges(kind).iter().enumerate() {
        let with = |word: u32| {
            let mut bytes = bytes.clone();
            write(&mut bytes, VALUES + 4 * i, word.to_le_bytes());
            bytes
        };
        for word in range.outside() {
            refused(l, &with(word), 4);
        }
        for word in range.inside() {
            let number = put(l, &with(*word)).number;
            assert!(number == 0 || number > 9);
        }
    }
}

/// Heights not finite, in each cell, and in two of them.
fn heights(l: &mut List, kind: Kind) {
    let a = good(kind, (3, 2));
    for i in 0..a.map.len() {
        for j in 0..=i {
            let mut bytes = stream(&a);
            write(&mut bytes, cell(&a, i), NOT_FINITE[(i + j) % 6].to_le_bytes());
            write(&mut bytes, cell(&a, j), NOT_FINITE[(i + 5 * j) % 6].to_le_bytes());
            refused(l, &bytes, 5);
        }
    }
}

const FAULTS: [u32; 9] = [GRID_MARK, SIDE, CELLS, SETTINGS_MARK, ROW_MARK, CUT, OVER, SETTING, HEIGHT];

/// Order: grid record 8, 1, 9, the rest 8, 4, 5.
fn number_of(f: u32) -> u32 {
    let order =
        [(GRID_MARK, 8), (SIDE, 1), (CELLS, 9), (SETTINGS_MARK | ROW_MARK | CUT | OVER, 8), (SETTING, 4), (HEIGHT, 5)];
    order.into_iter().find(|(faults, _)| f & faults != 0).map_or(0, |(_, number)| number)
}

fn wrong_mark(r: &mut Random, bytes: &mut [u8], at: usize) {
    let wrong = r.pick(&wrong_marks([bytes[at], bytes[at + 1]]));
    write(bytes, at, wrong);
}

/// The stream with those faults that stand in it: all but the sides.
fn damaged(r: &mut Random, a: &Asked, f: u32) -> Vec<u8> {
    let mut bytes = stream(a);
    if f & HEIGHT != 0 {
        // a cut leaves it: it is not the last one
        let i = r.below(a.map.len() - 1);
        write(&mut bytes, cell(a, i), r.pick(&NOT_FINITE).to_le_bytes());
    }
    if f & SETTING != 0 {
        let i = r.below(ranges(a.kind).len() - 2);
        write(&mut bytes, VALUES + 4 * i, r.pick(&ranges(a.kind)[i].outside()).to_le_bytes());
    }
    if f & ROW_MARK != 0 {
        let y = r.below(a.size.1);
        wrong_mark(r, &mut bytes, row(a, y));
    }
    if f & SETTINGS_MARK != 0 {
        wrong_mark(r, &mut bytes, SETTINGS);
    }
    if f & GRID_MARK != 0 {
        wrong_mark(r, &mut bytes, 0);
    }
    if f & CUT != 0 {
        bytes.truncate(bytes.len() - r.within(1, 3));
    }
    if f & OVER != 0 {
        bytes.resize(bytes.len() + r.within(1, 5), 0x52);
    }
    bytes
}

/// Sides that the rest does not have: outside their range, more than 4,096 cells, or both.
fn other_sides(r: &mut Random, size: Sides, f: u32) -> Sides {
    match (f & SIDE != 0, f & CELLS != 0) {
        (true, true) => r.pick(&[(4097, size.1), (size.0, 4097), (65535, 65535), (4096, 4097), (32769, 2)]),
        (true, false) => r.pick(&[(0, size.1), (size.0, 0), (0, 0), (0, 4097)]),
        (false, true) => r.pick(&[(64, 65), (65, 64), (4096, 2), (3, 1366), (4096, 4096)]),
        (false, false) => size,
    }
}

/// Each fault alone, each two together and all together, on small grids.
fn pairs(l: &mut List, r: &mut Random) {
    let sets = faults(&FAULTS).into_iter().filter(|f| *f & (CUT | OVER) != CUT | OVER || *f & !(CUT | OVER) != 0);
    for f in sets.flat_map(|f| [f; 4]).collect::<Vec<u32>>() {
        for kind in BOTH {
            let a = good(kind, (r.within(1, 3), r.within(2, 3)));
            let mut bytes = damaged(r, &a, f);
            write_sides(&mut bytes, other_sides(r, a.size, f));
            refused(l, &bytes, number_of(f));
        }
    }
}

/// 1 and 9 with a rest that fits its sides, so that the other fault is the only one.
fn whole_grids(l: &mut List, r: &mut Random) {
    for kind in BOTH {
        for size in [(0, 3), (3, 0), (0, 0)] {
            let row_mark = if size.1 > 0 { ROW_MARK } else { SETTINGS_MARK };
            for f in [0, GRID_MARK, SETTINGS_MARK, row_mark, CUT, OVER, SETTING] {
                let bytes = damaged(r, &good(kind, size), f);
                refused(l, &bytes, number_of(f | SIDE));
            }
        }
    }
    let [fluvial, thermal] = BOTH;
    for (kind, f) in [(fluvial, 0), (thermal, SETTING), (fluvial, HEIGHT)] {
        let bytes = damaged(r, &good(kind, (MAX_CELLS + 1, 1)), f);
        refused(l, &bytes, number_of(f | SIDE | CELLS));
    }
    for (kind, f) in [
        (thermal, 0),
        (fluvial, SETTINGS_MARK),
        (thermal, ROW_MARK),
        (fluvial, CUT),
        (thermal, OVER),
        (fluvial, SETTING),
        (thermal, HEIGHT),
    ] {
        let bytes = damaged(r, &good(kind, (65, 64)), f);
        refused(l, &bytes, number_of(f | CELLS));
    }
}
