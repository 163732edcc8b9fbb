//! The second part of the list: the square root, the working sides, the stop marks.
use crate::list::{bits, call, word, List, Numbers, Task};
use crate::random::Random;
use crate::rules;
use crate::source::Record;

pub fn list(l: &mut List, r: &mut Random) {
    roots(l, r);
    work_sizes(l, r);
    reports(l, r);
}

fn root(l: &mut List, operand: u32) {
    let x = f32::from_bits(operand);
    let a = rules::root(x);
    l.ended("root", &a);
    l.plain(&Task::of(call::ROOT, Numbers::default(), &[x]), word(&a, |r| bits(*r)), &[]);
}

fn roots(l: &mut List, r: &mut Random) {
    // both ends of every exponent, the infinity's and the NaNs' too, and a few in between
    for exponent in 0..=255u32 {
        let e = exponent << 23;
        for m in [0, 1, 2, 0x3f_ffff, 0x40_0000, 0x7f_fffe, 0x7f_ffff] {
            root(l, e | m);
        }
        for _ in 0..4 {
            root(l, e | r.word() >> 9);
        }
        root(l, 1 << 31 | e | r.word() >> 9);
    }
    for shift in 0..23 {
        root(l, 1 << shift);
        root(l, (1 << shift) - 1);
    }
    // whole squares, and the floats next to them
    for n in (1..=40).chain((0..60).map(|_| r.within(41, 4096) as u32)) {
        let bits = ((n * n) as f32).to_bits();
        for b in [bits - 1, bits, bits + 1] {
            root(l, b);
        }
    }
    // operands whose roots lie next to the middle of two floats: near (m + 1/2)^2, m of 24 bits
    for i in 0..200 {
        let m = r.within(1 << 23, (1 << 24) - 1) as u64;
        let bits = ((m * m + m) as f32).to_bits() - ((i % 2) << 23) * 24;
        for b in [bits - 1, bits, bits + 1] {
            root(l, b);
        }
    }
    for bits in [1 << 31, 1 << 31 | 1, 0xbf80_0000, 0xff7f_ffff, 0xff80_0000, 0x7fc0_0000, 0x7f80_0001, 0xffc0_0000] {
        root(l, bits);
    }
    for _ in 0..300 {
        root(l, r.word() >> 1);
    }
}

fn work_size(l: &mut List, w: u32, h: u32, res: u32) {
    let size = (w as usize, h as usize);
    let a = rules::work_size(size, res);
    l.ended("work_size", &a);
    let sides = word(&a, |s| (s.0 * 0x1_0000 + s.1) as u32);
    let numbers = Numbers { size, work_res: res, ..Numbers::default() };
    l.plain(&Task::of(call::WORK_SIZE, numbers, &[]), sides, &[]);
}

/// Whether the exact side × res / longest, rounded half away from zero, is another number than the binary32 one.
fn rounds_otherwise(w: u32, h: u32, res: u32) -> bool {
    let longest = w.max(h);
    let exact = |s: u32| ((2 * s * res + longest) / (2 * longest)).max(1) as usize;
    rules::work_size((w as usize, h as usize), res) != Ok((exact(w), exact(h)))
}

fn work_sizes(l: &mut List, r: &mut Random) {
    for (w, h, res) in [(22, 11, 13), (38, 19, 27), (4, 3, 2), (513, 513, 512), (4096, 4096, 4095), (4096, 1, 4095)] {
        work_size(l, w, h, res);
        work_size(l, h, w, res);
    }
    let sides = [0, 1, 2, 511, 512, 513, 4095, 4096, 4097, 1 << 16, u32::MAX];
    for w in sides {
        for h in sides {
            for res in [0, 1, 2, 512, 4095, 4096, 4097, 1 << 24, u32::MAX] {
                work_size(l, w, h, res);
            }
        }
    }
    for w in 1..=8 {
        for h in 1..=8 {
            for res in 0..=w.max(h) {
                work_size(l, w, h, res);
            }
        }
    }
    close_sides(l, r);
    for _ in 0..700 {
        let w = r.within(1, 4096) as u32;
        let h = r.within(1, 4096) as u32;
        work_size(l, w, h, r.below(w.max(h) as usize + 3) as u32);
    }
}

/// Halves, where side × res / longest is a whole number and a half; and sides that binary32 rounds otherwise than exact numbers would.
fn close_sides(l: &mut List, r: &mut Random) {
    let mut halves = 0;
    let mut others = 0;
    while halves < 300 || others < 100 {
        let longest = r.within(2, 4096) as u32;
        let side = r.within(1, longest as usize) as u32;
        let res = r.within(1, longest as usize - 1) as u32;
        let half = 2 * side * res % (2 * longest) == longest;
        let other = rounds_otherwise(longest, side, res);
        if half && halves < 300 || other && others < 100 {
            halves += half as u32;
            others += other as u32;
            work_size(l, longest, side, res);
            work_size(l, side, longest, res);
        }
    }
}

fn report(l: &mut List, m: Record, p: f32, stop: u32) -> Record {
    let (a, next) = rules::report(m, p, stop);
    l.ended("report", &a);
    let numbers = Numbers { stop, ..Numbers::default() };
    let t = Task { rest: m.into(), ..Task::of(call::REPORT, numbers, &[p]) };
    l.task(&t, &next.into(), word(&a, |go| *go as u32), None);
    next
}

/// Reports of each p in turn, from the fresh record; the record of each answer goes into the next task.
fn reports_of(l: &mut List, ps: &[f32], stop: u32) {
    let mut m = Record::FRESH;
    for p in ps {
        m = report(l, m, *p, stop);
    }
}

fn reports(l: &mut List, r: &mut Random) {
    // the fractions of n rows, asked to the end, with S none, first, last and one beyond
    for n in [1, 2, 7, 50, 99, 100, 101, 128] {
        let ps: Vec<f32> = (0..n).map(|i| i as f32 / n as f32).collect();
        for stop in [0, 1, n, n + 1] {
            reports_of(l, &ps, stop);
        }
    }
    // S at each question, and past the last
    let steps = [0.0, 0.005, 0.01, 0.02, 0.029, 0.03, 0.5, 0.25, 0.51, 1.0];
    for stop in 0..=8 {
        reports_of(l, &steps, stop);
    }
    marks_at_the_edge(l, r);
    marks_out_of_range(l);
}

/// p at last + 0.01 and next to it; S at, before and after the question's number.
fn marks_at_the_edge(l: &mut List, r: &mut Random) {
    for i in 0..120 {
        let last = if i % 4 == 0 { -1.0 + i as f32 / 60.0 } else { r.unit() * 0.98 };
        let edge = (last + 0.01).max(0.0).to_bits();
        let asked = r.pick(&[0, 1, 2, 77, (1 << 31) - 1, 1 << 31]);
        let stop = r.pick(&[0, asked, asked + 1, asked + 2]);
        for bits in [edge - (edge > 0) as u32, edge, edge + 1] {
            let m = Record { last, asked, stopped: i % 8 == 7 };
            report(l, m, f32::from_bits(bits), stop);
        }
    }
}

/// Each value at the ends of its range and outside it, alone and with a stopped record.
fn marks_out_of_range(l: &mut List) {
    let good = Record { last: 0.25, asked: 3, stopped: false };
    let above = f32::from_bits(0x3f80_0001);
    let floats = [f32::NAN, f32::INFINITY, f32::NEG_INFINITY, above, -above, 1.0, -1.0, -0.0, 0.0, -1e-45, 0.5];
    for stopped in [false, true] {
        for x in floats {
            report(l, Record { stopped, ..good }, x, 4);
            report(l, Record { stopped, last: x, ..good }, 0.75, 4);
            report(l, Record { stopped, last: x, ..good }, x, 4);
        }
        for asked in [(1 << 31) - 1, 1 << 31, (1 << 31) + 1, u32::MAX] {
            for stop in [0, 1, asked, asked.wrapping_add(1)] {
                report(l, Record { stopped, asked, ..good }, 0.75, stop);
                report(l, Record { stopped, asked, ..good }, f32::NAN, stop);
            }
        }
    }
}
