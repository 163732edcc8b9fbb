//! The stream check on good streams and on damaged ones.
use crate::random::Random;
use crate::streams::{number, Stream, FLUVIAL, GRID, ROW, THERMAL, VALUES_AT};
use layout_host::{check_stream, Refusal};

const ACCEPTED: u32 = 0;

/// The number of the check, compared with the tests' own reading.
fn checked(bytes: &[u8]) -> u32 {
    let ours = match check_stream(bytes) {
        Ok(()) => ACCEPTED,
        Err(Refusal(n)) => n,
    };
    assert_eq!(ours, number(bytes), "{} bytes: {:02x?}", bytes.len(), &bytes[..bytes.len().min(80)]);
    ours
}

fn samples() -> Vec<Stream> {
    let sides = [(1, 1), (1, 3), (3, 1), (3, 2), (2, 5)];
    let both = |(w, h)| [Stream::fluvial(w, h), Stream::thermal(w, h)];
    sides.into_iter().flat_map(both).collect()
}

#[test]
fn good_streams() {
    for s in samples() {
        assert_eq!(checked(&s.bytes()), ACCEPTED);
    }
}

/// More than 4,096 cells are 9 in the program and nothing here.
#[test]
fn any_number_of_cells() {
    for (w, h) in [(64, 64), (65, 64), (4096, 1), (1, 4096), (4096, 2), (700, 900)] {
        assert_eq!(checked(&Stream::fluvial(w, h).bytes()), ACCEPTED);
        assert_eq!(checked(&Stream::thermal(w, h).bytes()), ACCEPTED);
    }
    assert_eq!(checked(&Stream::thermal(4096, 4096).bytes()), ACCEPTED);
}

#[test]
fn every_truncation() {
    for s in samples() {
        let bytes = s.bytes();
        for len in 0..bytes.len() {
            assert_eq!(checked(&bytes[..len]), 8, "the first {len} bytes");
        }
    }
}

#[test]
fn bytes_left_over() {
    for s in samples() {
        let mut bytes = s.bytes();
        let row = bytes[s.rows_at()[0]..].to_vec();
        let longer = [&bytes[..], &row].concat();
        assert_eq!(checked(&longer), 8, "a row too many");
        for last in 0..=255 {
            bytes.push(last);
            assert_eq!(checked(&bytes), 8);
        }
    }
}

#[test]
fn wrong_marks() {
    for s in samples() {
        let bytes = s.bytes();
        for at in [0, 6].into_iter().chain(s.rows_at()) {
            for bit in 0..16 {
                let mut damaged = bytes.clone();
                damaged[at + bit / 8] ^= 1 << (bit % 8);
                assert_eq!(checked(&damaged), 8, "mark at {at}");
            }
            for mark in [GRID, FLUVIAL, THERMAL, ROW, b"EN", b"LF", b"\0\0"] {
                let mut damaged = bytes.clone();
                damaged[at..at + 2].copy_from_slice(mark);
                let same = damaged == bytes;
                assert_eq!(checked(&damaged), if same { ACCEPTED } else { 8 }, "mark at {at}");
            }
            let mut swapped = bytes.clone();
            swapped.swap(at, at + 1);
            assert_eq!(checked(&swapped), 8, "mark at {at}");
        }
    }
}

#[test]
fn bad_sides() {
    for bad in [0, 4097, 0x1001, 0x8000, 0xffff] {
        for (w, h) in [(bad, 1), (1, bad), (bad, bad)] {
            let mut s = Stream::fluvial(1, 1);
            (s.w, s.h) = (w, h);
            let bytes = s.bytes();
            for len in 6..=bytes.len() {
                assert_eq!(checked(&bytes[..len]), 1, "{w} x {h}");
            }
            assert_eq!(checked(&bytes[..5]), 8);
        }
    }
}

/// Each setting at the ends of its range and beyond, by document 01's order of the fields.
#[test]
fn settings() {
    let unit: &[f32] = &[0.0, -0.0, 1.0, 0.5, f32::MIN_POSITIVE];
    let beyond: &[f32] =
        &[f32::from_bits(0x8000_0001), -1.0, f32::from_bits(0x3f80_0001), f32::INFINITY, f32::NEG_INFINITY, f32::NAN];
    let uplift: &[f32] = &[-1.0, 1.0, 0.0];
    let beyond_uplift: &[f32] =
        &[f32::from_bits(0xbf80_0001), f32::from_bits(0x3f80_0001), f32::NEG_INFINITY, f32::NAN, -f32::NAN];
    let finite: &[f32] = &[f32::MAX, f32::MIN, 0.0];
    let not_finite: &[f32] = &[f32::INFINITY, f32::NEG_INFINITY, f32::NAN, f32::from_bits(0x7f80_0001)];
    let fluvial = [(finite, not_finite), (unit, beyond), (unit, beyond), (uplift, beyond_uplift)];
    let thermal = [(finite, not_finite), (unit, beyond), (unit, beyond)];
    for (stream, ranges) in [(Stream::fluvial(2, 1), &fluvial[..]), (Stream::thermal(2, 1), &thermal[..])] {
        let with = |field: usize, bits: u32| {
            let mut s = stream.clone();
            s.values[field] = bits;
            checked(&s.bytes())
        };
        for (field, (good, bad)) in ranges.iter().enumerate() {
            good.iter().for_each(|x| assert_eq!(with(field, x.to_bits()), ACCEPTED, "field {field}: {x}"));
            bad.iter().for_each(|x| assert_eq!(with(field, x.to_bits()), 4, "field {field}: {x}"));
        }
        let iterations = ranges.len();
        [0, 1, 4096].into_iter().for_each(|n| assert_eq!(with(iterations, n), ACCEPTED, "{n} iterations"));
        [4097, 1 << 16, u32::MAX].into_iter().for_each(|n| assert_eq!(with(iterations, n), 4, "{n} iterations"));
        // working side and S are any u32
        for any in [0, 1, 4097, u32::MAX] {
            assert_eq!(with(iterations + 1, any), ACCEPTED);
            assert_eq!(with(iterations + 2, any), ACCEPTED);
        }
    }
}

#[test]
fn heights_not_finite() {
    for s in samples() {
        for cell in 0..s.heights.len() {
            for x in [f32::INFINITY, f32::NEG_INFINITY, f32::NAN, f32::from_bits(0xff80_0001)] {
                let mut damaged = s.clone();
                damaged.heights[cell] = x;
                assert_eq!(checked(&damaged.bytes()), 5, "cell {cell}: {x}");
            }
            let mut extreme = s.clone();
            extreme.heights[cell] = f32::MIN;
            assert_eq!(checked(&extreme.bytes()), ACCEPTED);
        }
    }
}

/// Of two refusals the one that comes first in document 01's order: grid record 8, 1, the rest 8, 4, 5.
#[test]
fn order() {
    let mut s = Stream::fluvial(2, 2);
    s.heights[3] = f32::NAN;
    s.values[1] = 2f32.to_bits();
    assert_eq!(checked(&s.bytes()), 4, "4 before 5");
    let mut damaged = s.bytes();
    damaged.push(0);
    assert_eq!(checked(&damaged), 8, "left-over bytes before 4");
    s.w = 0;
    assert_eq!(checked(&s.bytes()), 1, "1 before the rest");
    let mut damaged = s.bytes();
    damaged[1] = 0;
    assert_eq!(checked(&damaged), 8, "the grid record before 1");
}

/// Streams with a few bytes changed, cut out or put in, by the tests' own reading.
#[test]
fn damaged_at_random() {
    let mut random = Random::new(4);
    let samples = samples();
    let mut seen = [0u32; 9];
    for _ in 0..400_000 {
        let mut bytes = samples[random.below(samples.len())].bytes();
        for _ in 0..random.below(3) {
            let at = random.below(bytes.len());
            match random.below(8) {
                0 => drop(bytes.remove(at)),
                1 => bytes.insert(at, random.next() as u8),
                2 => bytes[2 + random.below(4)] = random.next() as u8,
                3 => bytes[VALUES_AT + random.below(24)] = random.next() as u8,
                4 => bytes[at] = 0xff,
                _ => bytes[at] ^= 1 << random.below(8),
            }
        }
        seen[checked(&bytes) as usize] += 1;
    }
    for n in [ACCEPTED, 1, 4, 5, 8] {
        assert!(seen[n as usize] > 1000, "number {n} came {} times", seen[n as usize]);
    }
}

#[test]
fn nothing_and_noise() {
    assert_eq!(checked(&[]), 8);
    let mut random = Random::new(5);
    for len in 0..2000 {
        let noise: Vec<u8> = (0..len).map(|_| random.next() as u8).collect();
        assert_eq!(checked(&noise), 8);
    }
}
