//! The square root against Rust's own, bit for bit.
use crate::random::Random;
use layout_host::{square_root, Refusal};

/// Rust's root where document 01 has one, else refusal 4.
fn expected(bits: u32) -> Result<u32, Refusal> {
    let x = f32::from_bits(bits);
    if x.is_finite() && x >= 0.0 {
        Ok(x.sqrt().to_bits())
    } else {
        Err(Refusal(4))
    }
}

fn compare(bits: u32) {
    assert_eq!(square_root(f32::from_bits(bits)).map(f32::to_bits), expected(bits), "root of {bits:#010x}");
}

#[test]
fn every_exponent() {
    let mut random = Random::new(1);
    for sign_and_exponent in 0..512u32 {
        let base = sign_and_exponent << 23;
        for at in 0..23 {
            compare(base | 1 << at);
            compare(base | ((1 << at) - 1));
            compare(base | 0x7f_ffff & !(1 << at));
        }
        compare(base | 0x7f_ffff);
        for _ in 0..4096 {
            compare(base | random.next() as u32 & 0x7f_ffff);
        }
    }
}

#[test]
fn some_millions_of_patterns() {
    let mut random = Random::new(2);
    for _ in 0..8_000_000 {
        compare(random.next() as u32);
    }
}

/// Squares of 24-digit numbers and their neighbours: roots that are exact, or nearly.
#[test]
fn squares() {
    for root in (1..4096u32).chain((4096..1 << 24).step_by(97)) {
        let square = (root as f32) * (root as f32);
        for bits in square.to_bits() - 1..=square.to_bits() + 1 {
            compare(bits);
        }
    }
}

#[test]
fn refused() {
    for x in [f32::INFINITY, f32::NEG_INFINITY, -1.0, -f32::MIN_POSITIVE, f32::from_bits(0x8000_0001), f32::MIN] {
        assert_eq!(square_root(x), Err(Refusal(4)), "{x}");
    }
    for bits in [0x7fc0_0000, 0xffc0_0000, 0x7f80_0001, 0xff80_0001, 0x7fff_ffff, 0xffff_ffff] {
        assert_eq!(square_root(f32::from_bits(bits)), Err(Refusal(4)), "NaN {bits:#x}");
    }
}

#[test]
fn zeros_keep_their_sign() {
    assert_eq!(square_root(0.0).map(f32::to_bits), Ok(0));
    assert_eq!(square_root(-0.0).map(f32::to_bits), Ok(0x8000_0000));
}

/// All 2^32 patterns: `host/run.sh --ignored`.
#[test]
#[ignore = "takes about a minute"]
fn every_pattern() {
    for bits in 0..=u32::MAX {
        compare(bits);
    }
}
