//! The three calls of the layout engine: the square root, the working sides and the stream check, as safe Rust functions over the
//! proved C functions of crates/layout_calls.

/// One of document 01's refusals, by its number.
#[derive(Clone, Copy, Debug, PartialEq, Eq)]
pub struct Refusal(pub u32);

mod calls {
    extern "C" {
        pub fn milofavurn_square_root(x: f32) -> u64;
        pub fn milofavurn_working_sides(w: usize, h: usize, max_res: u32) -> u64;
        // a slice passes as pointer and length
        pub fn milofavurn_stream_check(bytes: *const u8, len: usize) -> u64;
    }
}

/// A word is the refusal number × 2^32 plus, where that number is 0, the value.
fn unpacked(word: u64) -> Result<u32, Refusal> {
    match (word >> 32) as u32 {
        0 => Ok(word as u32),
        number => Err(Refusal(number)),
    }
}

/// IEEE 754 squareRoot, to nearest; refused by 4 unless x is finite and not below 0.
pub fn square_root(x: f32) -> Result<f32, Refusal> {
    // the call takes any float
    let word = unsafe { calls::milofavurn_square_root(x) };
    unpacked(word).map(f32::from_bits)
}

/// The working sides (width, height) of a w × h map, the longest at most `max_res`; refused by 1 unless both sides are 1 to 4,096.
pub fn working_sides(w: usize, h: usize, max_res: u32) -> Result<(usize, usize), Refusal> {
    // the call takes any numbers
    let word = unsafe { calls::milofavurn_working_sides(w, h, max_res) };
    unpacked(word).map(|value| ((value >> 16) as usize, (value & 0xffff) as usize))
}

/// Whether `bytes` is a stream that can be run: refused by 8, 1, 4 or 5. It may have more cells than the program `relief` takes.
pub fn check_stream(bytes: &[u8]) -> Result<(), Refusal> {
    // the call reads these bytes and no others, and writes nothing
    let word = unsafe { calls::milofavurn_stream_check(bytes.as_ptr(), bytes.len()) };
    unpacked(word).map(|_| ())
}
