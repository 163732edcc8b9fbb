//! Answers with their refusals, the sides of a grid and the record of the stop marks: values that the oracle and
//! reference/ share.

/// A refusal's number, with the cell or position that it carries (0 where it carries none).
#[derive(Clone, Copy, Debug, PartialEq)]
pub struct Refusal {
    pub number: u32,
    pub place: u32,
}

pub type Answer<T> = Result<T, Refusal>;

pub type Sides = (usize, usize);

/// Document 01's record of the stop marks.
#[derive(Clone, Copy, Debug)]
pub struct Record {
    pub last: f32,
    pub asked: u32,
    pub stopped: bool,
}

impl Record {
    pub const FRESH: Record = Record { last: -1.0, asked: 0, stopped: false };
}
