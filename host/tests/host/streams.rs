//! Streams of document 01, 'The stream', written and read by the tests themselves.

pub const GRID: &[u8; 2] = b"GR";
pub const FLUVIAL: &[u8; 2] = b"FL";
pub const THERMAL: &[u8; 2] = b"TH";
pub const ROW: &[u8; 2] = b"RW";

/// A grid record of 6 bytes and the mark of the settings stand before the settings' values.
pub const VALUES_AT: usize = 8;

/// A stream: sides, the settings' mark with its values of four bytes each, and the heights row by row.
#[derive(Clone)]
pub struct Stream {
    pub w: u16,
    pub h: u16,
    pub mark: &'static [u8; 2],
    pub values: Vec<u32>,
    pub heights: Vec<f32>,
}

impl Stream {
    /// Water level 0, strength 1, talus 0, uplift 0, iterations 1, working side 512, S 0.
    pub fn fluvial(w: u16, h: u16) -> Stream {
        let values = vec![0, 1f32.to_bits(), 0, 0, 1, 512, 0];
        Stream { w, h, mark: FLUVIAL, values, heights: heights(w, h) }
    }

    /// Water level 0, talus 0.5, strength 0.5, iterations 3, working side 512, S 0.
    pub fn thermal(w: u16, h: u16) -> Stream {
        let values = vec![0, 0.5f32.to_bits(), 0.5f32.to_bits(), 3, 512, 0];
        Stream { w, h, mark: THERMAL, values, heights: heights(w, h) }
    }

    pub fn bytes(&self) -> Vec<u8> {
        let mut out = GRID.to_vec();
        out.extend(self.w.to_le_bytes());
        out.extend(self.h.to_le_bytes());
        out.extend(self.mark);
        out.extend(self.values.iter().flat_map(|v| v.to_le_bytes()));
        for row in self.heights.chunks(self.w.max(1) as usize) {
            out.extend(ROW);
            out.extend(row.iter().flat_map(|x| x.to_bits().to_le_bytes()));
        }
        out
    }

    /// Where each row's mark stands.
    pub fn rows_at(&self) -> Vec<usize> {
        let begin = VALUES_AT + 4 * self.values.len();
        (0..self.h as usize).map(|y| begin + y * (2 + 4 * self.w as usize)).collect()
    }
}

fn heights(w: u16, h: u16) -> Vec<f32> {
    (0..w as usize * h as usize).map(|i| i as f32 * 0.25 - 1.0).collect()
}

/// Document 01's number of a stream, with 9 left out; 0 for one that is accepted. Order: grid record 8, 1, the rest 8, 4, 5.
pub fn number(s: &[u8]) -> u32 {
    if s.len() < 6 || &s[..2] != GRID {
        return 8;
    }
    let side = |at: usize| u16::from_le_bytes([s[at], s[at + 1]]) as usize;
    let (w, h) = (side(2), side(4));
    if !(1..=4096).contains(&w) || !(1..=4096).contains(&h) {
        return 1;
    }
    let Some((bad_setting, rows)) = settings(&s[6..]) else {
        return 8;
    };
    if rows.len() != h * (2 + 4 * w) || rows.chunks(2 + 4 * w).any(|row| &row[..2] != ROW) {
        return 8;
    }
    if bad_setting {
        return 4;
    }
    let finite = |row: &[u8]| row[2..].chunks(4).all(|x| float(x).is_finite());
    if rows.chunks(2 + 4 * w).all(finite) {
        0
    } else {
        5
    }
}

/// Whether a setting is outside its range, and what follows the settings record; nothing for another mark or an early end.
fn settings(s: &[u8]) -> Option<(bool, &[u8])> {
    let mark = s.get(..2)?;
    // talus and strength have the same range, so their order does not show here
    let (floats, uplift) = match mark {
        m if m == FLUVIAL => (4, Some(3)),
        m if m == THERMAL => (3, None),
        _ => return None,
    };
    let end = 2 + 4 * (floats + 3);
    let values: Vec<&[u8]> = s.get(2..end)?.chunks(4).collect();
    let mut bad = !float(values[0]).is_finite();
    for (i, value) in values.iter().enumerate().take(floats).skip(1) {
        let low = if Some(i) == uplift { -1.0 } else { 0.0 };
        bad |= !(low..=1.0).contains(&float(value));
    }
    bad |= u32::from_le_bytes(values[floats].try_into().ok()?) > 4096;
    Some((bad, &s[end..]))
}

fn float(four: &[u8]) -> f32 {
    f32::from_le_bytes(four.try_into().expect("four bytes"))
}
