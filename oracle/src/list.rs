//! The replay list: the words that the replay program reads and those that it must write. Words are four bytes, low byte
//! first; a float is its bits, every NaN 0x7fc00000 in an answer. README.md has the format of each task and answer.
use std::collections::BTreeMap;
use std::fs;
use std::io;
use std::path::Path;

use crate::answer::{Answer, Record, Sides};
use crate::counts::{by_call, Counts};
use crate::random::Random;

const NAN_BITS: u32 = 0x7fc0_0000;

/// The word that a task of each call begins with.
pub mod call {
    pub const LEAST: u32 = 1;
    pub const GREATEST: u32 = 2;
    pub const NORMALIZE: u32 = 3;
    pub const DOWNSAMPLE: u32 = 4;
    pub const ADD_UPSAMPLED: u32 = 5;
    pub const BILINEAR: u32 = 6;
    pub const ROOT: u32 = 7;
    pub const WORK_SIZE: u32 = 8;
    pub const REPORT: u32 = 9;
    pub const INCISE: u32 = 10;
    pub const SLIDE_PASS: u32 = 11;
    pub const ROUTE: u32 = 12;
    pub const RELIEF: u32 = 13;
}

/// How many floats a task has.
const FLOATS: usize = 5;

/// The length of the program's scratch, and what it holds before a call: a number, the float of these bits, or a state of their low byte.
pub const ROOM: usize = 10_500;
const HELD: u32 = 0xc29b_0007;

/// The numbers of a task, 0 where its call takes none.
#[derive(Clone, Copy, Default)]
pub struct Numbers {
    pub size: Sides,
    pub reduced: Sides,
    pub stop: u32,
    pub work_res: u32,
}

/// What stands behind the maps of a task, and but for the values before the word of its answer: values, a record of stop marks, slices of a
/// network.
#[derive(Default)]
pub struct Rest {
    pub values: Vec<f32>,
    pub record: Option<Record>,
    pub floats: Vec<Vec<f32>>,
    pub cells: Vec<Vec<u32>>,
}

impl From<Record> for Rest {
    fn from(record: Record) -> Rest {
        Rest { record: Some(record), ..Rest::default() }
    }
}

/// A task but for a stream: floats that are left out are 0, maps empty.
#[derive(Default)]
pub struct Task {
    pub call: u32,
    pub numbers: Numbers,
    pub floats: Vec<f32>,
    /// the map that the call reads, and the one that it writes
    pub read: Vec<f32>,
    pub written: Vec<f32>,
    pub rest: Rest,
}

impl Task {
    /// A task without slices.
    pub fn of(call: u32, numbers: Numbers, floats: &[f32]) -> Task {
        Task { call, numbers, floats: floats.to_vec(), ..Task::default() }
    }
}

fn words(v: &[f32]) -> Vec<u32> {
    v.iter().map(|x| x.to_bits()).collect()
}

/// The bits that the library gives of a float.
pub fn bits(x: f32) -> u32 {
    if x.is_nan() {
        NAN_BITS
    } else {
        x.to_bits()
    }
}

/// An answer in one word: the refusal's number in the upper half and what it carries in the lower one, or the result alone.
pub fn word<T>(a: &Answer<T>, result: impl FnOnce(&T) -> u32) -> u64 {
    match a {
        Ok(x) => u64::from(result(x)),
        Err(r) => u64::from(r.number) << 32 | u64::from(r.place),
    }
}

/// The result slice of a direct pass, which counts as scratch on 21 and 22 and is not told then.
pub fn result<'a>(a: &Answer<()>, out: &'a [f32]) -> Option<&'a [f32]> {
    let scratch = matches!(a, Err(r) if r.number >= 21);
    (!scratch).then_some(out)
}

pub struct List {
    asked: Vec<u8>,
    given: Vec<u8>,
    /// how many answers of each call have each number
    counts: Counts,
    /// how many answers of each call have a remark of the list's maker
    notes: BTreeMap<(&'static str, &'static str), usize>,
}

/// A list, whose parts each draw from the seed anew.
pub fn of(seed: u64, parts: &[fn(&mut List, &mut Random)]) -> List {
    let mut l = List { asked: Vec::new(), given: Vec::new(), counts: Counts::new(), notes: BTreeMap::new() };
    for part in parts {
        part(&mut l, &mut Random::new(seed));
    }
    l
}

impl List {
    /// A task with its answer: the rest after the call, the word, and the map that was written, if that is told.
    pub fn task(&mut self, t: &Task, after: &Rest, word: u64, written: Option<&[f32]>) {
        let n = &t.numbers;
        let shown = if written.is_some() { u32::MAX } else { 0 };
        let sides = [n.size.0, n.size.1, n.reduced.0, n.reduced.1].map(|side| side as u32);
        let mut floats = t.floats.clone();
        floats.resize(FLOATS, 0.0);
        self.ask(&[t.call, HELD, shown]);
        self.ask(&sides);
        self.ask(&[n.stop, n.work_res]);
        self.ask(&words(&floats));
        self.ask_slice(&words(&t.read));
        self.ask_slice(&words(&t.written));
        self.ask_rest(&t.rest);
        self.give_rest(after);
        self.give(&[word as u32, (word >> 32) as u32]);
        self.give_floats(written.unwrap_or(&[]));
    }

    /// A task with nothing behind its maps.
    pub fn plain(&mut self, t: &Task, word: u64, written: &[f32]) {
        self.task(t, &Rest::default(), word, Some(written));
    }

    fn ask(&mut self, words: &[u32]) {
        for w in words {
            self.asked.extend_from_slice(&w.to_le_bytes());
        }
    }

    /// A slice behind its length.
    fn ask_slice(&mut self, words: &[u32]) {
        self.ask(&[words.len() as u32]);
        self.ask(words);
    }

    fn ask_rest(&mut self, r: &Rest) {
        self.ask(&words(&r.values));
        if let Some(m) = r.record {
            self.ask(&[m.last.to_bits(), m.asked, m.stopped as u32]);
        }
        r.floats.iter().for_each(|v| self.ask_slice(&words(v)));
        r.cells.iter().for_each(|v| self.ask_slice(v));
    }

    /// In the order in which the program writes it, cells before floats.
    fn give_rest(&mut self, r: &Rest) {
        if let Some(m) = r.record {
            self.give(&[bits(m.last), m.asked, m.stopped as u32]);
        }
        r.cells.iter().for_each(|v| self.give(v));
        r.floats.iter().for_each(|v| self.give_floats(v));
    }

    fn give_floats(&mut self, v: &[f32]) {
        self.give(&v.iter().map(|x| bits(*x)).collect::<Vec<u32>>());
    }

    /// A task that is a stream, behind its length, with the bytes that `relief` prints.
    pub fn stream(&mut self, call: u32, bytes: &[u8], printed: &[u8]) {
        self.ask(&[call, bytes.len() as u32]);
        self.asked.extend_from_slice(bytes);
        self.given.extend_from_slice(printed);
    }

    /// Counts how a call ended.
    pub fn ended<T>(&mut self, call: &'static str, a: &Answer<T>) {
        self.count(call, a.as_ref().map_or_else(|r| r.number, |_| 0));
    }

    /// Counts an answer of a call for the summary.
    pub fn count(&mut self, call: &'static str, number: u32) {
        *self.counts.entry((call, number)).or_insert(0) += 1;
    }

    fn give(&mut self, words: &[u32]) {
        for w in words {
            self.given.extend_from_slice(&w.to_le_bytes());
        }
    }

    /// Counts a remark on an answer for the summary.
    pub fn note(&mut self, call: &'static str, remark: &'static str) {
        *self.notes.entry((call, remark)).or_insert(0) += 1;
    }

    /// Writes the list to the files stdin and stdout of a folder, `behind` what they hold or in its place.
    pub fn put(&self, folder: &Path, behind: bool) -> io::Result<()> {
        fs::create_dir_all(folder)?;
        for (name, bytes) in [("stdin", &self.asked), ("stdout", &self.given)] {
            let held = if behind { fs::read(folder.join(name))? } else { Vec::new() };
            fs::write(folder.join(name), [&held, bytes.as_slice()].concat())?;
        }
        Ok(())
    }

    /// One line for each call: how many tasks, and how many answers of each refusal.
    pub fn summary(&self) -> String {
        let mut text = format!("stdin {} bytes, stdout {} bytes\n", self.asked.len(), self.given.len());
        for (call, of) in by_call(&self.counts) {
            let total: usize = of.iter().map(|c| c.1).sum();
            text.push_str(&format!("  {call}: {total} tasks"));
            for (number, n) in of {
                if number == 0 {
                    text.push_str(&format!(", {n} accepted"));
                } else {
                    text.push_str(&format!(", {n} refused by {number}"));
                }
            }
            for ((_, remark), n) in self.notes.iter().filter(|(k, _)| k.0 == call) {
                text.push_str(&format!(", {n} after {remark}"));
            }
            text.push('\n');
        }
        text
    }
}
