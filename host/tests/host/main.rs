//! The three calls against Rust's own root, the source's formula, and the tests' own reading of streams.
mod random;
mod square_root;
mod stream_check;
mod streams;
mod working_sides;
