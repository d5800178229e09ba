//! Writes a trace of keys of which no two are the same to standard output. Words: SEED KEYS [MOST], as trace_writer
//! has them.
//!
//! Event i, from 1, has the mixed value of SEED + i as its key.

mod mixer;
mod trace_writer;

use mixer::mix;
use std::io;
use trace_writer::Words;

fn main() -> io::Result<()> {
    let words = Words::given()?;
    words.write((1..=words.keys).map(|event| mix(words.seed.wrapping_add(event))))
}
