//! Writes a trace of generated keys to standard output. Words: SEED KEYS [MOST], as trace_writer
//! has them.
//!
//! Event i, from 1, has the value v, the mixed value of SEED + i. The key is one of a thousand, (v >> 32)
//! mod 1000, where v is even, else v itself. So half of the events are of keys that come often, and half
//! of keys that come once.

mod mixer;
mod trace_writer;

use mixer::mix;
use std::io;
use trace_writer::Words;

fn key_at(seed: u64, event: u64) -> u64 {
    let value = mix(seed.wrapping_add(event));
    if value % 2 == 0 { (value >> 32) % 1000 } else { value }
}

fn main() -> io::Result<()> {
    let words = Words::given()?;
    words.write((1..=words.keys).map(|event| key_at(words.seed, event)))
}
