//! Writes a trace of skewed keys to standard output. Words: SEED KEYS [MOST], as trace_writer
//! has them.
//!
//! Each key is a number of `bits` random bits whose highest is 1, `bits` being 1 to 24 with the same
//! chance, and then spread over 64 bits by an odd factor. So the n-th key is about as frequent as
//! 1/n, as words are in a text. Random numbers are those of splitmix64: the same seed gives the same
//! trace.

mod random;
mod trace_writer;

use random::Random;
use std::io;
use trace_writer::Words;

const MOST_BITS: u64 = 24;
const SPREAD: u64 = 0x9e37_79b9_7f4a_7c15;

fn skewed_key(random: &mut Random) -> u64 {
    let bits = 1 + random.next() % MOST_BITS;
    let highest = 1 << (bits - 1);
    (highest | (random.next() & (highest - 1))).wrapping_mul(SPREAD)
}

fn main() -> io::Result<()> {
    let words = Words::given()?;
    let mut random = Random(words.seed);
    words.write((0..words.keys).map(|_| skewed_key(&mut random)))
}
