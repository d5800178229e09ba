//! What the programs that write traces share.

use std::env;
use std::io::{self, BufWriter, ErrorKind, Write};

/// Without weights, and with them.
const HEADER: [u8; 8] = *b"LERT\x01\0\0\0";
const WEIGHED_HEADER: [u8; 8] = *b"LERT\x02\0\0\0";

/// The words SEED KEYS [MOST]. With MOST, 1 to 255, a trace has weights: 1, 2, .. in turn, up to MOST, and anew.
pub struct Words {
    pub seed: u64,
    pub keys: u64,
    most: Option<u8>,
}

impl Words {
    pub fn given() -> io::Result<Words> {
        let words: Result<Vec<u64>, _> = env::args().skip(1).map(|word| word.parse()).collect();
        match words.as_deref() {
            Ok([seed, keys]) => Ok(Words { seed: *seed, keys: *keys, most: None }),
            Ok([seed, keys, most @ 1..=255]) => Ok(Words { seed: *seed, keys: *keys, most: Some(*most as u8) }),
            _ => Err(io::Error::new(ErrorKind::InvalidInput, "the words are SEED KEYS [MOST], MOST being 1 to 255")),
        }
    }

    /// Writes a trace of these keys to standard output.
    pub fn write(&self, keys: impl Iterator<Item = u64>) -> io::Result<()> {
        let mut out = BufWriter::with_capacity(1 << 16, io::stdout().lock());
        out.write_all(if self.most.is_none() { &HEADER } else { &WEIGHED_HEADER })?;
        let mut weights = (1..=self.most.unwrap_or(0)).cycle();
        for key in keys {
            out.write_all(&key.to_le_bytes())?;
            if let Some(weight) = weights.next() {
                out.write_all(&[weight])?;
            }
        }
        out.flush()
    }
}
