//! What a plain program does to open the journals of a stopped run again: it makes each durable, reads all of its
//! packets, counts the keys in a hash map, and reports each key at the event that makes it reach the threshold. It
//! prints the lines of `lert recover`.
//!
//! Words: DIR. The threshold and the number of cones stand in the first journal; journals alone are read. It is the
//! yardstick of `bench/reopen`, and ends at the first fault.

mod counted_keys;
mod item;

use counted_keys::{Counted, print};
use item::{Item, KEY_LEN, WEIGHED_LEN, version_of};
use std::env;
use std::fs::File;
use std::io::{self, BufReader, BufWriter, ErrorKind, Read};
use std::path::Path;

const JOURNAL_NAME: &[u8] = b"LERTJ";
const MAGIC_LEN: usize = 8;
const HEADER_LEN: usize = 32;
const THRESHOLD_AT: usize = 8;
const CONE_BITS_AT: usize = 27;
const MOST_CONE_BITS: u8 = 8;
const BUFFER_LEN: usize = 1 << 16;
const OPEN: u8 = 1;
/// Before its keys a payload says who brought them, and their trace.
const KEYS_AT: usize = 8;

/// Takes the items of all packets, of so many bytes each, up to the closed gate behind them.
fn replay<const LEN: usize>(journal: &mut impl Read, threshold: u64) -> io::Result<Counted> {
    let mut counted = Counted::default();
    let mut payload = Vec::new();
    while let [OPEN] = bytes(journal)? {
        payload.resize(u32::from_le_bytes(bytes(journal)?) as usize, 0);
        journal.read_exact(&mut payload)?;
        let items = payload.get(KEYS_AT..).ok_or_else(|| bad("a packet has no key"))?;
        for item in items.chunks_exact(LEN) {
            counted.take(threshold, Item::of(item));
        }
    }
    Ok(counted)
}

fn bad(text: &str) -> io::Error {
    io::Error::new(ErrorKind::InvalidData, text)
}

fn bytes<const N: usize>(source: &mut impl Read) -> io::Result<[u8; N]> {
    let mut bytes = [0; N];
    source.read_exact(&mut bytes)?;
    Ok(bytes)
}

/// The header of a journal that is on the disk, its version, and what stands behind it.
fn open(dir: &Path, number: u32) -> io::Result<([u8; HEADER_LEN], u8, BufReader<File>)> {
    let file = File::open(dir.join(format!("cone-{number:03}.journal")))?;
    file.sync_data()?;
    let mut journal = BufReader::with_capacity(BUFFER_LEN, file);
    let header: [u8; HEADER_LEN] = bytes(&mut journal)?;
    let version = version_of(JOURNAL_NAME, &header[..MAGIC_LEN]);
    Ok((header, version.ok_or_else(|| bad("the journal has another header"))?, journal))
}

fn reopen(dir: &Path, number: u32) -> io::Result<Counted> {
    let (header, version, mut journal) = open(dir, number)?;
    let threshold: [u8; 4] = header[THRESHOLD_AT..][..4].try_into().expect("four bytes");
    let threshold = u64::from(u32::from_le_bytes(threshold));
    match version {
        1 => replay::<KEY_LEN>(&mut journal, threshold),
        _ => replay::<WEIGHED_LEN>(&mut journal, threshold),
    }
}

fn main() -> io::Result<()> {
    let words: Vec<String> = env::args().skip(1).collect();
    let [dir] = words.as_slice() else {
        return Err(io::Error::new(ErrorKind::InvalidInput, "the word is DIR"));
    };
    let dir = Path::new(dir);
    let (header, _version, _journal) = open(dir, 0)?;
    let cone_bits = header[CONE_BITS_AT];
    if cone_bits > MOST_CONE_BITS {
        return Err(bad("the journal has too many cone bits"));
    }
    let cones: Vec<Counted> = (0..1 << cone_bits).map(|number| reopen(dir, number)).collect::<io::Result<_>>()?;
    let mut out = BufWriter::with_capacity(BUFFER_LEN, io::stdout().lock());
    print(&mut out, &cones, "open")
}
