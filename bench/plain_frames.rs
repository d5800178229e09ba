//! The frames of `crates/lert_bench` in plain Rust. Words: TEXT KIND FILE PIECES SEED [VERSION]. The text is `trusted`,
//! for a reader that takes what it reads for a frame, or `tested`, for one that makes the tests of the proved reader.
//! The kind is `distinct` or `skewed`. With version 2 a frame is one of a journal with weights, each up to 255, and has
//! room for more; by default they are 1.
//!
//! It draws the same pieces, writes them as a frame into the file and reads them back, through buffers of 8 KiB. It
//! prints the same sum over what it read, and on standard error the nanoseconds that the two took and their calls of
//! the system. It is the yardstick of `bench/frames`, and ends at the first fault.
//!
//! The reader stands beside `main`: in a module of its own the `tested` one took a sixth longer.

mod plain_frame_writer;
mod plain_pieces;
mod random;

use plain_frame_writer::Writer;
use random::Random;
use std::env;
use std::fs::{File, OpenOptions};
use std::io::{self, Error, ErrorKind};
use std::os::unix::fs::FileExt;
use std::time::Instant;

const BUFFER: usize = 8192;
/// How many slots a group has at most.
const GROUP: usize = 9;
/// The slots of a word of run ends, and those behind them to which a group may reach.
const NEAR: usize = 64 + GROUP - 1;
/// Room for the pieces of two words, and for the slots of one.
const ROOM: usize = 128;

#[derive(Clone, Copy)]
struct Piece {
    tail: u64,
    count: u64,
}

/// A level: its frames' quotients and room are its span.
struct Level {
    version: u8,
    span_bits: u32,
    place: u64,
}

impl Level {
    fn width(&self) -> u32 {
        64 - self.span_bits
    }

    fn blocks(&self) -> u64 {
        (1 << self.span_bits) / 64
    }

    fn most_slots(&self) -> u64 {
        if self.version == 1 { 2 << self.span_bits } else { 4 << self.span_bits }
    }

    /// How many bytes a place has.
    fn frame_len(&self) -> u64 {
        20 * self.blocks() + 8 * (self.most_slots() + self.most_slots() / 64)
    }
}

fn wrong(text: &'static str) -> Error {
    Error::new(ErrorKind::InvalidData, text)
}

/// A frame as it is read, by keys of this weight at most.
struct Reader<'a, const TESTED: bool, const WEIGHT: u64> {
    file: &'a File,
    calls: u64,
    width: u32,
    blocks: u64,
    most: u64,
    // The bin's keys that no count needs so far, and what the counts lack to be as many as its keys.
    spare: u64,
    lack: u64,
    buffer: Vec<u8>,
    from: usize,
    upto: usize,
    at: u64,
    block: u64,
    // The quotients to come of the present block, its slots, of which so many are decoded, and its run ends.
    occupied: u64,
    count: usize,
    slot: usize,
    ends: Vec<u64>,
    least: u64,
    // Those that are decoded, of which the first were given. Their number is masked, so that no index is tested.
    pieces: Box<[Piece; ROOM]>,
    len: usize,
    given: usize,
}

#[inline(always)]
fn word(bytes: &[u8], at: usize) -> u64 {
    u64::from_le_bytes(bytes[8 * at..8 * at + 8].try_into().unwrap())
}

/// The count and the number of slots of the group at the front of a run.
#[inline(never)]
fn read_group(width: u32, run: &[u64]) -> Option<(u64, usize)> {
    let x = run[0];
    if run.len() == 1 || run[1] > x && (x != 0 || !run[1..].windows(2).any(|two| two == [0, 0])) {
        return Some((1, 1));
    }
    if run[1] == x {
        return Some(if x == 0 && run.get(2) == Some(&0) { (3, 3) } else { (2, 2) });
    }
    let (base, mut at, least) = match x {
        0 => ((1 << width) - 1, 1, 4),
        _ => ((1 << width) - 2, 1 + usize::from(run[1] == 0), 3),
    };
    let first = at;
    let mut number = 0u64;
    while *run.get(at)? != x {
        let digit = run[at].checked_sub(if x == 0 || run[at] < x { 1 } else { 2 })?;
        if digit == 0 && at == first && *run.get(at + 1)? != x || at == first + 6 {
            return None;
        }
        number = number.checked_mul(base)?.checked_add(digit)?;
        at += 1;
    }
    let escaped = first == 2;
    if at == first || x != 0 && escaped != (run[first] > x) || number + least > 1 << 47 {
        return None;
    }
    at += 1;
    if x == 0 {
        if *run.get(at)? != 0 {
            return None;
        }
        at += 1;
    }
    Some((number + least, at))
}

impl<'a, const TESTED: bool, const WEIGHT: u64> Reader<'a, TESTED, WEIGHT> {
    fn new(file: &'a File, level: &Level, keys: u64) -> Self {
        Reader {
            file,
            calls: 0,
            width: level.width(),
            blocks: level.blocks(),
            most: level.most_slots(),
            spare: keys,
            lack: keys,
            buffer: vec![0; BUFFER],
            from: 0,
            upto: 0,
            at: level.place,
            block: 0,
            occupied: 0,
            count: 0,
            slot: 0,
            ends: Vec::with_capacity(64),
            least: 0,
            pieces: Box::new([Piece { tail: 0, count: 0 }; ROOM]),
            len: 0,
            given: 0,
        }
    }

    #[inline]
    fn next(&mut self) -> io::Result<Option<Piece>> {
        if self.given == self.len {
            self.fill()?;
            if self.len == 0 {
                return Ok(None);
            }
        }
        self.given += 1;
        Ok(Some(self.pieces[(self.given - 1) % ROOM]))
    }

    fn fill(&mut self) -> io::Result<()> {
        self.len = 0;
        self.given = 0;
        while self.len <= 64 {
            if self.slot < self.count {
                self.read_word()?;
            } else if self.block < self.blocks {
                self.begin_block()?;
            } else if TESTED && self.lack != 0 {
                return Err(wrong("too few counts"));
            } else {
                break;
            }
        }
        Ok(())
    }

    /// Has so many bytes at hand.
    #[inline]
    fn need(&mut self, count: usize) -> io::Result<()> {
        while self.upto - self.from < count {
            self.buffer.copy_within(self.from..self.upto, 0);
            self.upto -= self.from;
            self.from = 0;
            let read = self.file.read_at(&mut self.buffer[self.upto..], self.at)?;
            if read == 0 {
                return Err(ErrorKind::UnexpectedEof.into());
            }
            self.calls += 1;
            self.upto += read;
            self.at += read as u64;
        }
        Ok(())
    }

    fn begin_block(&mut self) -> io::Result<()> {
        self.need(12)?;
        let head = &self.buffer[self.from..self.from + 12];
        self.occupied = word(head, 0);
        self.count = u32::from_le_bytes(head[8..].try_into().unwrap()) as usize;
        self.from += 12;
        self.slot = 0;
        self.least = 0;
        self.block += 1;
        if TESTED && (self.count as u64 > self.most || self.count == 0 && self.occupied != 0) {
            return Err(wrong("a number of slots"));
        }
        self.most -= self.count as u64;
        self.ends.clear();
        for _ in 0..self.count.div_ceil(64) {
            self.need(8)?;
            self.ends.push(word(&self.buffer[self.from..], 0));
            self.from += 8;
        }
        if TESTED && !self.ends_agree() {
            return Err(wrong("the run ends"));
        }
        Ok(())
    }

    fn ends_agree(&self) -> bool {
        let runs: u32 = self.ends.iter().map(|word| word.count_ones()).sum();
        let Some(last) = self.ends.last() else {
            return true;
        };
        // The last slot's bit is the highest one.
        runs == self.occupied.count_ones() && 63 - last.leading_zeros() as usize == (self.count - 1) % 64
    }

    /// Decodes the groups that begin in the slots to come of the present word of run ends.
    fn read_word(&mut self) -> io::Result<()> {
        let rest = self.count - self.slot;
        let near = rest.min(NEAR);
        self.need(8 * near)?;
        let mut slots = [0; ROOM];
        let bytes = &self.buffer[self.from..self.from + 8 * near];
        for (slot, bytes) in slots.iter_mut().zip(bytes.chunks_exact(8)) {
            *slot = word(bytes, 0);
        }
        let (first, bit) = (self.slot / 64, self.slot % 64);
        let mut ends = self.ends[first] >> bit;
        if bit > 0 && first + 1 < self.ends.len() {
            ends |= self.ends[first + 1] << (64 - bit);
        }
        let next_ends = self.ends.get(first + 1).map_or(0, |word| word >> bit);
        let stop = rest.min(64 - bit);
        let base = 64 * (self.block - 1);
        let (mut at, mut occupied, mut least, mut len) = (0, self.occupied, self.least, self.len);
        while at < stop {
            let x = slots[at % ROOM];
            let mut used = 1;
            let mut count = 1;
            if ends & 1 == 0 && (x == 0 || at + 1 == near || slots[(at + 1) % ROOM] <= x) || x == 0 {
                let end = if ends == 0 { 64 + next_ends.trailing_zeros() } else { ends.trailing_zeros() };
                let run = &slots[at..at + (end as usize + 1).min(near - at)];
                (count, used) = read_group(self.width, run).ok_or_else(|| wrong("a group"))?;
            }
            if TESTED && (x >> self.width != 0 || x < least || occupied == 0) {
                return Err(wrong("a slot"));
            }
            let quotient = base + u64::from(occupied.trailing_zeros());
            self.pieces[len % ROOM] = Piece { tail: (quotient << self.width) + x, count };
            len += 1;
            if TESTED {
                self.spare = self.spare.checked_sub(count.div_ceil(WEIGHT)).ok_or_else(|| wrong("the sum"))?;
                self.lack = self.lack.saturating_sub(count);
            }
            at += used;
            let is_end = ends >> (used - 1) & 1 == 1;
            ends = ends.checked_shr(used as u32).unwrap_or(0);
            least = if is_end { 0 } else { x + 1 };
            if is_end {
                occupied &= occupied - 1;
            }
        }
        self.slot += at;
        self.from += 8 * at;
        self.occupied = occupied;
        self.least = least;
        self.len = len;
        Ok(())
    }
}

fn sum_up(sum: u64, piece: Piece) -> u64 {
    sum.rotate_left(1) ^ piece.tail ^ piece.count.rotate_left(32)
}

/// The sum over what is read, and the calls.
fn read<const TESTED: bool, const WEIGHT: u64>(file: &File, level: &Level, keys: u64) -> io::Result<(u64, u64)> {
    let mut reader = Reader::<TESTED, WEIGHT>::new(file, level, keys);
    let mut sum = 0;
    while let Some(piece) = reader.next()? {
        sum = sum_up(sum, piece);
    }
    Ok((sum, reader.calls))
}

fn main() -> io::Result<()> {
    let usage = || Error::new(ErrorKind::InvalidInput, "the words are TEXT KIND FILE PIECES SEED [VERSION]");
    let words: Vec<String> = env::args().skip(1).collect();
    let (version, text, kind, path, pieces, seed) = match words.as_slice() {
        [text, kind, path, pieces, seed] => (1, text, kind, path, pieces, seed),
        [text, kind, path, pieces, seed, version] if version == "2" => (2, text, kind, path, pieces, seed),
        _ => return Err(usage()),
    };
    let number = |word: &String| word.parse::<u64>().map_err(|_| usage());
    // Three places of a level of 2^19 events stand before those of 2^22.
    let (level, is_skewed) = match kind.as_str() {
        "distinct" => (Level { version, span_bits: 20, place: 0 }, false),
        "skewed" => {
            let younger = Level { version, span_bits: 19, place: 0 };
            (Level { version, span_bits: 22, place: 3 * younger.frame_len() }, true)
        }
        _ => return Err(usage()),
    };
    let pieces = Random(number(seed)?).pieces(number(pieces)?, is_skewed, 1 << level.span_bits);
    // As if each key had the weight 1.
    let keys = pieces.iter().map(|piece| piece.count).sum();
    let file = OpenOptions::new().read(true).write(true).create(true).truncate(false).open(path)?;
    let start = Instant::now();
    let mut writer = Writer::new(&file, &level);
    for piece in &pieces {
        writer.put(*piece)?;
    }
    writer.end()?;
    let written = start.elapsed().as_nanos();
    let start = Instant::now();
    let (sum, reads) = match (text.as_str(), version) {
        ("trusted", _) => read::<false, 1>(&file, &level, keys)?,
        ("tested", 1) => read::<true, 1>(&file, &level, keys)?,
        ("tested", _) => read::<true, 255>(&file, &level, keys)?,
        _ => return Err(usage()),
    };
    let read = start.elapsed().as_nanos();
    let expected = pieces.iter().fold(0, |sum, piece| sum_up(sum, *piece));
    if sum != expected {
        return Err(wrong("other pieces came back"));
    }
    println!("{} {sum}", pieces.len());
    eprintln!("{written} {read} {} {reads}", writer.calls);
    Ok(())
}
