//! A frame as plain Rust writes it.

use crate::{BUFFER, Level, Piece};
use std::fs::File;
use std::io;
use std::os::unix::fs::FileExt;

/// The slots of a piece.
fn write_group(width: u32, x: u64, count: u64, slots: &mut Vec<u64>) {
    match (x, count) {
        (_, 1) => slots.push(x),
        (_, 2) => slots.extend([x, x]),
        (0, 3) => slots.extend([0, 0, 0]),
        (0, _) => {
            slots.push(0);
            write_digits(0, (1 << width) - 1, count - 4, slots);
            slots.extend([0, 0]);
        }
        _ => {
            slots.push(x);
            let at = slots.len();
            write_digits(x, (1 << width) - 2, count - 3, slots);
            if slots[at] > x {
                slots.insert(at, 0);
            }
            slots.push(x);
        }
    }
}

fn write_digits(x: u64, base: u64, number: u64, slots: &mut Vec<u64>) {
    if number >= base {
        write_digits(x, base, number / base, slots);
    }
    let digit = number % base;
    slots.push(digit + if x == 0 || digit + 1 < x { 1 } else { 2 });
}

/// A frame as it is written.
pub struct Writer<'a> {
    file: &'a File,
    pub calls: u64,
    width: u32,
    blocks: u64,
    buffer: Vec<u8>,
    at: u64,
    block: u64,
    occupied: u64,
    last: u64,
    slots: Vec<u64>,
    ends: Vec<u64>,
}

impl<'a> Writer<'a> {
    pub fn new(file: &'a File, level: &Level) -> Self {
        Writer {
            file,
            calls: 0,
            width: level.width(),
            blocks: level.blocks(),
            buffer: Vec::with_capacity(BUFFER),
            at: level.place,
            block: 0,
            occupied: 0,
            last: u64::MAX,
            slots: Vec::with_capacity(512),
            ends: vec![0; 8],
        }
    }

    #[inline]
    pub fn put(&mut self, piece: Piece) -> io::Result<()> {
        let quotient = piece.tail >> self.width;
        while quotient / 64 != self.block {
            self.end_block()?;
        }
        let x = piece.tail & ((1 << self.width) - 1);
        let before = self.slots.len();
        if piece.count == 1 {
            self.slots.push(x);
        } else {
            write_group(self.width, x, piece.count, &mut self.slots);
        }
        let end = self.slots.len() - 1;
        if end / 64 >= self.ends.len() {
            self.ends.push(0);
        }
        if quotient == self.last {
            self.ends[(before - 1) / 64] &= !(1 << ((before - 1) % 64));
        }
        self.ends[end / 64] |= 1 << (end % 64);
        self.occupied |= 1 << (quotient % 64);
        self.last = quotient;
        Ok(())
    }

    fn end_block(&mut self) -> io::Result<()> {
        let words = self.slots.len().div_ceil(64);
        let len = 12 + 8 * (words + self.slots.len());
        if self.buffer.len() + len > BUFFER {
            self.flush()?;
        }
        self.buffer.extend_from_slice(&self.occupied.to_le_bytes());
        self.buffer.extend_from_slice(&(self.slots.len() as u32).to_le_bytes());
        for numbers in [&self.ends[..words], &self.slots] {
            self.buffer.extend(numbers.iter().flat_map(|number| number.to_le_bytes()));
        }
        self.ends[..words].fill(0);
        self.slots.clear();
        self.occupied = 0;
        self.block += 1;
        Ok(())
    }

    fn flush(&mut self) -> io::Result<()> {
        self.file.write_all_at(&self.buffer, self.at)?;
        self.calls += 1;
        self.at += self.buffer.len() as u64;
        self.buffer.clear();
        Ok(())
    }

    pub fn end(&mut self) -> io::Result<()> {
        while self.block < self.blocks {
            self.end_block()?;
        }
        self.flush()
    }
}
