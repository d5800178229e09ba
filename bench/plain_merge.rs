//! The merge of `crates/lert_bench` in plain Rust. Words: KIND STREAMS PIECES SEED. The kind is `tree`, for the tree
//! of losers that the proved merge has, or `heap`, for the heap of std. It prints the same sums, and on standard error
//! the nanoseconds that the merge took. It is the yardstick of `bench/merge`, and ends at the first fault.

mod random;

use random::Random;
use std::cmp::Reverse;
use std::collections::BinaryHeap;
use std::collections::binary_heap::PeekMut;
use std::env;
use std::io::{Error, ErrorKind};
use std::time::Instant;

const FARTHEST: u64 = 320;

#[derive(Clone, Copy)]
struct Piece {
    tail: u64,
    count: u64,
}

/// Why a stream gives no piece. The streams here always do.
#[allow(dead_code)]
#[derive(Debug)]
enum PieceFault {
    Failed,
    Malformed { at: u64 },
}

/// A stream of pieces in ascending tails.
trait Pieces {
    fn next(&mut self) -> Result<Option<Piece>, PieceFault>;
}

/// Pieces in memory, of which so many were given.
struct Sorted {
    pieces: Vec<Piece>,
    given: usize,
}

impl Pieces for Sorted {
    fn next(&mut self) -> Result<Option<Piece>, PieceFault> {
        let piece = self.pieces.get(self.given).copied();
        self.given += usize::from(piece.is_some());
        Ok(piece)
    }
}

/// The pieces of some streams in ascending tails, one by one, each with its stream's number.
trait Order {
    fn step(&mut self) -> Result<Option<(usize, Piece)>, PieceFault>;
}

/// The tail and the count that an answer is put down as: an ended stream has the greatest tail, and the count 0.
fn entry_of(next: Option<Piece>) -> (u64, u64) {
    next.map_or((u64::MAX, 0), |piece| (piece.tail, piece.count))
}

/// A tree of losers: the winner of places 2j and 2j + 1 is that of place j, where the other one's number stands.
struct Tree {
    tails: Vec<u64>,
    losers: Vec<usize>,
    first: usize,
}

impl Tree {
    fn new(mut tails: Vec<u64>) -> Self {
        let leaves = tails.len().next_power_of_two();
        tails.resize(leaves, u64::MAX);
        let mut winners: Vec<usize> = (0..2 * leaves).map(|place| place.saturating_sub(leaves)).collect();
        let mut losers = vec![0; leaves];
        for place in (1..leaves).rev() {
            let (one, other) = (winners[2 * place], winners[2 * place + 1]);
            let is_other = tails[other] < tails[one];
            (winners[place], losers[place]) = if is_other { (other, one) } else { (one, other) };
        }
        Tree { first: winners[1], tails, losers }
    }

    /// Gives the first stream another tail. Which of two is less can't be guessed, so no branch is on it.
    fn replace(&mut self, tail: u64) {
        self.tails[self.first] = tail;
        let (mut winner, mut least) = (self.first, tail);
        let mut place = (self.tails.len() + winner) / 2;
        while place > 0 {
            let rival = self.losers[place];
            let rivals = self.tails[rival];
            let is_less = rivals < least;
            let streams = (winner ^ rival) & usize::from(is_less).wrapping_neg();
            self.losers[place] = rival ^ streams;
            winner ^= streams;
            least ^= (least ^ rivals) & u64::from(is_less).wrapping_neg();
            place /= 2;
        }
        self.first = winner;
    }
}

/// An order by a tree, with the counts beside it.
struct TreeOrder<P> {
    streams: Vec<P>,
    counts: Vec<u64>,
    tree: Tree,
}

impl<P: Pieces> TreeOrder<P> {
    fn new(mut streams: Vec<P>) -> Result<Self, PieceFault> {
        let mut tails = Vec::with_capacity(streams.len());
        let mut counts = Vec::with_capacity(streams.len());
        for stream in &mut streams {
            let (tail, count) = entry_of(stream.next()?);
            tails.push(tail);
            counts.push(count);
        }
        Ok(TreeOrder { streams, counts, tree: Tree::new(tails) })
    }

    /// The stream in front: where its tail is the greatest one, any that hasn't ended.
    fn front(&self) -> Option<usize> {
        let first = self.tree.first;
        if self.counts.get(first).is_some_and(|&count| count > 0) {
            return Some(first);
        }
        self.left()
    }

    #[cold]
    fn left(&self) -> Option<usize> {
        self.counts.iter().position(|&count| count > 0)
    }
}

impl<P: Pieces> Order for TreeOrder<P> {
    fn step(&mut self) -> Result<Option<(usize, Piece)>, PieceFault> {
        let Some(stream) = self.front() else {
            return Ok(None);
        };
        let piece = Piece { tail: self.tree.tails[stream], count: self.counts[stream] };
        let (tail, count) = entry_of(self.streams[stream].next()?);
        self.counts[stream] = count;
        self.tree.replace(tail);
        Ok(Some((stream, piece)))
    }
}

/// An order by a heap of the tails that were read ahead.
struct HeapOrder<P> {
    streams: Vec<P>,
    counts: Vec<u64>,
    heads: BinaryHeap<Reverse<(u64, usize)>>,
}

impl<P: Pieces> HeapOrder<P> {
    fn new(mut streams: Vec<P>) -> Result<Self, PieceFault> {
        let mut heads = BinaryHeap::with_capacity(streams.len());
        let mut counts = vec![0; streams.len()];
        for (number, stream) in streams.iter_mut().enumerate() {
            if let Some(piece) = stream.next()? {
                counts[number] = piece.count;
                heads.push(Reverse((piece.tail, number)));
            }
        }
        Ok(HeapOrder { streams, counts, heads })
    }
}

impl<P: Pieces> Order for HeapOrder<P> {
    fn step(&mut self) -> Result<Option<(usize, Piece)>, PieceFault> {
        let Some(mut head) = self.heads.peek_mut() else {
            return Ok(None);
        };
        let Reverse((tail, stream)) = *head;
        let piece = Piece { tail, count: self.counts[stream] };
        match self.streams[stream].next()? {
            Some(next) => {
                self.counts[stream] = next.count;
                *head = Reverse((next.tail, stream));
            }
            None => {
                PeekMut::pop(head);
            }
        }
        Ok(Some((stream, piece)))
    }
}

/// The pieces of the last tail, added up.
struct Sum {
    last: Option<Piece>,
}

impl Sum {
    /// Adds a piece to the sum of its tail, or begins with it, and then answers the sum before.
    fn add(&mut self, piece: Piece) -> Option<Piece> {
        match &mut self.last {
            Some(last) if last.tail == piece.tail => {
                last.count += piece.count;
                None
            }
            last => last.replace(piece),
        }
    }
}

/// What came of a merge: the totals, in their order, and the pieces with their streams, where equal tails may come in
/// any order.
#[derive(Default)]
struct Checksum {
    totals: u64,
    pieces: u64,
}

impl Checksum {
    fn total(&mut self, total: Piece) {
        self.totals = self.totals.rotate_left(1) ^ total.tail ^ total.count.rotate_left(32);
    }

    fn piece(&mut self, stream: usize, piece: Piece) {
        let number = stream as u64 + 1;
        self.pieces = self.pieces.wrapping_add((piece.tail ^ piece.count).wrapping_mul(number));
    }
}

fn sum_up(mut order: impl Order) -> Result<Checksum, PieceFault> {
    let mut checksum = Checksum::default();
    let mut sum = Sum { last: None };
    while let Some((stream, piece)) = order.step()? {
        checksum.piece(stream, piece);
        if let Some(total) = sum.add(piece) {
            checksum.total(total);
        }
    }
    if let Some(total) = sum.last {
        checksum.total(total);
    }
    Ok(checksum)
}

/// Pieces that follow from a seed.
fn drawn(random: &mut Random, len: u64) -> Sorted {
    let mut least = 0;
    let mut piece = |_| {
        let drawn = random.next();
        let tail = least + drawn % FARTHEST;
        least = tail + 1;
        Piece { tail, count: (drawn >> 60) + 1 }
    };
    Sorted { pieces: (0..len).map(&mut piece).collect(), given: 0 }
}

fn main() -> Result<(), Error> {
    let wrong = || Error::new(ErrorKind::InvalidInput, "the words are KIND STREAMS PIECES SEED");
    let words: Vec<String> = env::args().skip(1).collect();
    let [kind, streams, pieces, seed] = words.as_slice() else {
        return Err(wrong());
    };
    let number = |word: &String| word.parse::<u64>().map_err(|_| wrong());
    let mut random = Random(number(seed)?);
    let len = number(pieces)?;
    let streams: Vec<Sorted> = (0..number(streams)?).map(|_| drawn(&mut random, len)).collect();
    let start = Instant::now();
    let merged = match kind.as_str() {
        "tree" => TreeOrder::new(streams).and_then(sum_up),
        "heap" => HeapOrder::new(streams).and_then(sum_up),
        _ => return Err(wrong()),
    };
    let time = start.elapsed();
    let Checksum { totals, pieces } = merged.map_err(|fault| Error::other(format!("{fault:?}")))?;
    println!("{totals} {pieces}");
    eprintln!("{}", time.as_nanos());
    Ok(())
}
