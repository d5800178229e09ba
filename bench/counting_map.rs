//! The loops of `crates/lert_bench` over a plain map in place of a filter. Words: WORKLOAD KEYS EVENTS
//! SEED, as there behind `filter`. It prints the same sum, and on standard error the nanoseconds that the loop took. It
//! is the yardstick of `bench/filter`, and ends at the first fault.

use std::env;
use std::io::{Error, ErrorKind};
use std::time::Instant;

const SPREAD: u64 = 0x9e37_79b9_7f4a_7c15;
const MOST_BITS: u64 = 24;
const TURN: usize = 1024;
const BINS: usize = 4;

/// How often each tail was added, with open addressing: the places behind the first one are tried in
/// turn. It has a power of two of places, and as many events at most as half of them.
#[derive(Clone)]
struct CountingMap {
    places: Vec<(u64, u64)>,
    shift: u32,
    events: usize,
}

impl CountingMap {
    fn with_room(events: usize) -> CountingMap {
        let len = (2 * events).next_power_of_two();
        CountingMap { places: vec![(0, 0); len], shift: 64 - len.trailing_zeros(), events: 0 }
    }

    /// The place of the tail, or the free one where it belongs.
    fn place(&self, tail: u64) -> usize {
        let mask = self.places.len() - 1;
        let mut at = (tail.wrapping_mul(SPREAD) >> self.shift) as usize;
        while self.places[at].1 != 0 && self.places[at].0 != tail {
            at = (at + 1) & mask;
        }
        at
    }

    fn is_full(&self) -> bool {
        self.events == self.places.len() / 2
    }

    fn add(&mut self, tail: u64) {
        let at = self.place(tail);
        self.places[at].0 = tail;
        self.places[at].1 += 1;
        self.events += 1;
    }

    fn count(&self, tail: u64) -> u64 {
        self.places[self.place(tail)].1
    }

    fn clear(&mut self) {
        self.places.fill((0, 0));
        self.events = 0;
    }
}

/// Four maps, of which the newest takes the events. Once it is full, the oldest is cleared and is the
/// newest from then on.
struct Window {
    bins: Vec<CountingMap>,
    newest: usize,
}

impl Window {
    fn new(room: usize) -> Window {
        Window { bins: vec![CountingMap::with_room(room); BINS], newest: 0 }
    }

    fn take(&mut self, tail: u64) -> u64 {
        if self.bins[self.newest].is_full() {
            self.newest = (self.newest + 1) % BINS;
            self.bins[self.newest].clear();
        }
        self.bins[self.newest].add(tail);
        self.bins.iter().map(|bin| bin.count(tail)).sum()
    }
}

fn run_windows(cones: usize, tails: &[u64]) -> (u64, u128) {
    let mut windows: Vec<Window> = (0..cones).map(|_| Window::new(4096)).collect();
    let start = Instant::now();
    let mut sum = 0u64;
    for (turn, tails) in tails.chunks(TURN).enumerate() {
        let window = &mut windows[turn % cones];
        for &tail in tails {
            sum = sum.wrapping_add(window.take(tail));
        }
    }
    (sum, start.elapsed().as_nanos())
}

fn run_counts(flip: u64, tails: &[u64]) -> (u64, u128) {
    let mut map = CountingMap::with_room(1 << 20);
    for &tail in tails {
        map.add(tail);
    }
    let start = Instant::now();
    let sum = tails.iter().fold(0u64, |sum, tail| sum.wrapping_add(map.count(tail ^ flip)));
    (sum, start.elapsed().as_nanos())
}

fn mix(key: u64) -> u64 {
    let key = (key ^ (key >> 33)).wrapping_mul(0xff51_afd7_ed55_8ccd);
    let key = (key ^ (key >> 33)).wrapping_mul(0xc4ce_b9fe_1a85_ec53);
    key ^ (key >> 33)
}

/// Numbers that follow from a seed, as splitmix64 makes them.
struct Random(u64);

impl Random {
    fn next(&mut self) -> u64 {
        self.0 = self.0.wrapping_add(SPREAD);
        let mut mixed = self.0;
        mixed = (mixed ^ (mixed >> 30)).wrapping_mul(0xbf58_476d_1ce4_e5b9);
        mixed = (mixed ^ (mixed >> 27)).wrapping_mul(0x94d0_49bb_1331_11eb);
        mixed ^ (mixed >> 31)
    }

    fn skewed(&mut self) -> u64 {
        let highest = 1u64 << (self.next() % MOST_BITS);
        highest | (self.next() & (highest - 1))
    }
}

fn tails(is_skewed: bool, events: u64, seed: u64, mask: u64) -> Vec<u64> {
    let mut random = Random(seed);
    let key = |event| if is_skewed { random.skewed() } else { seed.wrapping_add(event) };
    (0..events).map(key).map(|key| mix(key) & mask).collect()
}

fn main() -> Result<(), Error> {
    let wrong = || Error::new(ErrorKind::InvalidInput, "the words are WORKLOAD KEYS EVENTS SEED");
    let words: Vec<String> = env::args().skip(1).collect();
    let [workload, keys, events, seed] = words.as_slice() else {
        return Err(wrong());
    };
    let number = |word: &String| word.parse::<u64>().map_err(|_| wrong());
    let is_skewed = match keys.as_str() {
        "distinct" => false,
        "skewed" => true,
        _ => return Err(wrong()),
    };
    let mask = if workload == "sixteen" { u64::MAX >> 4 } else { u64::MAX };
    let tails = tails(is_skewed, number(events)?, number(seed)?, mask);
    let (sum, nanoseconds) = match workload.as_str() {
        "one" => run_windows(1, &tails),
        "sixteen" => run_windows(16, &tails),
        "hits" => run_counts(0, &tails),
        "misses" => run_counts(u64::MAX, &tails),
        _ => return Err(wrong()),
    };
    println!("{sum}");
    eprintln!("{nanoseconds}");
    Ok(())
}
