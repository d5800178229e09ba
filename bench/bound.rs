//! How often level 0's bound spares a look into its tables. Of the items of a trace, in one cone, whose key doesn't weigh as
//! much as the threshold yet, it prints which share has a place whose two bytes let it weigh that in level 0: where the
//! bytes count weights, and where they count units of ceil(THRESHOLD / 255), as the program's do. What it shows is the
//! place's arithmetic, and no part of the program.
//!
//! Words: THRESHOLD BASE BINS. The trace comes from standard input.

mod item;
mod mixer;

use item::{Item, KEY_LEN, WEIGHED_LEN, version_of};
use mixer::mix;
use std::collections::HashMap;
use std::env;
use std::io::{self, Error, ErrorKind, Read};

const MOST: u64 = 255;

/// Two bytes a place, of the generation before and of the present one, each of which ends at 255.
struct Bound {
    unit: u64,
    needed: u64,
    places: Vec<[u64; 2]>,
    passed: u64,
}

impl Bound {
    fn of(unit: u64, threshold: u64, base: u64) -> Bound {
        let places = vec![[0; 2]; (4 * base).next_power_of_two() as usize];
        Bound { unit, needed: threshold.div_ceil(unit).min(MOST), places, passed: 0 }
    }

    /// Takes an item, and counts it where it is looked at and may reach the threshold.
    fn take(&mut self, mixed: u64, weight: u64, is_looked_at: bool) {
        let place = mixed as usize % self.places.len();
        let [before, present] = &mut self.places[place];
        *present = (*present + weight.div_ceil(self.unit)).min(MOST);
        self.passed += u64::from(is_looked_at && *before + *present >= self.needed);
    }

    fn turn(&mut self) {
        for pair in &mut self.places {
            *pair = [pair[1], 0];
        }
    }
}

/// Which bins of level 0 the bound's generation before has, as bins are dropped at the flushes.
struct Age {
    base: u64,
    bins: u64,
    earlier: u64,
}

impl Age {
    /// Behind this position; whether the bound turns.
    fn turns_at(&mut self, position: u64) -> bool {
        if position < self.bins * self.base || position % self.base != 0 {
            return false;
        }
        let turns = self.earlier <= 1;
        self.earlier = if turns { self.bins - 1 } else { self.earlier - 1 };
        turns
    }
}

fn items(trace: &[u8]) -> io::Result<Vec<Item>> {
    let bad = || Error::new(ErrorKind::InvalidData, "the input is no trace");
    let head = trace.get(..KEY_LEN).ok_or_else(bad)?;
    let len = if version_of(b"LERT", head).ok_or_else(bad)? == 1 { KEY_LEN } else { WEIGHED_LEN };
    Ok(trace[KEY_LEN..].chunks_exact(len).map(Item::of).collect())
}

fn main() -> io::Result<()> {
    let words: Vec<u64> = env::args().skip(1).filter_map(|word| word.parse().ok()).collect();
    let [threshold @ 1..=u64::MAX, base @ 1..=u64::MAX, bins @ 2..=u64::MAX] = words[..] else {
        return Err(Error::new(ErrorKind::InvalidInput, "the words are THRESHOLD BASE BINS"));
    };
    let mut trace = Vec::new();
    io::stdin().lock().read_to_end(&mut trace)?;
    let mut bounds = [1, threshold.div_ceil(MOST)].map(|unit| Bound::of(unit, threshold, base));
    let mut age = Age { base, bins, earlier: 0 };
    let mut weights: HashMap<u64, u64> = HashMap::new();
    let mut looked_at = 0u64;
    for (position, item) in (1..).zip(items(&trace)?) {
        let (mixed, weight) = (mix(item.key), u64::from(item.weight));
        let so_far = weights.entry(item.key).or_default();
        let is_looked_at = *so_far < threshold;
        *so_far += weight;
        looked_at += u64::from(is_looked_at);
        let turns = age.turns_at(position);
        for bound in &mut bounds {
            bound.take(mixed, weight, is_looked_at);
            if turns {
                bound.turn();
            }
        }
    }
    let share = |bound: &Bound| 100.0 * bound.passed as f64 / looked_at.max(1) as f64;
    println!("{looked_at} items looked at, counted by weights {:.2}%, by units {:.2}%", share(&bounds[0]), share(&bounds[1]));
    Ok(())
}
