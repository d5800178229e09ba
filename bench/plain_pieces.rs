//! The pieces of a frame, drawn from a seed.

use crate::Piece;
use crate::random::Random;

const FARTHEST: u64 = 35_000_000_000_000;

impl Random {
    /// By how much a count is above 1: by nothing in three of four.
    fn excess(&mut self) -> u64 {
        let drawn = self.next();
        if drawn >> 62 != 0 {
            return 0;
        }
        let bits = drawn.trailing_zeros().min(16);
        (drawn >> 32) & (u64::MAX >> (63 - bits))
    }

    pub fn pieces(&mut self, len: u64, is_skewed: bool, span: u64) -> Vec<Piece> {
        let mut pieces = Vec::with_capacity(len as usize);
        let mut least = 0u64;
        let mut spare = span - len;
        for _ in 0..len {
            let tail = least.saturating_add(self.next() % FARTHEST);
            let Some(above) = tail.checked_add(1) else {
                break;
            };
            let excess = if is_skewed { self.excess().min(spare) } else { 0 };
            pieces.push(Piece { tail, count: 1 + excess });
            spare -= excess;
            least = above;
        }
        pieces
    }
}
