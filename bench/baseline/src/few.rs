//! A filter before all else where only the best rows are wanted.

use crate::core::Version;
use crate::table::{Row, WIDTH};

/// How many good rows are kept.
const FEW: usize = 8;

struct Good {
    scores: [u64; WIDTH],
    sum: f64,
}

/// The visible slots that no row of a small choice of good rows, kept on the way, is over: one pass
/// over the slots. `score` puts the scores of a row in a product, of which there are so many; less is better.
pub fn not_beaten_by_few(slots: &[Version], stamp: u64, count: usize, score: impl Fn(&Row, &mut [u64])) -> Vec<u32> {
    let mut few: Vec<Good> = Vec::new();
    let mut left = Vec::new();
    let mut scores = [0u64; WIDTH];
    for (i, version) in slots.iter().enumerate() {
        if !version.visible(stamp) {
            continue;
        }
        score(&version.row, &mut scores[..count]);
        let row = &scores[..count];
        if let Some(place) = few.iter().position(|good| is_over(&good.scores[..count], row)) {
            few.swap(0, place);
            continue;
        }
        left.push(i as u32);
        offer(&mut few, Good { scores, sum: row.iter().map(|&s| s as f64).sum() });
    }
    left
}

/// Whether a row is better than another, by their scores.
fn is_over(a: &[u64], b: &[u64]) -> bool {
    let mut is_better = false;
    for (x, y) in a.iter().zip(b) {
        if x > y {
            return false;
        }
        is_better |= x < y;
    }
    is_better
}

/// Takes a row into the choice where it's small, or in place of the one with the largest sum.
fn offer(few: &mut Vec<Good>, good: Good) {
    if few.len() < FEW {
        few.push(good);
        return;
    }
    let most = (0..FEW).max_by(|&a, &b| few[a].sum.total_cmp(&few[b].sum)).unwrap();
    if good.sum < few[most].sum {
        few[most] = good;
    }
}
