//! Signatures of rows: where each stands among marks of the chains.

use super::chains::{in_chain, score, Chain};
use crate::table::Row;
use crate::term::{BETTER, SAME, WORSE};
use std::cmp::Ordering;

/// A bit for each mark: whether the row is no better than it.
pub type Signature = u64;

/// How many marks all chains have together, and one of them at most.
const BITS: usize = 64;
const BITS_OF_A_CHAIN: usize = 32;

/// Whether a row of the first signature may dominate, or be the same as, one of the second.
#[inline(always)]
pub fn may_dominate(a: Signature, b: Signature) -> bool {
    a & !b == 0
}

/// The marks of a chain, the best first.
struct Marks {
    first_scores: Vec<u64>,
    /// The marks themselves, where a chain has more scores than the first.
    rows: Vec<Row>,
}

impl Marks {
    /// Marks that part the sample into equal shares.
    fn of(chain: &Chain, count: usize, sample: &mut [&Row]) -> Marks {
        sample.sort_unstable_by(|a, b| match in_chain(chain, a, b) {
            BETTER => Ordering::Less,
            WORSE => Ordering::Greater,
            _ => Ordering::Equal,
        });
        let mut rows: Vec<Row> = (1..=count).map(|j| *sample[j * sample.len() / (count + 1)]).collect();
        rows.dedup_by(|b, a| in_chain(chain, a, b) == SAME);
        let first_scores = rows.iter().map(|row| score(&chain[0], row)).collect();
        Marks { first_scores, rows: if chain.len() > 1 { rows } else { Vec::new() } }
    }

    /// How many of them a row is no better than.
    #[inline(always)]
    fn count(&self, chain: &Chain, row: &Row) -> usize {
        if self.rows.is_empty() {
            let score = score(&chain[0], row);
            self.first_scores.partition_point(|mark| *mark <= score)
        } else {
            self.rows.partition_point(|mark| in_chain(chain, mark, row) != WORSE)
        }
    }
}

/// The marks of all chains. Any are right; before a sample is there, there are none.
#[derive(Default)]
pub struct AllMarks {
    of_chains: Vec<Marks>,
}

impl AllMarks {
    /// Chains in which the sample sees no difference share no bits.
    pub fn of(chains: &[Chain], mut sample: Vec<&Row>) -> AllMarks {
        let first = sample[0];
        let varied = chains.iter().filter(|chain| sample.iter().any(|row| in_chain(chain, first, row) != SAME)).count();
        let each = (BITS / varied.max(1)).clamp(1, BITS_OF_A_CHAIN);
        AllMarks { of_chains: chains.iter().take(BITS).map(|chain| Marks::of(chain, each, &mut sample)).collect() }
    }

    /// The signature of a row.
    pub fn sign(&self, chains: &[Chain], row: &Row) -> Signature {
        let (mut bits, mut shift) = (0, 0);
        for (chain, marks) in chains.iter().zip(&self.of_chains) {
            bits |= ((1u64 << marks.count(chain, row)) - 1) << shift;
            shift += marks.first_scores.len();
        }
        bits
    }
}
