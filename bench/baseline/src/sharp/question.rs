//! A question: the order in which its rows are kept, and what leads this order.

use super::chains::{in_chain, score, Chain, Chains};
use crate::table::Row;
use crate::term::{Ask, Leaf, Relation, Score, Term, BETTER, NEITHER, SAME};
use std::cmp::Ordering;

/// How many chains lead a sweep at most.
pub const MOST: usize = 3;

/// A row, with its id and its level, from 0 on.
#[derive(Clone, Copy)]
pub struct Held {
    pub id: u64,
    pub row: Row,
    pub level: u32,
}

/// The level of a row that came since the last sweep.
pub const NEW: u32 = u32::MAX;
/// That of one that came since, and that no row of the last level dominates.
pub const CLEAR: u32 = u32::MAX - 1;

pub struct Question {
    pub ask: Ask,
    /// How many levels are wanted.
    pub depth: usize,
    /// The columns of the group and all base scores from left to right, without repeats.
    keys: Vec<Leaf>,
    /// The chains whose product decides wherever it sees a difference.
    pub leading: Vec<Chain>,
    /// Chains of what decides between rows that are the same in these.
    pub behind: Vec<Chain>,
    /// Chains of the whole term.
    pub product: Vec<Chain>,
    /// Whether rows are compared by the chains: where these say all, and the term is no plain product.
    by_chains: bool,
}

/// Puts all base scores of a term, or of its converse, behind these, without repeats.
fn push_all(term: &Term, reversed: bool, keys: &mut Vec<Leaf>) {
    match term {
        Term::Reverse(p) => push_all(p, !reversed, keys),
        Term::Pareto(p, q) | Term::Prior(p, q) => {
            push_all(p, reversed, keys);
            push_all(q, reversed, keys);
        }
        base => {
            let leaf = Leaf::of(base, reversed);
            if !keys.iter().any(|l| l.col == leaf.col && l.score == leaf.score) {
                keys.push(leaf);
            }
        }
    }
}

/// The chains that lead a term, and those of what decides behind them.
fn leading(term: &Term, reversed: bool) -> (Vec<Chain>, Vec<Chain>) {
    let chains = Chains::of(term, reversed);
    if chains.whole {
        return (chains.product, Vec::new());
    }
    match term {
        Term::Reverse(p) => leading(p, !reversed),
        Term::Prior(p, q) => {
            let first = Chains::of(p, reversed);
            if first.whole && first.tie.is_empty() {
                (first.product, Chains::of(q, reversed).product)
            } else {
                (Vec::new(), Vec::new())
            }
        }
        _ => (Vec::new(), Vec::new()),
    }
}

impl Question {
    pub fn new(ask: &Ask) -> Question {
        let column = |&col: &usize| Leaf { col, score: Score::Value, reversed: false };
        let mut keys: Vec<Leaf> = ask.group.iter().map(column).collect();
        push_all(&ask.term, false, &mut keys);
        let (leading, behind) = leading(&ask.term, false);
        let chains = Chains::of(&ask.term, false);
        let by_chains = chains.whole && chains.tie.is_empty() && !ask.is_flat();
        Question { ask: ask.clone(), depth: ask.cut() as usize, keys, leading, behind, product: chains.product, by_chains }
    }

    /// By the first key in which two rows differ.
    #[inline(always)]
    pub fn compare_rows(&self, a: &Row, b: &Row) -> Ordering {
        for key in &self.keys {
            let (x, y) = (score(key, a), score(key, b));
            if x != y {
                return if x < y { Ordering::Less } else { Ordering::Greater };
            }
        }
        Ordering::Equal
    }

    #[inline(always)]
    pub fn compare(&self, a: &Held, b: &Held) -> Ordering {
        self.compare_rows(&a.row, &b.row).then_with(|| a.id.cmp(&b.id))
    }

    /// By the first column of the group in which two rows differ.
    pub fn compare_groups(&self, a: &Row, b: &Row) -> Ordering {
        self.ask.group.iter().map(|&c| a[c].cmp(&b[c])).find(|order| order.is_ne()).unwrap_or(Ordering::Equal)
    }

    #[inline(always)]
    pub fn in_same_group(&self, a: &Row, b: &Row) -> bool {
        self.ask.group.iter().all(|&c| a[c] == b[c])
    }

    #[inline(always)]
    fn relation(&self, a: &Row, b: &Row) -> Relation {
        if !self.by_chains {
            return self.ask.ungrouped(a, b);
        }
        let mut relation = SAME;
        for chain in &self.product {
            relation |= in_chain(chain, a, b);
            if relation == NEITHER {
                break;
            }
        }
        relation
    }

    /// Whether a dominates b.
    #[inline(always)]
    pub fn is_over(&self, a: &Row, b: &Row) -> bool {
        self.in_same_group(a, b) && self.relation(a, b) == BETTER
    }

    /// Puts rows in order, by their first keys as far as these decide.
    pub fn sort(&self, rows: &mut Vec<Held>) {
        let first = &self.keys[0];
        let mut keyed: Vec<(u64, usize)> = rows.iter().enumerate().map(|(i, held)| (score(first, &held.row), i)).collect();
        keyed.sort_unstable_by(|&(x, i), &(y, j)| x.cmp(&y).then_with(|| self.compare(&rows[i], &rows[j])));
        *rows = keyed.iter().map(|&(_, i)| rows[i]).collect();
    }
}
