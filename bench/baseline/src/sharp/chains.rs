//! Chains, and what the chains of a term say of it.

use crate::table::Row;
use crate::term::{Leaf, Relation, Score, Term, BETTER, SAME, WORSE};

/// How many base scores a prioritisation may spread over the chains of its second part.
const SPREAD: usize = 64;

/// Base scores of which the first that differs decides.
pub type Chain = Vec<Leaf>;

/// A score as 64 bits without sign: less is better.
#[inline(always)]
pub fn score(leaf: &Leaf, row: &Row) -> u64 {
    let value = row[leaf.col];
    let score = match &leaf.score {
        Score::Value => value as u64 ^ 1 << 63,
        Score::Distance(centre) => value.abs_diff(*centre),
        Score::Member(set) => !set.contains(&value) as u64,
    };
    if leaf.reversed { !score } else { score }
}

/// How row a stands to row b in a chain: better, worse or the same.
#[inline(always)]
pub fn in_chain(chain: &[Leaf], a: &Row, b: &Row) -> Relation {
    for leaf in chain {
        let (x, y) = (score(leaf, a), score(leaf, b));
        if x != y {
            return if x < y { BETTER } else { WORSE };
        }
    }
    SAME
}

/// What chains say of a term.
pub struct Chains {
    /// A better row is no worse in each of these, and better in one ..
    pub product: Vec<Chain>,
    /// .. or the same in each of them, and better in this one.
    pub tie: Chain,
    /// Whether that is all that the term says.
    pub whole: bool,
}

/// `chain & more`: a score that was the same further in front is the same again.
fn append(chain: &mut Chain, more: Chain) {
    for leaf in more {
        if !chain.iter().any(|l| l.col == leaf.col && l.score == leaf.score) {
            chain.push(leaf);
        }
    }
}

impl Chains {
    /// Those of a term, or of its converse where it is reversed.
    pub fn of(term: &Term, reversed: bool) -> Chains {
        match term {
            Term::Reverse(p) => Chains::of(p, !reversed),
            Term::Pareto(p, q) => Chains::of(p, reversed).times(Chains::of(q, reversed)),
            Term::Prior(p, q) => Chains::of(p, reversed).before(Chains::of(q, reversed)),
            base => Chains { product: vec![vec![Leaf::of(base, reversed)]], tie: Chain::new(), whole: true },
        }
    }

    /// `self * more`.
    fn times(mut self, more: Chains) -> Chains {
        self.whole &= more.whole && self.tie.is_empty() && more.tie.is_empty();
        self.tie.clear();
        for chain in more.product {
            if !self.product.contains(&chain) {
                self.product.push(chain);
            }
        }
        self
    }

    /// `self & second`.
    fn before(mut self, mut second: Chains) -> Chains {
        if !self.whole {
            return self;
        }
        if self.product.len() == 1 {
            let front = &self.product[0];
            if second.product.len() == 1 || second.product.len() * front.len() <= SPREAD {
                for chain in &mut second.product {
                    let behind = std::mem::replace(chain, front.clone());
                    append(chain, behind);
                }
                return second;
            }
        }
        self.whole = second.whole && second.product.len() == 1;
        if self.whole {
            append(&mut self.tie, second.product.swap_remove(0));
            append(&mut self.tie, second.tie);
        }
        self
    }
}
