//! What leads a sweep.

use super::chains::{in_chain, Chain};
use super::question::{Held, Question, MOST};
use super::signatures::{AllMarks, Signature};
use crate::table::Row;
use crate::term::{Relation, SAME};

/// How many rows marks are taken from at most, and how many there have to be.
const SAMPLE: usize = 128;
const FEWEST: usize = 16;

/// The chains that lead a sweep, and the marks by which rows are signed that are the same in all of them.
pub struct Lead<'a> {
    pub chains: Vec<&'a Chain>,
    signed: &'a [Chain],
    marks: AllMarks,
}

fn tells_apart(chain: &Chain, rows: &[Held]) -> bool {
    rows.windows(2).any(|two| in_chain(chain, &two[0].row, &two[1].row) != SAME)
}

fn marks_of(chains: &[Chain], rows: &[Held]) -> AllMarks {
    if chains.is_empty() || rows.len() < FEWEST {
        return AllMarks::default();
    }
    AllMarks::of(chains, rows.iter().step_by(rows.len() / SAMPLE + 1).map(|held| &held.row).collect())
}

impl<'a> Lead<'a> {
    /// Where more than three lead the question, those of them that tell these rows apart; none where these are more too.
    pub fn of(question: &'a Question, rows: &[Held]) -> Lead<'a> {
        let mut chains: Vec<&Chain> = question.leading.iter().collect();
        if chains.len() > MOST {
            chains.retain(|chain| tells_apart(chain, rows));
        }
        if chains.len() > MOST {
            chains.clear();
        }
        let signed = if chains.is_empty() { &question.product[..] } else { &question.behind[..] };
        let marks = marks_of(signed, rows);
        Lead { chains, signed, marks }
    }

    /// How two rows of a group stand in the n-th chain from 0 on; the same where there is none.
    #[inline(always)]
    pub fn relation(&self, n: usize, a: &Row, b: &Row) -> Relation {
        self.chains.get(n).map_or(SAME, |chain| in_chain(chain, a, b))
    }

    pub fn is_same(&self, a: &Row, b: &Row) -> bool {
        self.chains.iter().all(|chain| in_chain(chain, a, b) == SAME)
    }

    #[inline(always)]
    pub fn sign(&self, row: &Row) -> Signature {
        self.marks.sign(self.signed, row)
    }

    /// The marks, where no chain leads.
    pub fn into_marks(self) -> Option<AllMarks> {
        self.chains.is_empty().then_some(self.marks)
    }
}
