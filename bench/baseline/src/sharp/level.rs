//! What a sweep keeps of one level.

use super::lead::Lead;
use super::question::{Held, Question};
use super::signatures::{may_dominate, Signature};
use crate::table::Row;
use crate::term::{BETTER, WORSE};

/// A row, by its signature and its place.
#[derive(Clone, Copy)]
pub struct Item {
    pub signature: Signature,
    pub place: usize,
}

#[derive(Default)]
pub struct Level {
    /// Places of the rows that are best so far in the second and third chain, in the order of the second.
    steps: Vec<usize>,
    /// Rows that are the same in all leading chains as the last one: those that were of this level at the last sweep ..
    pub old: Vec<Item>,
    /// .. and those that came to it since.
    pub fresh: Vec<Item>,
}

/// Whether one of these dominates a row. The one that does comes sooner the next time.
#[inline(always)]
pub fn is_under(question: &Question, rows: &[Held], items: &mut [Item], row: &Row, signature: Signature) -> bool {
    for i in 0..items.len() {
        let Item { signature: other, place } = items[i];
        if may_dominate(other, signature) && question.is_over(&rows[place].row, row) {
            items.swap(i / 2, i);
            return true;
        }
    }
    false
}

impl Level {
    /// Forgets all rows, at a new group.
    pub fn clear(&mut self) {
        self.steps.clear();
        self.leave_class();
    }

    /// Forgets the rows that are the same in all leading chains.
    pub fn leave_class(&mut self) {
        self.old.clear();
        self.fresh.clear();
    }

    /// Whether a step dominates a row: the last one that is no worse in the second chain stands for all.
    #[inline(always)]
    pub fn has_step_over(&self, question: &Question, lead: &Lead, rows: &[Held], row: &Row) -> bool {
        let count = match self.steps.len() {
            1 => 1,
            _ => self.steps.partition_point(|&step| lead.relation(1, &rows[step].row, row) != WORSE),
        };
        count > 0 && question.is_over(&rows[self.steps[count - 1]].row, row)
    }

    /// Puts a row among the steps, and takes out those that are no better in the second and third chain.
    pub fn put_step(&mut self, lead: &Lead, rows: &[Held], place: usize) {
        if lead.chains.len() < 3 {
            self.steps.clear();
            self.steps.push(place);
            return;
        }
        let row = &rows[place].row;
        let from = self.steps.partition_point(|&step| lead.relation(1, &rows[step].row, row) == BETTER);
        let no_better = |step: &&usize| lead.relation(2, &rows[**step].row, row) != BETTER;
        let to = from + self.steps[from..].iter().take_while(no_better).count();
        if from == to {
            self.steps.insert(from, place);
        } else {
            self.steps[from] = place;
            self.steps.drain(from + 1..to);
        }
    }
}
