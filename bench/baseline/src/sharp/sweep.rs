//! The levels of rows in order, by one sweep.

use super::lead::Lead;
use super::level::{is_under, Item, Level};
use super::question::{Held, Question, CLEAR, NEW};
use super::signatures::Signature;
use crate::table::Row;
use std::cmp::Ordering;

struct Sweep<'a> {
    question: &'a Question,
    lead: &'a Lead<'a>,
    levels: Vec<Level>,
    /// How many levels there are of this group.
    used: usize,
}

/// Finds the level of each row, the depth where it is of no wanted one.
pub fn find_levels(question: &Question, lead: &Lead, rows: &mut [Held]) {
    let mut sweep = Sweep { question, lead, levels: Vec::new(), used: 0 };
    for place in 0..rows.len() {
        let level = sweep.level(rows, place);
        rows[place].level = level as u32;
    }
}

impl Sweep<'_> {
    /// The level of the next row, which is kept in it.
    #[inline(always)]
    fn level(&mut self, rows: &[Held], place: usize) -> usize {
        let row = &rows[place].row;
        if place > 0 {
            let before = &rows[place - 1];
            if self.question.compare_rows(&before.row, row) == Ordering::Equal {
                return before.level as usize;
            }
            self.part(&before.row, row);
        }
        if self.lead.chains.is_empty() { self.level_among_all(rows, place) } else { self.level_by_steps(rows, place) }
    }

    /// Forgets what has nothing to do with a row that is not the same as the one before it.
    #[inline(always)]
    fn part(&mut self, before: &Row, row: &Row) {
        if !self.question.in_same_group(before, row) {
            self.levels[..self.used].iter_mut().for_each(Level::clear);
            self.used = 0;
        } else if !self.question.behind.is_empty() && !self.lead.is_same(before, row) {
            self.levels[..self.used].iter_mut().for_each(Level::leave_class);
        }
    }

    /// The level with this number.
    fn reach(&mut self, level: usize) -> &mut Level {
        while self.used <= level {
            if self.levels.len() == self.used {
                self.levels.push(Level::default());
            }
            self.used += 1;
        }
        &mut self.levels[level]
    }

    /// By halves: where a row of a level dominates another, so does one of each level before.
    #[inline(always)]
    fn level_by_steps(&mut self, rows: &[Held], place: usize) -> usize {
        let Sweep { question, lead, .. } = *self;
        let row = &rows[place].row;
        let with_classes = !question.behind.is_empty();
        let signature = if with_classes { lead.sign(row) } else { 0 };
        let (mut low, mut high) = (0, self.used);
        while low < high {
            let middle = (low + high) / 2;
            let level = &mut self.levels[middle];
            if level.has_step_over(question, lead, rows, row) || with_classes && is_under(question, rows, &mut level.fresh, row, signature) {
                low = middle + 1;
            } else {
                high = middle;
            }
        }
        if low < question.depth {
            let level = self.reach(low);
            level.put_step(lead, rows, place);
            if with_classes {
                level.fresh.push(Item { signature, place });
            }
        }
        low
    }

    /// A row that was there at the last sweep meets only those that came or came down since.
    #[inline(always)]
    fn level_among_all(&mut self, rows: &[Held], place: usize) -> usize {
        let Held { row, level: last, .. } = &rows[place];
        let last = *last;
        let signature = self.lead.sign(row);
        let found = if last >= CLEAR { self.level_of_new(rows, row, last, signature) } else { self.level_from(rows, row, last as usize, signature) };
        if found < self.question.depth {
            let level = self.reach(found);
            let list = if found == last as usize { &mut level.old } else { &mut level.fresh };
            list.push(Item { signature, place });
        }
        found
    }

    /// The first level, from the one of the last sweep on, of which nothing that is new there dominates a row.
    fn level_from(&mut self, rows: &[Held], row: &Row, last: usize, signature: Signature) -> usize {
        let mut level = last;
        while level < self.used && is_under(self.question, rows, &mut self.levels[level].fresh, row, signature) {
            level += 1;
        }
        level
    }

    /// The first level of which nothing dominates a new row, by halves, the last one first.
    fn level_of_new(&mut self, rows: &[Held], row: &Row, last: u32, signature: Signature) -> usize {
        let Sweep { question, .. } = *self;
        let (mut low, mut high) = (0, self.used);
        while low < high {
            let middle = if high == question.depth { high - 1 } else { (low + high) / 2 };
            let level = &mut self.levels[middle];
            let with_old = last == NEW || middle + 1 < question.depth;
            if is_under(question, rows, &mut level.fresh, row, signature) || with_old && is_under(question, rows, &mut level.old, row, signature) {
                low = middle + 1;
            } else {
                high = middle;
            }
        }
        low
    }
}
