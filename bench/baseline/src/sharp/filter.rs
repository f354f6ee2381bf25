//! The rows of the last wanted level: what one of them dominates is of no wanted level, and is dropped as it comes.

use super::lead::Lead;
use super::level::{is_under, Item};
use super::question::{Held, Question};
use super::signatures::AllMarks;
use crate::table::Row;
use std::cmp::Ordering;

/// How many groups are told apart by the hash of their cells, as a power of two.
const SLOTS: u32 = 10;
/// A search is worth while where lately one in so many found something; each so many-th row is searched all the same.
const SHARE: u32 = 8;
const TRIAL: u32 = 16;
/// So few rows are always searched.
const FEW: usize = 64;

/// What became of a row.
#[derive(PartialEq)]
pub enum Met {
    Dominated,
    /// None of the last level dominates it.
    Clear,
    /// It has not met all of the last level.
    Open,
}

pub struct Filter {
    lowest: Vec<Item>,
    /// Where no chain led the last sweep, its marks.
    marks: Option<AllMarks>,
    /// By group: which of the lowest dominated a row last, or was nearest to it. Any number is right.
    lately: Vec<usize>,
    searched: u32,
    found: u32,
    skipped: u32,
}

/// Those of these rows, which are group by group, that are of the group of a row.
fn of_group<'a>(question: &Question, rows: &[Held], items: &'a mut [Item], row: &Row) -> &'a mut [Item] {
    if question.ask.group.is_empty() {
        return items;
    }
    let from = items.partition_point(|item| question.compare_groups(&rows[item.place].row, row).is_lt());
    let count = items[from..].partition_point(|item| question.compare_groups(&rows[item.place].row, row).is_eq());
    &mut items[from..from + count]
}

impl Filter {
    pub fn new(question: &Question) -> Filter {
        let slots = if question.ask.group.is_empty() { 1 } else { 1 << SLOTS };
        Filter { lowest: Vec::new(), marks: None, lately: vec![0; slots], searched: 0, found: 0, skipped: 0 }
    }

    /// That of rows that a sweep has given levels.
    pub fn renew(&mut self, question: &Question, lead: Lead, rows: &[Held]) {
        let signed = lead.chains.is_empty();
        let is_lowest = |held: &Held| held.level as usize + 1 == question.depth;
        let lowest = rows.iter().enumerate().filter(|(_, held)| is_lowest(held));
        self.lowest.clear();
        self.lowest.extend(lowest.map(|(place, held)| Item { signature: if signed { lead.sign(&held.row) } else { 0 }, place }));
        self.marks = lead.into_marks();
    }

    /// Whether to search.
    #[inline(always)]
    fn is_worth_while(&mut self) -> bool {
        if self.searched >= 256 {
            (self.searched, self.found) = (self.searched / 2, self.found / 2);
        }
        if self.searched >= 64 && self.found * SHARE < self.searched {
            self.skipped += 1;
            return self.skipped % TRIAL == 0;
        }
        true
    }

    #[inline(always)]
    fn count(&mut self, dominated: bool) {
        self.searched += 1;
        self.found += u32::from(dominated);
    }

    #[inline(always)]
    fn dominates(&self, question: &Question, rows: &[Held], which: usize, row: &Row) -> bool {
        self.lowest.get(which).is_some_and(|item| question.is_over(&rows[item.place].row, row))
    }

    #[inline(always)]
    pub fn meet(&mut self, question: &Question, rows: &[Held], row: &Row) -> Met {
        let slot = question.ask.group.iter().fold(0, |hash, &c| (hash ^ row[c] as u64).wrapping_mul(0x9E37_79B9_7F4A_7C15));
        let slot = (slot >> (u64::BITS - SLOTS)) as usize;
        let which = self.lately[slot];
        if self.dominates(question, rows, which, row) {
            return Met::Dominated;
        }
        self.search(question, rows, row, slot)
    }

    fn search(&mut self, question: &Question, rows: &[Held], row: &Row, slot: usize) -> Met {
        if self.lowest.is_empty() {
            return Met::Clear;
        }
        if self.lowest.len() > FEW && !self.is_worth_while() {
            return Met::Open;
        }
        if let Some(marks) = &self.marks {
            let signature = marks.sign(&question.product, row);
            let group = of_group(question, rows, &mut self.lowest, row);
            let dominated = is_under(question, rows, group, row, signature);
            self.count(dominated);
            return if dominated { Met::Dominated } else { Met::Clear };
        }
        let near = self.near(question, rows, row, self.lately[slot]);
        let dominated = self.dominates(question, rows, near, row);
        self.count(dominated);
        if dominated || slot > 0 {
            self.lately[slot] = near;
        }
        if dominated { Met::Dominated } else { Met::Open }
    }

    /// The last of the lowest that does not stand behind a row, by doubling steps from one of them.
    fn near(&self, question: &Question, rows: &[Held], row: &Row, from: usize) -> usize {
        let is_before = |item: &Item| question.compare_rows(row, &rows[item.place].row) != Ordering::Less;
        let (mut low, mut high) = (0, self.lowest.len());
        let mut step = 1;
        if from < high && is_before(&self.lowest[from]) {
            low = from + 1;
            while low + step <= high {
                if !is_before(&self.lowest[low + step - 1]) {
                    high = low + step - 1;
                    break;
                }
                low += step;
                step *= 2;
            }
        } else {
            high = high.min(from);
            while step <= high {
                if is_before(&self.lowest[high - step]) {
                    low = high - step + 1;
                    break;
                }
                high -= step;
                step *= 2;
            }
        }
        (low + self.lowest[low..high].partition_point(is_before)).saturating_sub(1)
    }
}
