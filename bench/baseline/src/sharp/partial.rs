//! The partial result: rows in order with their levels, and those that came since.

use super::filter::{Filter, Met};
use super::lead::Lead;
use super::question::{Held, Question, CLEAR, NEW};
use super::sweep::find_levels;
use crate::core::Version;
use crate::sky::Ranked;
use crate::term::{Ask, Mode};

/// There is a sweep when so many times as many rows came as are held, and so many more.
const GROWTH: usize = 2;
const MANY: usize = 64;

/// A partial result of one question.
pub struct Partial {
    question: Question,
    rows: Vec<Held>,
    recent: Vec<Held>,
    filter: Filter,
}

impl Partial {
    /// That of no row.
    pub fn new(ask: &Ask) -> Partial {
        let question = Question::new(ask);
        let filter = Filter::new(&question);
        Partial { question, rows: Vec::new(), recent: Vec::new(), filter }
    }

    /// Adds the rows of a block.
    pub fn add<'a>(&mut self, _window: usize, block: impl Iterator<Item = &'a Version>) {
        for version in block {
            let level = match self.filter.meet(&self.question, &self.rows, &version.row) {
                Met::Dominated => continue,
                Met::Clear => CLEAR,
                Met::Open => NEW,
            };
            self.recent.push(Held { id: version.id, row: version.row, level });
            if self.recent.len() >= GROWTH * self.rows.len() + MANY {
                self.prune();
            }
        }
    }

    /// Puts the recent rows among the others, from the last one on: both lists are in order, and so is the one that they become.
    fn merge(&mut self) {
        let Partial { question, rows, recent, .. } = self;
        question.sort(recent);
        let Some(last) = recent.last() else { return };
        let mut end = rows.len();
        rows.resize(end + recent.len(), *last);
        let mut to = rows.len();
        for held in recent.iter().rev() {
            let from = count_before(question, &rows[..end], held);
            to -= end - from;
            rows.copy_within(from..end, to);
            end = from;
            to -= 1;
            rows[to] = *held;
        }
        recent.clear();
    }

    /// Merges the recent rows with the others, and drops those that are of no wanted level.
    fn prune(&mut self) {
        self.merge();
        let lead = Lead::of(&self.question, &self.rows);
        find_levels(&self.question, &lead, &mut self.rows);
        let depth = self.question.depth as u32;
        self.rows.retain(|held| held.level < depth);
        self.filter.renew(&self.question, lead, &self.rows);
    }

    /// The rows of the answer, by level and then by id.
    pub fn answer(mut self) -> Vec<Ranked> {
        if !self.recent.is_empty() {
            self.prune();
        }
        if let Mode::AtLeast(k) = self.question.ask.mode {
            self.keep_at_least(k as usize);
        }
        self.rows.sort_unstable_by_key(|held| (held.level, held.id));
        self.rows.iter().map(|held| Ranked { level: held.level + 1, id: held.id, row: held.row }).collect()
    }

    /// Keeps of each group the first levels that hold so many rows together.
    fn keep_at_least(&mut self, k: usize) {
        let Partial { question, rows, .. } = self;
        let mut kept = Vec::with_capacity(rows.len());
        for group in rows.chunk_by(|a, b| question.in_same_group(&a.row, &b.row)) {
            let mut counts = vec![0; question.depth];
            group.iter().for_each(|held| counts[held.level as usize] += 1);
            let mut before = 0;
            let levels = counts.iter().take_while(|&&count| {
                let wanted = before < k;
                before += count;
                wanted
            });
            let levels = levels.count() as u32;
            kept.extend(group.iter().filter(|held| held.level < levels));
        }
        *rows = kept;
    }
}

/// How many of these rows come before another: by doubling steps from the last one, and then by halves.
#[inline(always)]
fn count_before(question: &Question, rows: &[Held], held: &Held) -> usize {
    let is_before = |other: &Held| question.compare(other, held).is_lt();
    let (mut low, mut high, mut step) = (0, rows.len(), 1);
    while step <= high {
        if is_before(&rows[high - step]) {
            low = high - step + 1;
            break;
        }
        high -= step;
        step *= 2;
    }
    low + rows[low..high].partition_point(is_before)
}
