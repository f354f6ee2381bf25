//! What the ways share that keep all rows until the finish: the rows asked, group by group, and the answer from their levels.

use crate::core::Version;
use crate::sky::Ranked;
use crate::table::WIDTH;
use crate::term::{Ask, Mode};
use std::collections::HashMap;

/// Which levels are still wanted.
#[derive(Clone, Copy)]
pub struct Want {
    pub cut: u32,
    pub rows: u32,
}

impl Want {
    fn of(mode: Mode) -> Want {
        match mode {
            Mode::Best => Want { cut: 1, rows: u32::MAX },
            Mode::TopLevel(k) => Want { cut: k, rows: u32::MAX },
            Mode::AtLeast(k) => Want { cut: k, rows: k },
        }
    }
}

/// A level from 0 on, and the place of its row among those that are asked.
pub type Found = (u32, u32);

/// The slots of all rows that a stamp sees.
pub fn visible_slots(slots: &[Version], stamp: u64) -> Vec<u32> {
    (0..slots.len() as u32).filter(|&i| slots[i as usize].visible(stamp)).collect()
}

/// The answer over the rows in these slots. `levels` puts the wanted levels of the rows of one group, which it's given by place.
pub fn answer(ask: &Ask, slots: &[Version], asked: &[u32], mut levels: impl FnMut(&[u32], Want, &mut Vec<Found>)) -> Vec<Ranked> {
    let want = Want::of(ask.mode);
    let mut found: Vec<Found> = Vec::new();
    for group in &groups(ask, slots, asked) {
        let from = found.len();
        levels(group, want, &mut found);
        keep(&mut found, from, want);
    }
    let version = |place: u32| &slots[asked[place as usize] as usize];
    let mut out: Vec<(u32, u64, u32)> = found.iter().map(|&(level, place)| (level, version(place).id, place)).collect();
    out.sort_unstable();
    out.iter().map(|&(level, id, place)| Ranked { level: level + 1, id, row: version(place).row }).collect()
}

/// The places of the rows of each group.
fn groups(ask: &Ask, slots: &[Version], asked: &[u32]) -> Vec<Vec<u32>> {
    let count = asked.len() as u32;
    if ask.group.is_empty() {
        return vec![(0..count).collect()];
    }
    let mut groups: Vec<Vec<u32>> = Vec::new();
    let mut names: HashMap<[i64; WIDTH], usize> = HashMap::new();
    for place in 0..count {
        let row = &slots[asked[place as usize] as usize].row;
        let mut name = [0; WIDTH];
        ask.group.iter().for_each(|&col| name[col] = row[col]);
        let group = *names.entry(name).or_insert_with(|| {
            groups.push(Vec::new());
            groups.len() - 1
        });
        groups[group].push(place);
    }
    groups
}

/// Drops the levels past the one at which the wanted number of rows is reached.
fn keep(found: &mut Vec<Found>, from: usize, want: Want) {
    if want.rows == u32::MAX {
        return;
    }
    let mut counts = vec![0u32; want.cut as usize];
    for &(level, _) in &found[from..] {
        counts[level as usize] += 1;
    }
    let mut total = 0;
    let cut = counts.iter().position(|&c| {
        total += c;
        total >= want.rows
    });
    if let Some(cut) = cut {
        let mut kept = from;
        for i in from..found.len() {
            if found[i].0 <= cut as u32 {
                found[kept] = found[i];
                kept += 1;
            }
        }
        found.truncate(kept);
    }
}

/// How many levels are still worth placing: each row's level is final when it is placed, so once
/// the first levels hold the wanted number of rows, deeper ones can't be asked for.
pub struct Fronts {
    pub cut: u32,
    rows: u32,
    counts: Vec<u32>,
}

impl Fronts {
    pub fn new(want: Want) -> Fronts {
        Fronts { cut: want.cut, rows: want.rows, counts: Vec::new() }
    }

    /// The first front that has no row over this one; fronts under which it lies come first.
    pub fn place(&self, fronts: u32, mut over: impl FnMut(u32) -> bool) -> u32 {
        let (mut low, mut high) = (0, fronts.min(self.cut));
        while low < high {
            let middle = (low + high) / 2;
            if over(middle) {
                low = middle + 1;
            } else {
                high = middle;
            }
        }
        low
    }

    pub fn count(&mut self, level: u32) {
        if self.rows == u32::MAX {
            return;
        }
        if self.counts.len() <= level as usize {
            self.counts.resize(level as usize + 1, 0);
        }
        self.counts[level as usize] += 1;
        let mut total = 0;
        for (l, &count) in self.counts.iter().enumerate() {
            total += count;
            if total >= self.rows {
                self.cut = self.cut.min(l as u32 + 1);
                break;
            }
        }
    }
}
