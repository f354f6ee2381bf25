//! Levels of points of any number of keys, by divide and conquer.
//!
//! Points are told by their numbers, lists of them are in order, and points of no wanted level are left out of lists as soon as that is known.

use super::points::Points;

/// How many points, or pairs of points, are compared one by one.
const FEW_POINTS: usize = 24;
const FEW_PAIRS: usize = 400;

struct Divide<'a> {
    points: &'a Points,
    /// How many levels are wanted.
    cut: u32,
    /// The level of each point as far as it's known: it is no less.
    levels: Vec<u32>,
}

/// The level of each point, the cut or more where it's of no wanted level.
pub fn levels(points: &Points, cut: u32) -> Vec<u32> {
    let all: Vec<u32> = (0..points.count() as u32).collect();
    let mut divide = Divide { points, cut, levels: vec![0; all.len()] };
    divide.find_among(&all, points.width);
    divide.levels
}

/// A list in three parts, by one key.
#[derive(Default)]
struct Parts {
    less: Vec<u32>,
    same: Vec<u32>,
    more: Vec<u32>,
}

impl Divide<'_> {
    /// Finds the levels of points that differ in their first keys, of which there are so many, from what is among them.
    fn find_among(&mut self, list: &[u32], keys: usize) {
        if list.len() <= FEW_POINTS {
            return self.compare_among(list, keys);
        }
        if keys == 2 {
            return self.sweep_among(list);
        }
        let last = keys - 1;
        if list.iter().all(|&point| self.points.key(point, last) == self.points.key(list[0], last)) {
            return self.find_among(list, last);
        }
        let Parts { mut less, mut same, mut more } = self.split(list, last, self.median(list, &[], last));
        self.find_among(&less, keys);
        self.keep_wanted(&mut less);
        self.lower(&less, &same, last);
        self.keep_wanted(&mut same);
        self.find_among(&same, last);
        self.keep_wanted(&mut same);
        self.lower(&merge(&less, &same), &more, last);
        self.keep_wanted(&mut more);
        self.find_among(&more, keys);
    }

    /// Puts each of some points below those others, whose levels are known, that are no worse in each of the first keys, of which there
    /// are so many. A point is no worse in the other keys than one that it's no worse than in these.
    fn lower(&mut self, over: &[u32], under: &[u32], keys: usize) {
        if over.len() * under.len() <= FEW_PAIRS {
            return self.compare_pairs(over, under, keys);
        }
        if keys == 2 {
            return self.sweep_pairs(over, under);
        }
        let last = keys - 1;
        let (least_over, most_over) = self.range(over, last);
        let (least_under, most_under) = self.range(under, last);
        if most_over <= least_under {
            return self.lower(over, under, last);
        }
        if least_over > most_under {
            return;
        }
        let middle = self.median(over, under, last);
        let (over, under) = (self.split(over, last, middle), self.split(under, last, middle));
        self.lower(&over.less, &under.less, keys);
        self.lower(&merge(&over.less, &over.same), &merge(&under.same, &under.more), last);
        self.lower(&over.more, &under.more, keys);
    }

    fn compare_among(&mut self, list: &[u32], keys: usize) {
        for (i, &under) in list.iter().enumerate() {
            self.compare_pairs(&list[..i], &[under], keys);
        }
    }

    fn compare_pairs(&mut self, over: &[u32], under: &[u32], keys: usize) {
        for &low in under {
            let mut level = self.levels[low as usize];
            let cells = &self.points.at(low)[..keys];
            for &high in over {
                let least = self.levels[high as usize] + 1;
                if level < least && is_no_worse(&self.points.at(high)[..keys], cells) {
                    level = least;
                }
            }
            self.levels[low as usize] = level;
        }
    }

    /// As `find_among` does, of two keys.
    fn sweep_among(&mut self, list: &[u32]) {
        let mut outline = Outline::default();
        for &point in list {
            self.put_below(point, &outline);
            self.put(point, &mut outline);
        }
    }

    /// As `lower` does, of two keys.
    fn sweep_pairs(&mut self, over: &[u32], under: &[u32]) {
        let mut outline = Outline::default();
        let mut coming = over.iter().copied().peekable();
        for &point in under {
            while let Some(before) = coming.next_if(|&before| before < point) {
                self.put(before, &mut outline);
            }
            self.put_below(point, &outline);
        }
    }

    fn put_below(&mut self, point: u32, outline: &Outline) {
        let level = &mut self.levels[point as usize];
        *level = (*level).max(outline.level_below(self.points.key(point, 1)));
    }

    fn put(&self, point: u32, outline: &mut Outline) {
        let level = self.levels[point as usize];
        if level < self.cut {
            outline.put(self.points.key(point, 1), level);
        }
    }

    fn is_wanted(&self, point: u32) -> bool {
        self.levels[point as usize] < self.cut
    }

    fn keep_wanted(&self, list: &mut Vec<u32>) {
        list.retain(|&point| self.is_wanted(point));
    }

    fn split(&self, list: &[u32], key: usize, middle: u64) -> Parts {
        let mut parts = Parts::default();
        for &point in list {
            let value = self.points.key(point, key);
            let part = if value < middle { &mut parts.less } else if value == middle { &mut parts.same } else { &mut parts.more };
            part.push(point);
        }
        parts
    }

    /// The middle value of a key in two lists.
    fn median(&self, list: &[u32], more: &[u32], key: usize) -> u64 {
        let mut values: Vec<u64> = list.iter().chain(more).map(|&point| self.points.key(point, key)).collect();
        let middle = values.len() / 2;
        *values.select_nth_unstable(middle).1
    }

    /// The least and the largest value of a key in a list that is not empty.
    fn range(&self, list: &[u32], key: usize) -> (u64, u64) {
        list.iter().map(|&point| self.points.key(point, key)).fold((u64::MAX, 0), |(least, most), value| (least.min(value), most.max(value)))
    }
}

/// Whether all keys of a are no larger than those of b.
#[inline(always)]
fn is_no_worse(a: &[u64], b: &[u64]) -> bool {
    a.iter().zip(b).all(|(x, y)| x <= y)
}

/// Two lists as one in order.
fn merge(a: &[u32], b: &[u32]) -> Vec<u32> {
    let mut merged = Vec::with_capacity(a.len() + b.len());
    let mut coming = b;
    for &point in a {
        let before = coming.iter().take_while(|&&other| other < point).count();
        merged.extend_from_slice(&coming[..before]);
        merged.push(point);
        coming = &coming[before..];
    }
    merged.extend_from_slice(coming);
    merged
}

/// The levels of points so far by their second key: each entry has a larger second key and a higher level than the one before it, and what
/// is no worse than a point in the second key has at most the level of the last entry that is. There are at most a thousand entries, one
/// for each wanted level, so a plain list serves.
#[derive(Default)]
struct Outline {
    entries: Vec<(u64, u32)>,
}

impl Outline {
    /// The level of a point below all points so far that are no worse in the second key.
    fn level_below(&self, second: u64) -> u32 {
        let count = self.entries.partition_point(|&(key, _)| key <= second);
        if count == 0 { 0 } else { self.entries[count - 1].1 + 1 }
    }

    fn put(&mut self, second: u64, level: u32) {
        if level < self.level_below(second) {
            return;
        }
        let from = self.entries.partition_point(|&(key, _)| key < second);
        let covered = self.entries[from..].partition_point(|&(_, held)| held <= level);
        self.entries.splice(from..from + covered, [(second, level)]);
    }
}
