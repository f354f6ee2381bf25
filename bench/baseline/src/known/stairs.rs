//! Levels of points of three keys, by one sweep over staircases.

use super::points::Points;
use super::NO_LEVEL;
use crate::whole::{Fronts, Want};
use std::collections::BTreeMap;

/// The level of each point.
pub fn levels(points: &Points, want: Want) -> Vec<u32> {
    let mut fronts = Fronts::new(want);
    let mut stairs: Vec<Stairs> = Vec::new();
    let mut levels = vec![NO_LEVEL; points.count()];
    for (point, found) in levels.iter_mut().enumerate() {
        let [_, second, third] = *points.at(point as u32) else { unreachable!("three keys") };
        let level = fronts.place(stairs.len() as u32, |l| stairs[l as usize].is_over(second, third));
        if level >= fronts.cut {
            continue;
        }
        if level as usize == stairs.len() {
            stairs.push(Stairs::default());
        }
        stairs[level as usize].put(second, third);
        fronts.count(level);
        *found = level;
    }
    levels
}

/// Of the points of a level so far, those that are the best in the second and the third key: the third by the second, the one falls as
/// the other rises. All are no worse in the first key than what comes.
#[derive(Default)]
struct Stairs {
    steps: BTreeMap<u64, u64>,
}

impl Stairs {
    /// Whether a point of the level dominates one: of those no worse in the second key, the last step has the least third.
    #[inline(always)]
    fn is_over(&self, second: u64, third: u64) -> bool {
        self.steps.range(..=second).next_back().is_some_and(|(_, &held)| held <= third)
    }

    /// Puts a point that no step is over, in place of the steps that it's over.
    fn put(&mut self, second: u64, third: u64) {
        while let Some((&key, &held)) = self.steps.range(second..).next() {
            if held < third {
                break;
            }
            self.steps.remove(&key);
        }
        self.steps.insert(second, third);
    }
}
