//! The best known algorithms for levels of products of three and more keys, as `prefq_rs --known`: a reference that no body reaches
//! which takes rows block by block. Like `--fast` it keeps all rows until the finish and computes then. A key is one number of a row, and
//! less is better: the score of one base term, or of its converse.
//!
//! 1. **A few good rows** (`few`, as `--fast` does): where only the best are wanted, what one of eight good rows dominates is dropped
//!    before all else. Godfrey, Shipley and Gryz 2005: Maximal vector computation in large data sets.
//! 2. **Points** (`points`): rows are sorted by their keys, so no later one dominates an earlier one, and those that are the same in all
//!    keys are one point. Of more than three keys, those in which all rows are the same are left out.
//! 3. **Three keys: staircases** (`stairs`): a sweep in the order of points. Of each level, those are kept that are the best so far in the
//!    second and third key, in a search tree. Kung, Luccio and Preparata 1975: On finding the maxima of a set of vectors. The level of
//!    a point is found by halves over the levels: Jensen 2003, in two keys; Zhang, Tian, Cheng and Jin 2015, in any number.
//! 4. **Four keys and more: divide and conquer** (`divide`): points are halved by their last key, and what this key decides needs one
//!    key less. Jensen 2003: Reducing the run-time complexity of multiobjective EAs. Right for equal keys too: Fortin, Grenier and
//!    Parizeau 2013: Generalizing the improved run-time complexity algorithm for non-dominated sorting. In three parts, so that many
//!    equal keys cost no more: Buzdalov and Shalyto 2014: A provably asymptotically fast version of the generalized Jensen algorithm.
//!
//! All other questions are answered as by `--fast`.

mod divide;
mod points;
mod stairs;

use crate::core::Version;
use crate::fast;
use crate::few::not_beaten_by_few;
use crate::sharp::score;
use crate::sky::Ranked;
use crate::table::WIDTH;
use crate::term::{Ask, Leaf, Mode};
use crate::whole::{self, visible_slots};
use points::Points;

/// How many keys there are at least.
const FEWEST: usize = 3;

/// The level of what is of no wanted level, where it's known to be of none.
const NO_LEVEL: u32 = u32::MAX;

pub fn answer(ask: &Ask, slots: &[Version], stamp: u64) -> Vec<Ranked> {
    match ask.flat() {
        Some(keys) if (FEWEST..=WIDTH).contains(&keys.len()) => answer_of_product(ask, keys, slots, stamp),
        _ => fast::answer(ask, slots, stamp),
    }
}

fn answer_of_product(ask: &Ask, keys: &[Leaf], slots: &[Version], stamp: u64) -> Vec<Ranked> {
    let asked = asked_slots(ask, keys, slots, stamp);
    whole::answer(ask, slots, &asked, |group, want, found| {
        let rows: Vec<_> = group.iter().map(|&place| &slots[asked[place as usize] as usize].row).collect();
        let points = Points::of(keys, &rows);
        let levels = if points.width == FEWEST { stairs::levels(&points, want) } else { divide::levels(&points, want.cut) };
        let of_rows = points.of_rows.iter().map(|&point| levels[point as usize]);
        found.extend(of_rows.zip(group.iter().copied()).filter(|&(level, _)| level < want.cut));
    })
}

/// The slots of the visible rows, without those that a few good ones dominate where only the best of all are wanted.
fn asked_slots(ask: &Ask, keys: &[Leaf], slots: &[Version], stamp: u64) -> Vec<u32> {
    if ask.mode != Mode::Best || !ask.group.is_empty() {
        return visible_slots(slots, stamp);
    }
    not_beaten_by_few(slots, stamp, keys.len(), |row, scores| {
        scores.iter_mut().zip(keys).for_each(|(cell, key)| *cell = score(key, row));
    })
}
