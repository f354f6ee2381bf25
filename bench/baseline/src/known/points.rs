//! The rows of a group as points.

use super::FEWEST;
use crate::sharp::score;
use crate::table::Row;
use crate::term::Leaf;

/// Points in lexicographic order, no two of them the same. One that dominates another comes before it.
pub struct Points {
    /// How many keys a point has.
    pub width: usize,
    keys: Vec<u64>,
    /// The point of each row.
    pub of_rows: Vec<u32>,
}

impl Points {
    pub fn of(keys: &[Leaf], rows: &[&Row]) -> Points {
        let keys = telling(keys, rows);
        let width = keys.len();
        let cells: Vec<u64> = rows.iter().flat_map(|row| keys.iter().map(|key| score(key, row))).collect();
        let cells_of = |row: usize| &cells[row * width..][..width];
        let mut points = Points { width, keys: Vec::with_capacity(cells.len()), of_rows: vec![0; rows.len()] };
        for row in order(&cells, width) {
            if points.keys.is_empty() || points.keys[points.keys.len() - width..] != *cells_of(row) {
                points.keys.extend_from_slice(cells_of(row));
            }
            points.of_rows[row] = points.count() as u32 - 1;
        }
        points
    }

    pub fn count(&self) -> usize {
        self.keys.len() / self.width
    }

    /// The keys of a point.
    #[inline(always)]
    pub fn at(&self, point: u32) -> &[u64] {
        &self.keys[point as usize * self.width..][..self.width]
    }

    #[inline(always)]
    pub fn key(&self, point: u32, key: usize) -> u64 {
        self.keys[point as usize * self.width + key]
    }
}

/// The keys that tell rows apart; where these are fewer than three, some others too.
fn telling<'a>(keys: &'a [Leaf], rows: &[&Row]) -> Vec<&'a Leaf> {
    let differ = |key: &&Leaf| rows.iter().any(|row| score(key, row) != score(key, rows[0]));
    let (mut telling, others): (Vec<&Leaf>, Vec<&Leaf>) = keys.iter().partition(differ);
    telling.extend(others.into_iter().take(FEWEST.saturating_sub(telling.len())));
    telling
}

/// The numbers of rows in lexicographic order of their cells.
fn order(cells: &[u64], width: usize) -> impl Iterator<Item = usize> {
    let mut order: Vec<(u64, u32)> = cells.chunks_exact(width).zip(0..).map(|(row, i)| (row[0], i)).collect();
    let behind_first = |i: u32| &cells[i as usize * width + 1..][..width - 1];
    order.sort_unstable_by(|&(x, i), &(y, j)| x.cmp(&y).then_with(|| behind_first(i).cmp(behind_first(j))));
    order.into_iter().map(|(_, i)| i as usize)
}
