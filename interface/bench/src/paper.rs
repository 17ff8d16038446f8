//! Document 001's own method, with document 01's corrections: equations (4) and (5), Theorem 2 and section 5.1. Every least
//! width of a group is found by halving over the sorted sums of widths, and nothing is bounded by the best so far. Groups
//! that would end or fold where that is barred are left out, and so are nested ones without a fold that are not the last
//! (ticket 5).
//! It gives outlines only and writes no placements, which is less work than the library's.

use stack_folds::{Component, Outline, Rows, Slices};

pub struct Paper {
    heights: Vec<u32>,
    widths: Vec<u32>,
    gaps: Vec<u32>,
    barred: Vec<bool>,
    nested: bool,
    /// The widths that a group can have: one component's, or two that lie side by side.
    sums: Vec<u32>,
    /// The sum of the heights before each component.
    before: Vec<u32>,
    /// B of equation (4) for the group at hand.
    least: Vec<u32>,
}

const NONE: u32 = u32::MAX;

impl Paper {
    pub fn new(stack: &[Component], nested: bool) -> Paper {
        let widths: Vec<u32> = stack.iter().map(|c| c.width.0).collect();
        let heights: Vec<u32> = stack.iter().map(|c| c.height.0).collect();
        let mut before = vec![0];
        heights.iter().for_each(|height| before.push(before[before.len() - 1] + height));
        let n = stack.len();
        let least = vec![0; (n + 1) * (n + 1)];
        let gaps = stack.iter().map(|c| c.gap.0).collect();
        let barred = stack.iter().map(|c| c.barred).collect();
        Paper { sums: sums(&widths), heights, widths, gaps, barred, nested, before, least }
    }

    /// The narrowest layout that keeps the height, and of those the lowest: equation (5).
    pub fn fold_to_height(&mut self, limit: u32) -> Option<Outline> {
        let n = self.heights.len();
        let mut best = vec![(NONE, NONE); n];
        best.push((0, 0));
        for first in (0..n).rev() {
            let sides = if self.nested { 2 } else { 1 };
            for last in first..n {
                if self.total(first, last + 1) > sides * limit {
                    break;
                }
                let rest = best[last + 1];
                if rest.0 != NONE && !self.barred[last] {
                    if let Some((width, height)) = self.least_width(first, last, limit) {
                        best[first] = best[first].min((width + rest.0, height.max(rest.1)));
                    }
                }
            }
        }
        let (width, height) = best[0];
        (width != NONE).then_some(Outline { width: Slices(width), height: Rows(height) })
    }

    /// The lowest layout that keeps the width. Heights are halved over all numbers: section 4.1.2's candidates miss some.
    pub fn fold_to_width(&mut self, limit: u32) -> Option<Outline> {
        let keeps = |o: &Outline| o.width.0 <= limit;
        let (mut low, mut high) = (1, self.total(0, self.heights.len()));
        self.fold_to_height(high).filter(keeps)?;
        while low < high {
            let middle = (low + high) / 2;
            match self.fold_to_height(middle).filter(keeps) {
                Some(_) => high = middle,
                None => low = middle + 1,
            }
        }
        self.fold_to_height(high)
    }

    /// All unbeaten outlines: fold to height, each time one below the height just found.
    pub fn table(&mut self) -> Vec<Outline> {
        let mut table = Vec::new();
        let mut limit = self.total(0, self.heights.len());
        while let Some(outline) = self.fold_to_height(limit) {
            table.push(outline);
            limit = outline.height.0 - 1;
        }
        table
    }

    fn total(&self, first: usize, end: usize) -> u32 {
        self.before[end] - self.before[first]
    }

    /// S: the least width of the group that keeps the height, and its height there.
    fn least_width(&mut self, first: usize, last: usize, limit: u32) -> Option<(u32, u32)> {
        if !self.may_be_flat(last) && self.folds(first, last).next().is_none() {
            return None;
        }
        let (mut low, mut high) = (0, self.sums.len());
        let mut found = None;
        while low < high {
            let middle = (low + high) / 2;
            let width = self.sums[middle];
            match self.least_height(first, last, width) {
                Some(height) if height <= limit => (high, found) = (middle, Some((width, height))),
                _ => low = middle + 1,
            }
        }
        found
    }

    /// T': the least height of the group in that width, its routing included.
    fn least_height(&mut self, first: usize, last: usize, width: u32) -> Option<u32> {
        if self.widths[first..=last].iter().any(|w| *w > width) {
            return None;
        }
        let before = if first == 0 { 0 } else { self.gaps[first - 1] };
        let after = self.gaps[last];
        let unfolded = self.may_be_flat(last).then(|| self.total(first, last + 1) + before + after);
        if !self.nested {
            return unfolded;
        }
        self.fill(first, last, width);
        let folded = |k: usize| self.least[self.cell(first, last, k, k + 1)] + before.max(after) + self.gaps[k];
        self.folds(first, last).map(folded).chain(unfolded).min()
    }

    /// Whether a group that ends there may have no fold: nested only the last one.
    fn may_be_flat(&self, last: usize) -> bool {
        !self.nested || last + 1 == self.heights.len()
    }

    /// The components of a group that it may fold after.
    fn folds(&self, first: usize, last: usize) -> impl Iterator<Item = usize> + '_ {
        (first..last).filter(|&k| !self.barred[k])
    }

    /// The place of B for the components up to `left`, from the group's first, and from `right` to its last. None on the
    /// left is written as left + 1 = first, so both are moved by one.
    fn cell(&self, first: usize, last: usize, left: usize, right: usize) -> usize {
        (left + 1 - first) * (last - first + 2) + (last + 1 - right)
    }

    fn fill(&mut self, first: usize, last: usize, width: u32) {
        let across = last - first + 2;
        for right in first..=last + 1 {
            self.least[last + 1 - right] = self.total(right, last + 1);
        }
        for left in first..=last {
            self.least[(left + 1 - first) * across] = self.total(first, left + 1);
            for right in (left + 1..=last).rev() {
                let cell = self.cell(first, last, left, right);
                self.least[cell] = self.meet(first, last, left, right, width);
            }
        }
    }

    /// Figure 11 and Theorem 2: pack both sides from the fold until two components clash, or one side ends.
    fn meet(&self, first: usize, last: usize, mut left: usize, mut right: usize, width: u32) -> u32 {
        let (mut left_end, mut right_end) = (self.heights[left], self.heights[right]);
        loop {
            if self.widths[left] + self.widths[right] > width {
                let over = self.cell(first, last, left, right);
                let across = last - first + 2;
                return (left_end + self.least[over - across]).min(right_end + self.least[over - 1]);
            }
            if left_end > right_end {
                if right == last {
                    return left_end + self.total(first, left);
                }
                right += 1;
                right_end += self.heights[right];
            } else {
                if left == first {
                    return right_end + self.total(right + 1, last + 1);
                }
                left -= 1;
                left_end += self.heights[left];
            }
        }
    }
}

fn sums(widths: &[u32]) -> Vec<u32> {
    let pairs = widths.iter().enumerate().flat_map(|(i, a)| widths[i + 1..].iter().map(move |b| a + b));
    let mut sums: Vec<u32> = widths.iter().copied().chain(pairs).collect();
    sums.sort_unstable();
    sums.dedup();
    sums
}
