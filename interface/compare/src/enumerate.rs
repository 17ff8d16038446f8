//! Every folding of a small stack, one by one: all groupings, folds, sides and start rows, each measured.
//!
//! Start rows go up to 1,024,000 in document 01. Here a component may end at most at the sum of the heights
//! of its group, plus `spare` rows. Nothing is lost: if a group is higher than that sum, one of its rows below the top is
//! empty, since its components fill at most as many rows as their heights add to. Taking that row out, so that all above it
//! moves down by one, keeps groups, sides and the order in both sides, changes no other row's sum and lowers T by one. So
//! each folding beyond the bound is equalled or beaten by one within it, in area too. With some spare rows the enumeration
//! tries that argument itself.
//!
//! Neither marks nor ticket 5 leave anything out here: foldings that part barred neighbours, and nested ones with groups
//! before the last that have no right side, are tried like all others, and the rules of a legal folding say which are
//! broken.

use crate::front::{smaller, Front};
use crate::measure::{with_faults, Faults, Outline};
use crate::stack::{total, Component};
use std::ops::AddAssign;

struct Search<'a> {
    stack: &'a [Component],
    nested: bool,
    spare: u32,
    folding: Vec<u32>,
    front: Front,
    smallest: Option<Outline>,
    counts: Counts,
    some_broken: Vec<Vec<u32>>,
}

/// How many foldings there are with some faults and with no others.
#[derive(Clone, Copy, Default)]
pub struct Counts {
    pub legal: u64,
    pub parted: u64,
    pub flat: u64,
    pub both: u64,
}

impl Counts {
    pub fn of(&mut self, faults: Faults) -> &mut u64 {
        match faults {
            Faults { parted: false, flat: false } => &mut self.legal,
            Faults { parted: true, flat: false } => &mut self.parted,
            Faults { parted: false, flat: true } => &mut self.flat,
            Faults { parted: true, flat: true } => &mut self.both,
        }
    }
}

impl AddAssign for Counts {
    fn add_assign(&mut self, other: Counts) {
        self.legal += other.legal;
        self.parted += other.parted;
        self.flat += other.flat;
        self.both += other.both;
    }
}

/// What all foldings of a stack come to.
pub struct Enumerated {
    pub table: Vec<Outline>,
    /// Of all foldings, beaten ones too: that it is in the table is for the comparison to show.
    pub smallest: Outline,
    pub counts: Counts,
    /// Some of those that are broken, with each of the faults and with both.
    pub some_broken: Vec<Vec<u32>>,
}

pub fn all(stack: &[Component], nested: bool, spare: u32) -> Enumerated {
    let folding = vec![0; 3 * stack.len()];
    let (front, counts, some_broken) = (Front::default(), Counts::default(), Vec::new());
    let mut search = Search { stack, nested, spare, folding, front, smallest: None, counts, some_broken };
    search.groups(0, 0);
    let Search { front, smallest, counts, some_broken, .. } = search;
    let smallest = smallest.expect("every stack has a folding");
    Enumerated { table: front.table(), smallest, counts, some_broken }
}

impl Search<'_> {
    /// All ways to fold the components from `first` on, the next group having this number.
    fn groups(&mut self, first: usize, number: u32) {
        if first == self.stack.len() {
            return self.measure();
        }
        for end in first + 1..=self.stack.len() {
            let fold_from = if self.nested { first + 1 } else { end };
            for right in fold_from..=end {
                self.start_rows(number, first, right, end, self.chain(first, right, end));
            }
        }
    }

    fn measure(&mut self) {
        let measured = with_faults(self.stack, self.nested, &self.folding);
        let (one, faults) = measured.expect("what is enumerated keeps document 01's rules");
        let count = self.counts.of(faults);
        *count += 1;
        if faults == Faults::NONE {
            self.smallest = Some(self.smallest.map_or(one, |best| smaller(best, one)));
            self.front.add(one);
        } else if count.is_power_of_two() {
            // Fewer and fewer are kept, so that they come from all over the enumeration and stay few.
            self.some_broken.push(self.folding.clone());
        }
    }

    /// The group's components in the order of their rows: the left side from the fold up, then the right side.
    fn chain(&self, first: usize, right: usize, end: usize) -> Vec<usize> {
        (first..right).rev().chain(right..end).collect()
    }

    /// All start rows for the components left in `chain`; then the groups that follow.
    fn start_rows(&mut self, number: u32, first: usize, right: usize, end: usize, mut chain: Vec<usize>) {
        if chain.is_empty() {
            return self.groups(end, number + 1);
        }
        let at = chain.remove(0);
        let least = match at {
            _ if at + 1 == right || at == right => 0,
            _ if at < right => self.end_of(at + 1),
            _ => self.end_of(at - 1),
        };
        let most = total(&self.stack[first..end]) + self.spare;
        for start in least..=most.saturating_sub(self.stack[at].height) {
            self.folding[3 * at..3 * at + 3].copy_from_slice(&[number, u32::from(at >= right), start]);
            self.start_rows(number, first, right, end, chain.clone());
        }
    }

    fn end_of(&self, at: usize) -> u32 {
        self.folding[3 * at + 2] + self.stack[at].height
    }
}
