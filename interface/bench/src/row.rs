//! The timed stacks of one kind, length and shape, and the numbers that are told of them.

use crate::shapes::Shape;
use crate::timing::{Area, Cost, Timed};

pub const KINDS: [&str; 2] = ["nested", "apart"];

/// The stacks of one length and shape, folded nested or apart.
#[derive(Clone)]
pub struct Row {
    pub kind: &'static str,
    pub count: usize,
    pub shape: Shape,
    pub timed: Vec<Timed>,
}

impl Row {
    pub fn library(&self, call: usize) -> f64 {
        median(self.seconds(call, |cost| cost.library))
    }

    pub fn paper(&self, call: usize) -> f64 {
        median(self.seconds(call, |cost| cost.paper))
    }

    pub fn worst(&self, call: usize) -> f64 {
        longest(self.seconds(call, |cost| cost.worst))
    }

    pub fn outlines(&self) -> f64 {
        median(self.timed.iter().map(|timed| timed.outlines as f64).collect())
    }

    fn seconds(&self, call: usize, of: fn(&Cost) -> f64) -> Vec<f64> {
        self.timed.iter().map(|timed| of(&timed.costs[call])).collect()
    }

    /// One number for each stack whose smallest area was timed.
    pub fn areas(&self, of: fn(&Area) -> f64) -> Vec<f64> {
        self.timed.iter().filter_map(|timed| timed.area.as_ref().map(of)).collect()
    }

    /// Where the dearest limit of that fold lies, on the stack that takes longest there.
    pub fn dearest(&self, fold: usize) -> f64 {
        let worst = |timed: &&Timed| timed.costs[fold].worst;
        let stack = self.timed.iter().max_by(|a, b| worst(a).total_cmp(&worst(b)));
        stack.expect("a row has a stack").dearest[fold]
    }

    /// The same row of another run, and both cut to the stacks that both timed: a faster library has time for more of
    /// them, and medians over other stacks would not compare.
    pub fn beside(&self, others: &[Row]) -> Option<[Row; 2]> {
        let key = |row: &Row| (row.kind, row.count, row.shape);
        let mut other = others.iter().find(|other| key(other) == key(self))?.clone();
        let mut own = self.clone();
        let both = own.timed.len().min(other.timed.len());
        own.timed.truncate(both);
        other.timed.truncate(both);
        // Between two runs the legal foldings may have become others, as nested ones did with ticket 5. Apart tables stayed,
        // and the stacks of both kinds are drawn alike.
        assert!(own.kind == KINDS[0] || own.has_tables_of(&other), "the two runs timed other stacks");
        Some([other, own])
    }

    /// Whether the tables of both rows' stacks have as many outlines.
    pub fn has_tables_of(&self, other: &Row) -> bool {
        let outlines = |row: &Row| row.timed.iter().map(|timed| timed.outlines).collect::<Vec<_>>();
        outlines(self) == outlines(other)
    }
}

pub fn median(mut values: Vec<f64>) -> f64 {
    values.sort_by(f64::total_cmp);
    (values[(values.len() - 1) / 2] + values[values.len() / 2]) / 2.0
}

pub fn longest(seconds: Vec<f64>) -> f64 {
    seconds.into_iter().fold(0.0, f64::max)
}

/// The rows of the longest stacks: theirs are the times that the targets bound.
pub fn longest_stacks(rows: &[Row]) -> impl Iterator<Item = &Row> {
    let most = rows.iter().map(|row| row.count).max();
    rows.iter().filter(move |row| Some(row.count) == most)
}
