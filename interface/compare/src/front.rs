//! The unbeaten of some outlines, and what they answer to the calls that write a folding.

use crate::measure::Outline;
use crate::rules::{Answer, LAST_LIMIT};

#[derive(Clone, Copy, Debug, PartialEq, Eq)]
pub enum Toward {
    Height,
    Width,
}

/// What a folding is to be: the best that keeps a limit, or of the smallest area, which knows none.
#[derive(Clone, Copy, Debug, PartialEq, Eq)]
pub enum Aim {
    Within(Toward, u32),
    SmallestArea,
}

impl Aim {
    pub fn bad_limit(self) -> bool {
        matches!(self, Aim::Within(_, limit) if limit == 0 || limit > LAST_LIMIT)
    }

    /// Whether a folding of that outline keeps the limit, if there is one.
    pub fn keeps(self, outline: Outline) -> bool {
        match self {
            Aim::Within(Toward::Height, limit) => outline.height <= limit,
            Aim::Within(Toward::Width, limit) => outline.width <= limit,
            Aim::SmallestArea => true,
        }
    }
}

#[derive(Clone, Default)]
pub struct Front(Vec<Outline>);

impl Front {
    pub fn add(&mut self, new: Outline) {
        let holds = |a: &Outline, b: &Outline| a.width <= b.width && a.height <= b.height;
        if !self.0.iter().any(|old| holds(old, &new)) {
            self.0.retain(|old| !holds(&new, old));
            self.0.push(new);
        }
    }

    pub fn outlines(&self) -> &[Outline] {
        &self.0
    }

    /// In the table's order.
    pub fn table(mut self) -> Vec<Outline> {
        self.0.sort_by_key(|o| o.width);
        self.0
    }
}

/// What a fold must answer where these are all the unbeaten outlines. To a height the narrowest that keeps it comes first
/// in the table, to a width the lowest comes last.
pub fn best(table: &[Outline], aim: Aim) -> Answer<Outline> {
    if aim.bad_limit() {
        return Err(7);
    }
    let mut keeping = table.iter().filter(|outline| aim.keeps(**outline));
    let found = match aim {
        Aim::Within(Toward::Height, _) => keeping.next(),
        Aim::Within(Toward::Width, _) => keeping.next_back(),
        Aim::SmallestArea => return Ok(smallest(table)),
    };
    found.copied().ok_or(9)
}

/// The outline of the least area, and of equal areas the narrowest.
pub fn smallest(outlines: &[Outline]) -> Outline {
    let smallest = outlines.iter().copied().reduce(smaller);
    smallest.expect("every stack has a folding")
}

/// The one of less area, or the narrower of equals.
pub fn smaller(a: Outline, b: Outline) -> Outline {
    match (b.area(), b.width) < (a.area(), a.width) {
        true => b,
        false => a,
    }
}
