//! The rows of standard cells that are timed.

use crate::rng::Rng;

#[derive(Clone, Copy, PartialEq, Eq)]
pub enum Shape {
    Random,
    Equal,
    FewTall,
    Ascending,
}

pub const SHAPES: [(Shape, &str); 4] = [
    (Shape::Random, "random"),
    (Shape::Equal, "all equal"),
    (Shape::FewTall, "few tall"),
    (Shape::Ascending, "ascending"),
];

const TALLEST: u32 = 4000;
const EQUAL: u16 = 1000;

/// Where few cells are tall, one in so many is, and the others are no higher than that.
const ONE_IN: usize = 100;
const LOW: u32 = 20;

/// Heights of so many cells.
pub fn row(rng: &mut Rng, count: usize, shape: Shape) -> Vec<u16> {
    match shape {
        Shape::Random => (0..count).map(|_| rng.within(1, TALLEST) as u16).collect(),
        Shape::Equal => vec![EQUAL; count],
        Shape::FewTall => (0..count).map(|_| mostly_low(rng) as u16).collect(),
        Shape::Ascending => {
            let mut heights = row(rng, count, Shape::Random);
            heights.sort_unstable();
            heights
        }
    }
}

fn mostly_low(rng: &mut Rng) -> u32 {
    if rng.one_in(ONE_IN) {
        TALLEST
    } else {
        rng.within(1, LOW)
    }
}
