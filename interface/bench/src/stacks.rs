//! The stacks that are timed.

use crate::rng::Rng;
use crate::shapes::{sizes, Shape, SHAPES};
use stack_folds::{write, Component, Rows, Slices};

impl Shape {
    pub fn name(self) -> &'static str {
        SHAPES.into_iter().find(|(shape, _)| *shape == self).expect("every shape has a name").1
    }
}

pub struct Stack {
    pub components: Vec<Component>,
    pub file: Vec<u8>,
}

/// No fold is barred.
pub fn stack(rng: &mut Rng, count: usize, shape: Shape) -> Stack {
    let component = |[height, width, gap]: [u32; 3]| Component {
        height: Rows(height),
        width: Slices(width),
        gap: Rows(gap),
        barred: false,
    };
    of(sizes(rng, count, shape).into_iter().map(component).collect())
}

fn of(components: Vec<Component>) -> Stack {
    let file = write(&components).expect("the numbers are in range");
    Stack { components, file }
}

/// The order in which folds of a stack of so many components are barred. There is none after the last.
pub fn barring(rng: &mut Rng, count: usize) -> Vec<usize> {
    let mut order: Vec<usize> = (0..count - 1).collect();
    (1..order.len()).rev().for_each(|at| order.swap(at, rng.below(at + 1)));
    order
}

impl Stack {
    /// The same stack with so many fourths of its folds barred, the first in that order.
    pub fn barred(&self, fourths: usize, order: &[usize]) -> Stack {
        let mut components = self.components.clone();
        order[..order.len() * fourths / 4].iter().for_each(|&at| components[at].barred = true);
        of(components)
    }
}
