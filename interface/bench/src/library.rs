//! The library's calls with buffers made once.

use crate::stacks::Stack;
use stack_folds::{raw, Outline, Rows, Slices};

pub struct Library<'a> {
    file: &'a [u8],
    nested: bool,
    placements: Vec<u32>,
    pairs: Vec<u32>,
    work: Vec<u32>,
}

impl Library<'_> {
    pub fn new(stack: &Stack, nested: bool) -> Library<'_> {
        let placements = vec![0; 3 * stack.components.len()];
        Library { file: &stack.file, nested, placements, pairs: vec![0; 1 << 16], work: vec![0; raw::WORK] }
    }

    pub fn fold_to_height(&mut self, limit: u32) -> Option<Outline> {
        found(raw::to_height(self.file, self.nested, limit, &mut self.placements, &mut self.work))
    }

    pub fn fold_to_width(&mut self, limit: u32) -> Option<Outline> {
        found(raw::to_width(self.file, self.nested, limit, &mut self.placements, &mut self.work))
    }

    pub fn smallest_area(&mut self) -> Option<Outline> {
        found(raw::smallest_area(self.file, self.nested, &mut self.placements, &mut self.work))
    }

    pub fn table(&mut self) -> Vec<Outline> {
        let answer = raw::table(self.file, self.nested, &mut self.pairs, &mut self.work);
        assert_eq!(answer.refusal, 0, "the table is refused");
        self.pairs.chunks_exact(2).take(answer.count).map(|p| outline(p[0], p[1])).collect()
    }
}

fn found(answer: raw::Outline) -> Option<Outline> {
    (answer.refusal == 0).then(|| outline(answer.width, answer.height))
}

fn outline(width: u32, height: u32) -> Outline {
    Outline { width: Slices(width), height: Rows(height) }
}
