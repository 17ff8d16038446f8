//! Document 001's own method for components of equal width without routing at the ends of stacks, its section 2.1: for a
//! height each stack in turn takes what it can, and for a number of stacks equation (1), column by column, with the
//! pointer that its lemmas allow.
//! It gives counts and heights only and writes no ends, which is less work than the library's: to tell where the lowest
//! stacks end it would have to keep every column.

pub struct Stacks {
    pub count: u32,
    pub height: u32,
}

/// The fewest stacks that keep the height, which each cell does.
pub fn fewest(heights: &[u16], limit: u32) -> Stacks {
    let (mut count, mut height, mut growing) = (1, 0, 0);
    for cell in heights.iter().map(|cell| u32::from(*cell)) {
        growing += cell;
        if growing > limit {
            (count, growing) = (count + 1, cell);
        }
        height = height.max(growing);
    }
    Stacks { count, height }
}

/// The least height of at most so many stacks, H(1, k), and the fewest stacks of it.
pub fn lowest(heights: &[u16], most: u32) -> Stacks {
    let n = heights.len();
    let mut one_less: Vec<u32> = vec![0; n + 1];
    (0..n).rev().for_each(|i| one_less[i] = one_less[i + 1] + u32::from(heights[i]));
    let mut column = vec![0; n + 1];
    for _ in 1..most.min(n as u32) {
        fill(heights, &one_less, &mut column);
        std::mem::swap(&mut column, &mut one_less);
    }
    fewest(heights, one_less[0])
}

/// H(i, w) for each i out of H(i, w - 1): of all ends j of the first stack the last that is best. It never comes before
/// that of the i before.
fn fill(heights: &[u16], one_less: &[u32], column: &mut [u32]) {
    let n = heights.len();
    let (mut end, mut first) = (0, 0);
    for i in 0..n {
        if end == i {
            (end, first) = (i + 1, u32::from(heights[i]));
        }
        let mut height = first.max(one_less[end]);
        while end < n {
            let more = first + u32::from(heights[end]);
            let other = more.max(one_less[end + 1]);
            if height < other {
                break;
            }
            (end, first, height) = (end + 1, more, other);
        }
        column[i] = height;
        first -= u32::from(heights[i]);
    }
}
