//! Foldings of a bit-sliced stack: reads and writes stack files, measures foldings, finds the best one for a height or a
//! width and the one of smallest area, and lists the unbeaten outlines. It puts rows of standard cells into the
//! fewest or the lowest stacks. Rows and slices are types of their own, so a height cannot be passed as a width.
//!
//! ```
//! use stack_folds::{to_height, write, Component, Kind, Rows, Slices};
//!
//! let sizes = [(1, 3), (1, 1), (1, 1), (1, 3)];
//! let mut stack = sizes.map(|(h, w)| Component { height: Rows(h), width: Slices(w), gap: Rows(0), barred: false });
//! let folding = to_height(&write(&stack)?, Kind::Nested, Rows(3))?;
//! assert_eq!(folding.outline.width, Slices(3));
//!
//! stack[1].barred = true; // the second and the third component must not be parted
//! let folding = to_height(&write(&stack)?, Kind::Nested, Rows(3))?;
//! assert_eq!(folding.outline.width, Slices(4));
//! # Ok::<(), stack_folds::Refusal>(())
//! ```

use std::fmt;

pub mod raw;

/// A number of rows: heights, gaps and start rows.
#[derive(Clone, Copy, Debug, PartialEq, Eq, PartialOrd, Ord, Hash)]
pub struct Rows(pub u32);

/// A number of slices: widths.
#[derive(Clone, Copy, Debug, PartialEq, Eq, PartialOrd, Ord, Hash)]
pub struct Slices(pub u32);

/// One component of a stack. The gap is the routing height between it and the next one when a fold separates them. Where
/// a fold after it is barred, it has the same group and the same side as the next one in every legal folding.
#[derive(Clone, Copy, Debug, PartialEq, Eq, Hash)]
pub struct Component {
    pub height: Rows,
    pub width: Slices,
    pub gap: Rows,
    /// Whether its fold mark is 1.
    pub barred: bool,
}

/// Which foldings count: apart ones use the left sides only, nested ones both. In a nested folding only the last group may
/// have no right side, since cells may be turned by half a turn and not mirrored. So an apart folding of more than one group
/// is no nested one.
#[derive(Clone, Copy, Debug, PartialEq, Eq, Hash)]
pub enum Kind {
    Apart,
    Nested,
}

/// The side of a group.
#[derive(Clone, Copy, Debug, PartialEq, Eq, Hash)]
pub enum Side {
    Left,
    Right,
}

/// Where a component stands: its group, from 0, the side, and its start row. Rows count from the end where the group's fold
/// is, and in a group without a fold from the end of its last component.
#[derive(Clone, Copy, Debug, PartialEq, Eq, Hash)]
pub struct Placement {
    pub group: u32,
    pub side: Side,
    pub start: Rows,
}

/// The rectangle that a folding needs.
#[derive(Clone, Copy, Debug, PartialEq, Eq, Hash)]
pub struct Outline {
    pub width: Slices,
    pub height: Rows,
}

/// A placement for each component, and the outline of the whole.
#[derive(Clone, Debug, PartialEq, Eq)]
pub struct Folding {
    pub placements: Vec<Placement>,
    pub outline: Outline,
}

/// Stacks of a row of cells: runs of cells, none empty, that hold all of them in their order.
#[derive(Clone, Debug, PartialEq, Eq)]
pub struct Stacks {
    /// The number, from 1, of each stack's last cell.
    pub ends: Vec<u16>,
    /// The height of the highest one.
    pub height: Rows,
}

/// Why there is no result.
#[derive(Clone, Copy, Debug, PartialEq, Eq, Hash)]
pub enum Refusal {
    WrongFile = 1,
    WrongVersion = 2,
    WrongLength = 3,
    StackSize = 4,
    BadComponent = 5,
    BadGap = 6,
    BadLimit = 7,
    ShortBuffer = 8,
    Unmeetable = 9,
    BrokenFolding = 10,
    BadFoldMark = 11,
    RowSize = 12,
}

impl Refusal {
    const ALL: [Refusal; 12] = [
        Refusal::WrongFile,
        Refusal::WrongVersion,
        Refusal::WrongLength,
        Refusal::StackSize,
        Refusal::BadComponent,
        Refusal::BadGap,
        Refusal::BadLimit,
        Refusal::ShortBuffer,
        Refusal::Unmeetable,
        Refusal::BrokenFolding,
        Refusal::BadFoldMark,
        Refusal::RowSize,
    ];

    /// The refusal's number.
    pub fn number(self) -> u32 {
        self as u32
    }

    /// The refusal's trade word.
    pub fn word(self) -> &'static str {
        const WORDS: [&str; 12] = [
            "wrong file",
            "wrong version",
            "wrong length",
            "stack size",
            "bad component",
            "bad gap",
            "bad limit",
            "short buffer",
            "unmeetable",
            "broken folding",
            "bad fold mark",
            "row size",
        ];
        WORDS[self as usize - 1]
    }

    fn unless(number: u32) -> Result<(), Refusal> {
        match number {
            0 => Ok(()),
            _ => Err(Refusal::ALL[number as usize - 1]),
        }
    }
}

impl fmt::Display for Refusal {
    fn fmt(&self, f: &mut fmt::Formatter<'_>) -> fmt::Result {
        write!(f, "refusal {}: {}", self.number(), self.word())
    }
}

impl std::error::Error for Refusal {}

/// The number of components of a stack file, of version 1 or 2 as everywhere. Refusals 1 to 6, 11.
pub fn check(file: &[u8], kind: Kind) -> Result<usize, Refusal> {
    counted(raw::check(file, nested(kind)))
}

/// The components of a stack file, up to 256. In version 1 no fold is barred. Refusals 1 to 6, 11.
pub fn read(file: &[u8]) -> Result<Vec<Component>, Refusal> {
    let n = check(file, Kind::Apart)?;
    let [mut heights, mut widths, mut gaps, mut marks] = [(); 4].map(|()| vec![0; n]);
    counted(raw::read(file, &mut heights, &mut widths, &mut gaps, &mut marks))?;
    let component = |i: usize| Component {
        height: Rows(heights[i].into()),
        width: Slices(widths[i].into()),
        gap: Rows(gaps[i].into()),
        barred: marks[i] == 1,
    };
    Ok((0..n).map(component).collect())
}

/// All bytes of the component with that number, from 1: six in a version 1 file, eight in a version 2 file. None for any
/// other number and for a refused file.
pub fn lookup(file: &[u8], number: usize) -> Option<&[u8]> {
    let part = raw::lookup(file, number);
    (part.length > 0).then(|| &file[part.start..part.start + part.length])
}

/// The version 2 stack file of these components. Refusals 4 to 6, and 11 where a fold after the last one is barred.
pub fn write(stack: &[Component]) -> Result<Vec<u8>, Refusal> {
    let list = |of: fn(&Component) -> u32| stack.iter().map(|c| narrow(of(c))).collect::<Vec<u16>>();
    let (heights, widths, gaps) = (list(|c| c.height.0), list(|c| c.width.0), list(|c| c.gap.0));
    let mut file = vec![0; 7 + 8 * stack.len()];
    counted(raw::write(&heights, &widths, &gaps, &list(|c| c.barred.into()), &mut file))?;
    Ok(file)
}

/// The outline of a folding. Placements past the stack's last component are not read. Refusals 1 to 6, 11, 8, 10; a
/// folding that parts barred neighbours, by group or by side, is broken (10), and so is a nested one with a group that has
/// no right side and is not the last.
pub fn measure(file: &[u8], kind: Kind, placements: &[Placement]) -> Result<Outline, Refusal> {
    outlined(raw::measure(file, nested(kind), &flat(placements)))
}

/// The better folding's placements: the narrower, then the lower, then the first. None where measuring refuses either.
pub fn choose<'a>(file: &[u8], kind: Kind, first: &'a [Placement], second: &'a [Placement]) -> Option<&'a [Placement]> {
    let n = check(file, kind).ok()?;
    match raw::choose(file, nested(kind), &flat(first), &flat(second)) {
        1 => Some(&first[..n]),
        2 => Some(&second[..n]),
        _ => None,
    }
}

/// The narrowest folding that is at most `limit` high, and of those the lowest. Refusals 1 to 6, 11, 7, 9.
pub fn to_height(file: &[u8], kind: Kind, limit: Rows) -> Result<Folding, Refusal> {
    fold(file, kind, |placements, work| raw::to_height(file, nested(kind), limit.0, placements, work))
}

/// The lowest folding that is at most `limit` wide, and of those the narrowest. Refusals 1 to 6, 11, 7, 9.
pub fn to_width(file: &[u8], kind: Kind, limit: Slices) -> Result<Folding, Refusal> {
    fold(file, kind, |placements, work| raw::to_width(file, nested(kind), limit.0, placements, work))
}

/// A folding of the smallest area: the least width times height, and of equal areas the narrowest. Refusals 1 to 6, 11.
pub fn smallest_area(file: &[u8], kind: Kind) -> Result<Folding, Refusal> {
    fold(file, kind, |placements, work| raw::smallest_area(file, nested(kind), placements, work))
}

/// The unbeaten outlines: widths rise, heights fall. Refusals 1 to 6, 11.
pub fn table(file: &[u8], kind: Kind) -> Result<Vec<Outline>, Refusal> {
    let n = check(file, kind)?;
    let (mut pairs, mut work) = (vec![0; raw::pairs(n)], vec![0; raw::WORK]);
    let count = counted(raw::table(file, nested(kind), &mut pairs, &mut work))?;
    Ok(pairs.chunks_exact(2).take(count).map(|p| outline(p[0], p[1])).collect())
}

/// The fewest stacks, at most `limit` high, of a row of cells of these heights. Refusals 12, 5, 7, 9.
pub fn cells_to_height(heights: &[u16], limit: Rows) -> Result<Stacks, Refusal> {
    stacked(heights, |ends| raw::cells_to_height(heights, limit.0, ends))
}

/// The lowest stacks, at most `most`, of a row of cells of these heights, and of those the fewest. Refusals 12, 5, 7.
pub fn cells_to_count(heights: &[u16], most: u32) -> Result<Stacks, Refusal> {
    stacked(heights, |ends| raw::cells_to_count(heights, most, ends))
}

fn fold(
    file: &[u8], kind: Kind, call: impl FnOnce(&mut [u32], &mut [u32]) -> raw::Outline,
) -> Result<Folding, Refusal> {
    let n = check(file, kind)?;
    let (mut placements, mut work) = (vec![0; 3 * n], vec![0; raw::WORK]);
    let outline = outlined(call(&mut placements, &mut work))?;
    Ok(Folding { placements: placements.chunks_exact(3).map(placement).collect(), outline })
}

/// Lends a place for each cell, as many as there can be stacks, so 8 is never answered.
fn stacked(heights: &[u16], call: impl FnOnce(&mut [u16]) -> raw::Stacks) -> Result<Stacks, Refusal> {
    let mut ends = vec![0; heights.len()];
    let answer = call(&mut ends);
    Refusal::unless(answer.refusal)?;
    ends.truncate(answer.count as usize);
    Ok(Stacks { ends, height: Rows(answer.height) })
}

fn nested(kind: Kind) -> bool {
    kind == Kind::Nested
}

fn counted(answer: raw::Count) -> Result<usize, Refusal> {
    Refusal::unless(answer.refusal)?;
    Ok(answer.count)
}

fn outlined(answer: raw::Outline) -> Result<Outline, Refusal> {
    Refusal::unless(answer.refusal)?;
    Ok(outline(answer.width, answer.height))
}

fn outline(width: u32, height: u32) -> Outline {
    Outline { width: Slices(width), height: Rows(height) }
}

fn placement(numbers: &[u32]) -> Placement {
    let side = if numbers[1] == 0 { Side::Left } else { Side::Right };
    Placement { group: numbers[0], side, start: Rows(numbers[2]) }
}

fn flat(placements: &[Placement]) -> Vec<u32> {
    placements.iter().flat_map(|p| [p.group, p.side as u32, p.start.0]).collect()
}

/// What does not fit 16 bits is out of every range, and so is the greatest 16-bit number: the refusal is the same.
fn narrow(number: u32) -> u16 {
    u16::try_from(number).unwrap_or(u16::MAX)
}

#[cfg(test)]
mod tests {
    use super::*;
    use Side::{Left, Right};

    const HEADER: &str = include_str!("../../stack_folds.h");

    /// What C reads: the refusals' names, numbers and words, and the lengths.
    #[test]
    fn the_header_has_the_same_numbers_and_words() {
        let words: Vec<&str> = HEADER.split('"').skip(1).step_by(2).skip_while(|text| !text.is_empty()).collect();
        for refusal in Refusal::ALL {
            let name = refusal.word().replace(' ', "_").to_uppercase();
            assert!(HEADER.contains(&format!("#define FOLDS_{name} {}\n", refusal.number())), "{name}");
            assert_eq!(words[refusal.number() as usize], refusal.word());
        }
        assert!(HEADER.contains(&format!("#define FOLDS_WORK {}\n", raw::WORK)));
        assert!(HEADER.contains("#define FOLDS_PAIRS(n) ((size_t)2 * 4000 * (n))\n"));
        assert_eq!(raw::pairs(1), 2 * 4000);
        assert!(HEADER.contains(&format!("#define FOLDS_MOST_CELLS {}\n", raw::MOST_CELLS)));
    }

    #[test]
    fn refusals_and_their_numbers() {
        for (at, refusal) in Refusal::ALL.into_iter().enumerate() {
            assert_eq!(refusal.number() as usize, at + 1);
            assert_eq!(Refusal::unless(refusal.number()), Err(refusal));
        }
        assert_eq!(Refusal::unless(0), Ok(()));
    }

    fn stack<const N: usize>(sizes: [(u32, u32); N]) -> [Component; N] {
        sizes.map(|(h, w)| Component { height: Rows(h), width: Slices(w), gap: Rows(0), barred: false })
    }

    /// With no limit only the file can be refused.
    #[test]
    fn the_smallest_area_of_each_kind() {
        let stack = stack([(2, 5), (1, 4), (1, 1), (1, 4), (1, 1)]);
        let file = write(&stack).unwrap();
        for (kind, width, height) in [(Kind::Apart, 13, 2), (Kind::Nested, 5, 4)] {
            let folding = smallest_area(&file, kind).unwrap();
            assert_eq!(folding.outline, outline(width, height));
            assert_eq!(measure(&file, kind, &folding.placements), Ok(folding.outline));
        }
        assert_eq!(smallest_area(&file[1..], Kind::Apart), Err(Refusal::WrongFile));
        let long = write(&[stack[0]; 65]).unwrap();
        assert_eq!(smallest_area(&long, Kind::Nested), Err(Refusal::StackSize));
    }

    /// E with its second and third component kept together.
    fn joined() -> [Component; 4] {
        let mut stack = stack([(1, 3), (1, 1), (1, 1), (1, 3)]);
        stack[1].barred = true;
        stack
    }

    #[test]
    fn marks_are_written_read_and_looked_up() {
        let file = write(&joined()).unwrap();
        assert_eq!(file.len(), 7 + 8 * 4);
        assert_eq!(file[..7], *b"STK\x02\x00\x04\x00");
        assert_eq!(read(&file), Ok(joined().to_vec()));
        assert_eq!(lookup(&file, 2), Some(&[1, 0, 1, 0, 0, 0, 1, 0][..]));
        let mut last = joined();
        last[3].barred = true;
        assert_eq!(write(&last), Err(Refusal::BadFoldMark));
    }

    #[test]
    fn version_1_reads_as_no_marks() {
        let file = b"STK\x01\x00\x02\x00\x01\x00\x03\x00\x05\x00\x02\x00\x04\x00\x00\x00";
        let mut expected = stack([(1, 3), (2, 4)]);
        expected[0].gap = Rows(5);
        assert_eq!(read(file), Ok(expected.to_vec()));
        assert_eq!(lookup(file, 1), Some(&[1, 0, 3, 0, 5, 0][..]));
    }

    #[test]
    fn barred_neighbours_keep_group_and_side() {
        let file = write(&joined()).unwrap();
        let lines = |kind| table(&file, kind).map(|lines| lines.iter().map(|o| (o.width.0, o.height.0)).collect());
        assert_eq!(lines(Kind::Apart), Ok(vec![(3, 4), (6, 3), (7, 2)]));
        assert_eq!(lines(Kind::Nested), Ok(vec![(3, 4), (4, 3), (7, 2)]));
        let at_end = folding([(0, Left, 0), (0, Right, 0), (1, Left, 0), (1, Right, 0)]);
        let at_fold = folding([(0, Left, 1), (0, Left, 0), (0, Right, 0), (0, Right, 1)]);
        for parted in [at_end, at_fold] {
            assert_eq!(measure(&file, Kind::Nested, &parted), Err(Refusal::BrokenFolding));
            assert!(choose(&file, Kind::Nested, &parted, &parted).is_none());
        }
        let free = write(&stack([(1, 3), (1, 1), (1, 1), (1, 3)])).unwrap();
        assert_eq!(measure(&free, Kind::Nested, &at_end), Ok(outline(8, 1)));
        assert_eq!(measure(&free, Kind::Nested, &at_fold), Ok(outline(6, 2)));
    }

    fn folding<const N: usize>(places: [(u32, Side, u32); N]) -> [Placement; N] {
        places.map(|(group, side, start)| Placement { group, side, start: Rows(start) })
    }

    /// Nested a first group without a right side breaks the folding and a last one does not; apart all are without.
    #[test]
    fn only_the_last_nested_group_may_have_no_right_side() {
        let file = write(&stack([(2, 5), (1, 4), (1, 1), (1, 4), (1, 1)])).unwrap();
        let first = folding([(0, Left, 0), (1, Left, 1), (1, Left, 0), (1, Right, 0), (1, Right, 1)]);
        let last = folding([(0, Left, 0), (0, Right, 0), (1, Left, 2), (1, Left, 1), (1, Left, 0)]);
        let none = folding([(0, Left, 0), (1, Left, 3), (1, Left, 2), (1, Left, 1), (1, Left, 0)]);
        assert_eq!(measure(&file, Kind::Nested, &first), Err(Refusal::BrokenFolding));
        assert_eq!(measure(&file, Kind::Nested, &last), Ok(outline(13, 3)));
        assert_eq!(measure(&file, Kind::Nested, &none), Err(Refusal::BrokenFolding));
        assert_eq!(measure(&file, Kind::Apart, &none), Ok(outline(9, 4)));
        assert_eq!(choose(&file, Kind::Nested, &first, &last), None);
        let two_rows = to_height(&file, Kind::Nested, Rows(2)).unwrap();
        assert_eq!(two_rows.outline, outline(13, 2));
        assert_eq!(measure(&file, Kind::Nested, &two_rows.placements), Ok(outline(13, 2)));
    }

    const CELLS: [u16; 6] = [3, 1, 2, 2, 4, 1];

    /// The ends are checked where no others are as few and as low.
    #[test]
    fn cells_in_the_fewest_stacks_of_a_height() {
        let stacks = |limit| cells_to_height(&CELLS, Rows(limit)).map(|s| (s.ends.len(), s.height.0));
        assert_eq!(stacks(4), Ok((4, 4)));
        assert_eq!(stacks(5), Ok((3, 5)));
        assert_eq!(stacks(7), Ok((2, 7)));
        assert_eq!(cells_to_height(&CELLS, Rows(7)).unwrap().ends, [3, 6]);
        assert_eq!(cells_to_height(&CELLS, Rows(240_000_000)), Ok(Stacks { ends: vec![6], height: Rows(13) }));
    }

    #[test]
    fn cells_in_the_lowest_stacks_of_a_number() {
        let stacks = |most| cells_to_count(&CELLS, most).map(|s| (s.ends.len(), s.height.0));
        assert_eq!(stacks(1), Ok((1, 13)));
        assert_eq!(cells_to_count(&CELLS, 2), Ok(Stacks { ends: vec![3, 6], height: Rows(7) }));
        assert_eq!(stacks(3), Ok((3, 5)));
        // Beyond the fewest stacks as low as the tallest cell no more are made.
        for most in [4, 6, 7, 240_000_000] {
            assert_eq!(stacks(most), Ok((4, 4)));
        }
    }

    #[test]
    fn cells_stand_as_apart_components_do() {
        let file = write(&stack(CELLS.map(|height| (height.into(), 1)))).unwrap();
        for limit in 1..=14 {
            let width = to_height(&file, Kind::Apart, Rows(limit)).map(|folding| folding.outline.width.0 as usize);
            assert_eq!(cells_to_height(&CELLS, Rows(limit)).map(|stacks| stacks.ends.len()), width);
            let height = to_width(&file, Kind::Apart, Slices(limit)).map(|folding| folding.outline.height);
            assert_eq!(cells_to_count(&CELLS, limit).map(|stacks| stacks.height), height);
        }
    }

    #[test]
    fn rows_of_cells_are_refused_in_order() {
        let both = |heights: &[u16], limit| {
            let answer = cells_to_height(heights, Rows(limit));
            [answer.map(|stacks| stacks.ends.len()), cells_to_count(heights, limit).map(|stacks| stacks.ends.len())]
        };
        let most = raw::MOST_CELLS;
        assert_eq!(both(&[], 0), [Err(Refusal::RowSize); 2]);
        assert_eq!(both(&vec![0; most + 1], 0), [Err(Refusal::RowSize); 2]);
        assert_eq!(both(&[1, 0], 0), [Err(Refusal::BadComponent); 2]);
        assert_eq!(both(&[4001, 1], 0), [Err(Refusal::BadComponent); 2]);
        assert_eq!(both(&[1, 1], 0), [Err(Refusal::BadLimit); 2]);
        assert_eq!(both(&[1, 1], 240_000_001), [Err(Refusal::BadLimit); 2]);
        assert_eq!(both(&[1, 2], 1), [Err(Refusal::Unmeetable), Ok(1)]);
        assert_eq!(both(&vec![4000; most], 4000), [Ok(most), Ok(4000)]);
    }
}
