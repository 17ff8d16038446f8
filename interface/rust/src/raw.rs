//! The calls as the library exports them: numbers and lent buffers. The header stack_folds.h says what each does.

/// A refusal's number, or 0 and a count.
#[repr(C)]
#[derive(Clone, Copy, Debug, PartialEq, Eq)]
pub struct Count {
    pub refusal: u32,
    pub count: usize,
}

/// A refusal's number with width and height 0, or 0 and an outline.
#[repr(C)]
#[derive(Clone, Copy, Debug, PartialEq, Eq)]
pub struct Outline {
    pub refusal: u32,
    pub width: u32,
    pub height: u32,
}

/// A refusal's number with count and height 0, or 0, the number of stacks and the height of the highest.
#[repr(C)]
#[derive(Clone, Copy, Debug, PartialEq, Eq)]
pub struct Stacks {
    pub refusal: u32,
    pub count: u32,
    pub height: u32,
}

/// A part of a lent buffer; the empty part is 0, 0.
#[repr(C)]
#[derive(Clone, Copy, Debug, PartialEq, Eq)]
pub struct Part {
    pub start: usize,
    pub length: usize,
}

/// The least length of a work buffer.
pub const WORK: usize = 8192;

/// The most cells of a row; so many places hold the ends of the stacks of every row.
pub const MOST_CELLS: usize = 60000;

/// So many numbers hold the table of every stack of n components: it has no more pairs than the widths add up to.
pub fn pairs(n: usize) -> usize {
    2 * 4000 * n
}

// Pointer and length are two parameters here, as in C. A slice as one parameter would be wrong: Rust keeps its two words
// together, on the stack where a single register is left, and the library takes them apart. So it is for the last slice
// of folds_choose, of folds_smallest_area and of folds_table.
mod c {
    use super::{Count, Outline, Part, Stacks};
    extern "C" {
        pub fn folds_check(file: *const u8, file_len: usize, nested: bool) -> Count;
        pub fn folds_read(
            file: *const u8, file_len: usize, heights: *mut u16, heights_len: usize, widths: *mut u16,
            widths_len: usize, gaps: *mut u16, gaps_len: usize, marks: *mut u16, marks_len: usize,
        ) -> Count;
        pub fn folds_lookup(file: *const u8, file_len: usize, number: usize) -> Part;
        pub fn folds_write(
            heights: *const u16, heights_len: usize, widths: *const u16, widths_len: usize, gaps: *const u16,
            gaps_len: usize, marks: *const u16, marks_len: usize, file: *mut u8, file_len: usize,
        ) -> Count;
        pub fn folds_measure(
            file: *const u8, file_len: usize, nested: bool, placements: *const u32, placements_len: usize,
        ) -> Outline;
        pub fn folds_choose(
            file: *const u8, file_len: usize, nested: bool, first: *const u32, first_len: usize, second: *const u32,
            second_len: usize,
        ) -> u32;
        pub fn folds_to_height(
            file: *const u8, file_len: usize, nested: bool, limit: u32, placements: *mut u32, placements_len: usize,
            work: *mut u32, work_len: usize,
        ) -> Outline;
        pub fn folds_to_width(
            file: *const u8, file_len: usize, nested: bool, limit: u32, placements: *mut u32, placements_len: usize,
            work: *mut u32, work_len: usize,
        ) -> Outline;
        pub fn folds_smallest_area(
            file: *const u8, file_len: usize, nested: bool, placements: *mut u32, placements_len: usize,
            work: *mut u32, work_len: usize,
        ) -> Outline;
        pub fn folds_table(
            file: *const u8, file_len: usize, nested: bool, pairs: *mut u32, pairs_len: usize, work: *mut u32,
            work_len: usize,
        ) -> Count;
        pub fn folds_cells_to_height(
            heights: *const u16, heights_len: usize, limit: u32, ends: *mut u16, ends_len: usize,
        ) -> Stacks;
        pub fn folds_cells_to_count(
            heights: *const u16, heights_len: usize, most: u32, ends: *mut u16, ends_len: usize,
        ) -> Stacks;
    }
}

// SAFETY, for all twelve: a slice has as many elements as it says, is aligned and is not null; those that the library
// writes are lent mutably, so none overlaps another; and the library is proved to stay inside them for every input.

pub fn check(file: &[u8], nested: bool) -> Count {
    unsafe { c::folds_check(file.as_ptr(), file.len(), nested) }
}

pub fn read(file: &[u8], heights: &mut [u16], widths: &mut [u16], gaps: &mut [u16], marks: &mut [u16]) -> Count {
    unsafe {
        c::folds_read(
            file.as_ptr(),
            file.len(),
            heights.as_mut_ptr(),
            heights.len(),
            widths.as_mut_ptr(),
            widths.len(),
            gaps.as_mut_ptr(),
            gaps.len(),
            marks.as_mut_ptr(),
            marks.len(),
        )
    }
}

pub fn lookup(file: &[u8], number: usize) -> Part {
    unsafe { c::folds_lookup(file.as_ptr(), file.len(), number) }
}

pub fn write(heights: &[u16], widths: &[u16], gaps: &[u16], marks: &[u16], file: &mut [u8]) -> Count {
    unsafe {
        c::folds_write(
            heights.as_ptr(),
            heights.len(),
            widths.as_ptr(),
            widths.len(),
            gaps.as_ptr(),
            gaps.len(),
            marks.as_ptr(),
            marks.len(),
            file.as_mut_ptr(),
            file.len(),
        )
    }
}

pub fn measure(file: &[u8], nested: bool, placements: &[u32]) -> Outline {
    unsafe { c::folds_measure(file.as_ptr(), file.len(), nested, placements.as_ptr(), placements.len()) }
}

pub fn choose(file: &[u8], nested: bool, first: &[u32], second: &[u32]) -> u32 {
    unsafe {
        c::folds_choose(file.as_ptr(), file.len(), nested, first.as_ptr(), first.len(), second.as_ptr(), second.len())
    }
}

type Fold = unsafe extern "C" fn(*const u8, usize, bool, u32, *mut u32, usize, *mut u32, usize) -> Outline;

fn fold(call: Fold, file: &[u8], nested: bool, limit: u32, placements: &mut [u32], work: &mut [u32]) -> Outline {
    unsafe {
        call(
            file.as_ptr(),
            file.len(),
            nested,
            limit,
            placements.as_mut_ptr(),
            placements.len(),
            work.as_mut_ptr(),
            work.len(),
        )
    }
}

pub fn to_height(file: &[u8], nested: bool, limit: u32, placements: &mut [u32], work: &mut [u32]) -> Outline {
    fold(c::folds_to_height, file, nested, limit, placements, work)
}

pub fn to_width(file: &[u8], nested: bool, limit: u32, placements: &mut [u32], work: &mut [u32]) -> Outline {
    fold(c::folds_to_width, file, nested, limit, placements, work)
}

pub fn smallest_area(file: &[u8], nested: bool, placements: &mut [u32], work: &mut [u32]) -> Outline {
    unsafe {
        c::folds_smallest_area(
            file.as_ptr(),
            file.len(),
            nested,
            placements.as_mut_ptr(),
            placements.len(),
            work.as_mut_ptr(),
            work.len(),
        )
    }
}

pub fn table(file: &[u8], nested: bool, pairs: &mut [u32], work: &mut [u32]) -> Count {
    unsafe {
        c::folds_table(
            file.as_ptr(),
            file.len(),
            nested,
            pairs.as_mut_ptr(),
            pairs.len(),
            work.as_mut_ptr(),
            work.len(),
        )
    }
}

pub fn cells_to_height(heights: &[u16], limit: u32, ends: &mut [u16]) -> Stacks {
    unsafe { c::folds_cells_to_height(heights.as_ptr(), heights.len(), limit, ends.as_mut_ptr(), ends.len()) }
}

pub fn cells_to_count(heights: &[u16], most: u32, ends: &mut [u16]) -> Stacks {
    unsafe { c::folds_cells_to_count(heights.as_ptr(), heights.len(), most, ends.as_mut_ptr(), ends.len()) }
}
