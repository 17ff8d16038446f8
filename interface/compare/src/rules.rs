//! Document 01's refusals with those of tickets 3 and 4, call by call: the first condition of a list that holds gives the number.

use crate::cells::Keep;
use crate::front::Aim;
use crate::measure::{outline, Outline};
use crate::stack::{self, Component};

pub const WORK: usize = 8192;
pub const LAST_LIMIT: u32 = 2_000_000;
pub const MOST_CELLS: usize = 60_000;
pub const LAST_ROW_LIMIT: u32 = 240_000_000;

/// A result or a refusal's number.
pub type Answer<T> = Result<T, u32>;

fn refuse(checks: &[(u32, bool)]) -> Answer<()> {
    match checks.iter().find(|(_, holds)| *holds) {
        Some((number, _)) => Err(*number),
        None => Ok(()),
    }
}

fn word(bytes: &[u8], at: usize) -> u32 {
    u32::from(u16::from_le_bytes([bytes[at], bytes[at + 1]]))
}

/// The components of a file of at most `most` components. Refusals 1 to 6, 11.
fn components(file: &[u8], most: usize) -> Answer<Vec<Component>> {
    refuse(&[(1, file.len() < 7 || &file[..3] != b"STK")])?;
    let (version, n) = (word(file, 3), word(file, 5) as usize);
    let each = bytes_each(file);
    refuse(&[(2, version != 1 && version != 2), (3, file.len() != 7 + each * n), (4, n == 0 || n > most)])?;
    let mark = |b: &[u8]| if version == 1 { 0 } else { word(b, 6) };
    let component = |b: &[u8]| Component { height: word(b, 0), width: word(b, 2), gap: word(b, 4), mark: mark(b) };
    let stack: Vec<Component> = file[7..].chunks(each).map(component).collect();
    numbers(&stack)?;
    Ok(stack)
}

/// Bytes of a component, in a file of version 1 or 2.
fn bytes_each(file: &[u8]) -> usize {
    match word(file, 3) {
        1 => 6,
        _ => 8,
    }
}

fn numbers(stack: &[Component]) -> Answer<()> {
    let size = |number: u32| (1..=4000).contains(&number);
    let last = stack[stack.len() - 1];
    refuse(&[
        (5, stack.iter().any(|c| !size(c.height) || !size(c.width))),
        (6, stack.iter().any(|c| c.gap > 4000) || last.gap != 0),
        (11, stack.iter().any(|c| c.mark > 1) || last.mark == 1),
    ])
}

pub fn check(file: &[u8], nested: bool) -> Answer<Vec<Component>> {
    components(file, if nested { 64 } else { 256 })
}

pub fn read(file: &[u8], lists: [usize; 4]) -> Answer<Vec<Component>> {
    let stack = components(file, 256)?;
    refuse(&[(8, lists.iter().any(|length| *length < stack.len()))])?;
    Ok(stack)
}

/// Start and length of a component's bytes.
pub fn lookup(file: &[u8], number: usize) -> (usize, usize) {
    match components(file, 256) {
        Ok(stack) if (1..=stack.len()).contains(&number) => {
            let each = bytes_each(file);
            (7 + each * (number - 1), each)
        }
        _ => (0, 0),
    }
}

/// The version 2 file of four lists.
pub fn write(lists: [&[u16]; 4], room: usize) -> Answer<Vec<u8>> {
    let n = lists[0].len();
    refuse(&[(3, lists.iter().any(|list| list.len() != n)), (4, n == 0 || n > 256)])?;
    let component = |i: usize| {
        let [height, width, gap, mark] = lists.map(|list| list[i].into());
        Component { height, width, gap, mark }
    };
    let stack: Vec<Component> = (0..n).map(component).collect();
    numbers(&stack)?;
    let file = stack::file(&stack, 2);
    refuse(&[(8, room < file.len())])?;
    Ok(file)
}

pub fn measure(file: &[u8], nested: bool, folding: &[u32]) -> Answer<Outline> {
    let stack = check(file, nested)?;
    refuse(&[(8, folding.len() / 3 < stack.len())])?;
    outline(&stack, nested, folding).ok_or(10)
}

pub fn choose(file: &[u8], nested: bool, first: &[u32], second: &[u32]) -> u32 {
    match (measure(file, nested, first), measure(file, nested, second)) {
        (Ok(a), Ok(b)) if (b.width, b.height) < (a.width, a.height) => 2,
        (Ok(_), Ok(_)) => 1,
        _ => 0,
    }
}

/// The stack of a fold call that no refusal but 9 applies to. Without a limit there is no 7, and no 9 either.
pub fn fold(file: &[u8], nested: bool, aim: Aim, room: usize, work: usize) -> Answer<Vec<Component>> {
    let stack = check(file, nested)?;
    refuse(&[(7, aim.bad_limit()), (8, room / 3 < stack.len() || work < WORK)])?;
    Ok(stack)
}

/// The stack of a table call that no refusal but 8 for too many outlines applies to.
pub fn table(file: &[u8], nested: bool, work: usize) -> Answer<Vec<Component>> {
    let stack = check(file, nested)?;
    refuse(&[(8, work < WORK)])?;
    Ok(stack)
}

/// Whether there are stacks of a row that keep the limit. Then only 8 may refuse them; so 9 comes before it.
pub fn cells(heights: &[u16], keep: Keep) -> Answer<()> {
    refuse(&[
        (12, heights.is_empty() || heights.len() > MOST_CELLS),
        (5, heights.iter().any(|height| !(1..=4000).contains(height))),
        (7, !(1..=LAST_ROW_LIMIT).contains(&keep.limit())),
        (9, matches!(keep, Keep::Height(limit) if heights.iter().any(|height| u32::from(*height) > limit))),
    ])
}
