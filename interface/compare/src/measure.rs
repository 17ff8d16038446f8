//! Document 01's rules for a legal folding and its outline, group by group and row by row, and the rules of tickets 3 and
//! 5 beside them.

use crate::stack::Component;

/// The highest start row.
pub const HIGHEST: u32 = 1_024_000;

#[derive(Clone, Copy, Debug, PartialEq, Eq)]
pub struct Outline {
    pub width: u32,
    pub height: u32,
}

impl Outline {
    /// In 64 bits: a folding can take some 10^12.
    pub fn area(&self) -> u64 {
        u64::from(self.width) * u64::from(self.height)
    }
}

#[derive(Clone, Copy)]
struct Placed {
    component: Component,
    group: u32,
    side: u32,
    start: u32,
}

impl Placed {
    fn end(&self) -> u32 {
        self.start + self.component.height
    }
}

/// What breaks a folding that keeps document 01's rules.
#[derive(Clone, Copy, Debug, Default, PartialEq, Eq)]
pub struct Faults {
    /// Ticket 3: a component with mark 1 and its successor differ in group or side.
    pub parted: bool,
    /// Ticket 5: a group of a nested folding has no right side and is not the last.
    pub flat: bool,
}

impl Faults {
    pub const NONE: Faults = Faults { parted: false, flat: false };
}

/// The outline of a folding, or nothing where it is broken. There are three numbers for each component.
pub fn outline(stack: &[Component], nested: bool, folding: &[u32]) -> Option<Outline> {
    let (outline, faults) = with_faults(stack, nested, folding)?;
    (faults == Faults::NONE).then_some(outline)
}

/// The outline of a folding and what else breaks it, or nothing where it breaks one of document 01's rules.
pub fn with_faults(stack: &[Component], nested: bool, folding: &[u32]) -> Option<(Outline, Faults)> {
    let place = |(c, p): (&Component, &[u32])| Placed { component: *c, group: p[0], side: p[1], start: p[2] };
    let mut rest: Vec<Placed> = stack.iter().zip(folding.chunks_exact(3)).map(place).collect();
    let parted = rest.windows(2).any(|two| parted(two[0], two[1]));
    let mut layout = Outline { width: 0, height: 0 };
    let (mut number, mut gap_before, mut flat) = (0, 0, false);
    while !rest.is_empty() {
        let length = rest.iter().take_while(|p| p.group == number).count();
        let group: Vec<Placed> = rest.drain(..length).collect();
        let (left, right) = sides(&group, nested)?;
        let one = group_outline(left, right, gap_before);
        layout = Outline { width: layout.width + one.width, height: layout.height.max(one.height) };
        flat |= nested && right.is_empty() && !rest.is_empty();
        gap_before = group[length - 1].component.gap;
        number += 1;
    }
    Some((layout, Faults { parted, flat }))
}

/// Where a mark is 1, the component and its successor have the same group and side.
fn parted(one: Placed, next: Placed) -> bool {
    one.component.mark == 1 && (one.group, one.side) != (next.group, next.side)
}

/// The two sides of a legal group; nothing for a broken one, as an empty one is.
fn sides(group: &[Placed], nested: bool) -> Option<(&[Placed], &[Placed])> {
    let (left, right) = group.split_at(group.iter().take_while(|p| p.side == 0).count());
    let in_range = group.iter().all(|p| p.start <= HIGHEST);
    let sides = !left.is_empty() && right.iter().all(|p| p.side == 1) && (nested || right.is_empty());
    let clear = in_range
        && left.windows(2).all(|pair| pair[0].start >= pair[1].end())
        && right.windows(2).all(|pair| pair[1].start >= pair[0].end());
    (sides && clear).then_some((left, right))
}

fn group_outline(left: &[Placed], right: &[Placed], gap_before: u32) -> Outline {
    let all = || left.iter().chain(right);
    let mut rows = vec![0; all().map(Placed::end).max().unwrap() as usize];
    for p in all() {
        rows[p.start as usize..p.end() as usize].iter_mut().for_each(|sum| *sum += p.component.width);
    }
    let gap_after = all().last().unwrap().component.gap;
    let routing = match right.is_empty() {
        true => gap_before + gap_after,
        false => gap_before.max(gap_after) + left[left.len() - 1].component.gap,
    };
    Outline { width: rows.iter().copied().max().unwrap(), height: rows.len() as u32 + routing }
}
