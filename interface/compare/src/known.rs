//! The stacks and edges that document 01 publishes, as ticket 5 leaves them. Their smallest areas, and the whole nested
//! tables of D and F, are not published: the enumeration found them.

use crate::calls::{same, Caller, Compared, FoldCall};
use crate::enumerate::{self, Enumerated};
use crate::front::best;
use crate::front::Aim::{self, SmallestArea, Within};
use crate::front::Toward::{Height, Width};
use crate::measure::Outline;
use crate::rules::{Answer, WORK};
use crate::stack::{file, plain, versions, Component};

fn equal(count: usize, height: u32) -> Vec<Component> {
    plain(&vec![(height, 1); count])
}

/// The answer for the file of version 1, which must be that for version 2 without marks.
fn fold(caller: &mut Caller, stack: &[Component], nested: bool, aim: Aim) -> Compared<Answer<Outline>> {
    let mut fold = |version: u16| {
        caller.fold(&FoldCall { file: &file(stack, version), nested, aim, room: 3 * stack.len(), work: WORK })
    };
    let (first, second) = (fold(1)?, fold(2)?);
    same("the fold in version 2", second, first)?;
    Ok(first)
}

fn outline(width: u32, height: u32) -> Outline {
    Outline { width, height }
}

/// A published stack with all its foldings of one kind, one by one. Its answers are those of the library and of these.
struct Known {
    stack: Vec<Component>,
    nested: bool,
    own: Enumerated,
}

impl Known {
    /// Apart and nested.
    fn both(stack: &[Component]) -> [Known; 2] {
        [false, true].map(|nested| Known { stack: stack.to_vec(), nested, own: enumerate::all(stack, nested, 0) })
    }

    fn fold(&self, caller: &mut Caller, aim: Aim, known: Answer<Outline>) -> Compared<()> {
        same("a known fold, enumerated", best(&self.own.table, aim), known)?;
        same("a known fold", fold(caller, &self.stack, self.nested, aim)?, known)
            .map_err(|what| format!("{what}\n{aim:?}, nested {}, {:?}", self.nested, self.stack))
    }

    fn table(&self, caller: &mut Caller, lines: &[(u32, u32)]) -> Compared<()> {
        let known: Vec<Outline> = lines.iter().map(|&(width, height)| outline(width, height)).collect();
        same("a known table, enumerated", &self.own.table, &known)?;
        for &version in versions(&self.stack) {
            let library = caller.table(&file(&self.stack, version), self.nested, 4096, WORK)?;
            same("a known table", library, Ok(known.clone()))?;
        }
        Ok(())
    }

    fn area(&self, caller: &mut Caller, width: u32, height: u32) -> Compared<()> {
        same("a known smallest area, enumerated", self.own.smallest, outline(width, height))?;
        self.fold(caller, SmallestArea, Ok(outline(width, height)))
    }
}

pub fn stacks(caller: &mut Caller) -> Compared<()> {
    a_and_c(caller)?;
    let [b, b_nested] = Known::both(&plain(&[(3, 1), (1, 1), (2, 1), (4, 1)]));
    b.fold(caller, Within(Height, 5), Ok(outline(3, 4)))?;
    b.fold(caller, Within(Width, 2), Ok(outline(2, 6)))?;
    b.table(caller, &[(1, 10), (2, 6), (3, 4)])?;
    b.area(caller, 1, 10)?;
    b_nested.area(caller, 1, 10)?;
    let [d_apart, d] = Known::both(&plain(&[(5, 9), (1, 1), (5, 9), (1, 1), (4, 9), (1, 1)]));
    d.fold(caller, Within(Width, 10), Ok(outline(10, 14)))?;
    d.table(caller, &[(9, 16), (10, 14), (18, 10), (19, 9), (27, 6), (29, 5)])?;
    d_apart.area(caller, 29, 5)?;
    d.area(caller, 10, 14)?;
    let [e, e_nested] = Known::both(&plain(&[(1, 3), (1, 1), (1, 1), (1, 3)]));
    e.table(caller, &[(3, 4), (6, 2), (8, 1)])?;
    e_nested.table(caller, &[(3, 3), (6, 2), (8, 1)])?;
    e.area(caller, 8, 1)?;
    e_nested.area(caller, 8, 1)?;
    let [f_apart, f] = Known::both(&plain(&[(2, 5), (1, 4), (1, 1), (1, 4), (1, 1)]));
    f.fold(caller, Within(Height, 2), Ok(outline(13, 2)))?;
    f.table(caller, &[(5, 4), (9, 3), (13, 2)])?;
    f_apart.area(caller, 13, 2)?;
    f.area(caller, 5, 4)
}

/// The answers that are the same apart and nested. Both outlines of two equal components have the same area, and the
/// narrower is the smallest.
fn a_and_c(caller: &mut Caller) -> Compared<()> {
    let mut c = plain(&[(1, 1), (1, 1)]);
    c[0].gap = 5;
    for (a, c) in Known::both(&plain(&[(3, 2)])).iter().zip(&Known::both(&c)) {
        a.fold(caller, Within(Height, 2), Err(9))?;
        a.fold(caller, Within(Height, 3), Ok(outline(2, 3)))?;
        a.fold(caller, Within(Width, 1), Err(9))?;
        a.area(caller, 2, 3)?;
        c.table(caller, &[(1, 2)])?;
        c.fold(caller, Within(Height, 1), Err(9))?;
        c.area(caller, 1, 2)?;
    }
    for two in &Known::both(&equal(2, 1)) {
        two.table(caller, &[(1, 2), (2, 1)])?;
        two.area(caller, 1, 2)?;
    }
    Ok(())
}

/// Sizes, heights and limits that are just in range, and just out of it.
pub fn edges(caller: &mut Caller) -> Compared<()> {
    for toward in [Height, Width] {
        for (nested, most) in [(true, 64), (false, 256)] {
            same("most components", fold(caller, &equal(most, 1), nested, Within(toward, 8))?.is_ok(), true)?;
            same("one component more", fold(caller, &equal(most + 1, 1), nested, Within(toward, 8))?, Err(4))?;
            same("height 4,000", fold(caller, &equal(2, 4000), nested, Within(toward, 4000))?.is_ok(), true)?;
            same("height 4,001", fold(caller, &equal(2, 4001), nested, Within(toward, 4000))?, Err(5))?;
            same("limit 2,000,000", fold(caller, &equal(2, 1), nested, Within(toward, 2_000_000))?.is_ok(), true)?;
            same("limit 2,000,001", fold(caller, &equal(2, 1), nested, Within(toward, 2_000_001))?, Err(7))?;
        }
    }
    for (nested, most) in [(true, 64), (false, 256)] {
        same("one component more, area", fold(caller, &equal(most + 1, 1), nested, SmallestArea)?, Err(4))?;
        same("height 4,001, area", fold(caller, &equal(2, 4001), nested, SmallestArea)?, Err(5))?;
        // Without gaps all foldings into equal parts have the same area. With them apart ones have areas that, cut to 32
        // bits, would be smaller than the smallest.
        for gap in [0, 4000] {
            let mut largest = plain(&vec![(4000, 4000); most]);
            largest[..most - 1].iter_mut().for_each(|c| c.gap = gap);
            let unfolded = outline(4000, 4000 * most as u32);
            same("the largest stack's area", fold(caller, &largest, nested, SmallestArea)?, Ok(unfolded))?;
        }
    }
    for (count, version) in [64, 65, 256, 257].into_iter().flat_map(|count| [(count, 1), (count, 2)]) {
        let bytes = file(&equal(count, 4000), version);
        caller.check(&bytes, true)?;
        caller.check(&bytes, false)?;
        caller.read(&bytes, [count; 4])?;
        caller.lookup(&bytes, count)?;
    }
    Ok(())
}
