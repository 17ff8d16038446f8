//! What ticket 3 says of fold marks, on single stacks, files, lists and foldings, each with the answer that it must have.
//! The own rules are held to these answers too.

use crate::calls::{same, Caller, Compared, FoldCall};
use crate::enumerate;
use crate::front::{Aim, Toward};
use crate::measure::Outline;
use crate::rules::{self, WORK};
use crate::stack::{file, Component};
use crate::stacks;

/// Document 01's stack E with marks.
fn e(marks: [u32; 4]) -> Vec<Component> {
    let component = |(mark, width)| Component { height: 1, width, gap: 0, mark };
    marks.into_iter().zip([3, 1, 1, 3]).map(component).collect()
}

pub fn all(caller: &mut Caller) -> Compared<()> {
    tables(caller)?;
    files(caller)?;
    short_lists(caller)?;
    writer(caller)?;
    foldings(caller)
}

/// The tables of E with marks, found by hand: apart, nested.
fn tables(caller: &mut Caller) -> Compared<()> {
    type Lines = &'static [(u32, u32)];
    let known: [([u32; 4], Lines, Lines); 4] = [
        ([0, 0, 0, 0], &[(3, 4), (6, 2), (8, 1)], &[(3, 3), (6, 2), (8, 1)]),
        ([0, 1, 0, 0], &[(3, 4), (6, 3), (7, 2)], &[(3, 4), (4, 3), (7, 2)]),
        ([1, 0, 1, 0], &[(3, 4), (6, 2)], &[(3, 3), (6, 2)]),
        ([1, 1, 1, 0], &[(3, 4)], &[(3, 4)]),
    ];
    for (marks, apart, nested) in known {
        let stack = e(marks);
        stacks::files(caller, &stack)?;
        for (nested, lines) in [(false, apart), (true, nested)] {
            let lines: Vec<Outline> = lines.iter().map(|&(width, height)| Outline { width, height }).collect();
            let own = enumerate::all(&stack, nested, 2);
            same("a known table with marks, enumerated", &own.table, &lines)?;
            stacks::against(caller, &stack, nested, &lines, own.smallest)?;
        }
    }
    Ok(())
}

/// E's file of version 2 with other 16-bit numbers at some places.
fn changed(places: &[(usize, u16)]) -> Vec<u8> {
    let mut file = file(&e([0, 1, 0, 0]), 2);
    places.iter().for_each(|&(at, number)| file[at..at + 2].copy_from_slice(&number.to_le_bytes()));
    file
}

const VERSION: usize = 3;
const COUNT: usize = 5;
const HEIGHT: usize = 0;
const WIDTH: usize = 2;
const GAP: usize = 4;
const MARK: usize = 6;

/// The place of a number of a component, from 0, in a file of version 2.
fn at(component: usize, number: usize) -> usize {
    7 + 8 * component + number
}

/// Files that each call refuses with the same number, whatever else is wrong.
fn files(caller: &mut Caller) -> Compared<()> {
    for version in [0, 3, 4, 255, 256, 257, 258, 512, 513, 65535] {
        refused(caller, 2, &changed(&[(VERSION, version), (at(0, MARK), 2)]))?;
    }
    let mut version_1_too_long = file(&e([0; 4]), 2);
    version_1_too_long[VERSION] = 1;
    refused(caller, 3, &version_1_too_long)?;
    let mut version_2_too_short = file(&e([0; 4]), 1);
    version_2_too_short[VERSION] = 2;
    refused(caller, 3, &version_2_too_short)?;
    refused(caller, 3, &changed(&[(COUNT, 5), (at(0, MARK), 2)]))?;
    refused(caller, 4, &file(&[], 1))?;
    refused(caller, 4, &file(&[], 2))?;
    refused(caller, 4, &file(&e([1, 2, 3, 1]).repeat(65), 2))?;
    refused(caller, 5, &changed(&[(at(0, MARK), 2), (at(0, GAP), 4001), (at(3, WIDTH), 0)]))?;
    refused(caller, 5, &changed(&[(at(0, MARK), 2), (at(3, HEIGHT), 4001)]))?;
    refused(caller, 6, &changed(&[(at(0, MARK), 2), (at(3, GAP), 1)]))?;
    refused(caller, 6, &changed(&[(at(0, MARK), 2), (at(1, GAP), 4001)]))?;
    for mark in [2, 255, 256, 257, 32768, 65535] {
        (0..4).try_for_each(|component| refused(caller, 11, &changed(&[(at(component, MARK), mark)])))?;
    }
    refused(caller, 11, &changed(&[(at(3, MARK), 1)]))?;
    // A gap beside a mark is checked like any other, and a barred component may have one.
    same("a gap at a mark", rules::check(&changed(&[(at(1, GAP), 4000)]), true).is_ok(), true)?;
    caller.check(&changed(&[(at(1, GAP), 4000)]), true)
}

/// Every call that takes a stack file, with all else right, and with bad limits and short buffers, which come later.
fn refused(caller: &mut Caller, number: u32, file: &[u8]) -> Compared<()> {
    let told = |what| format!("{what}\nrefusal {number} for the file {file:02x?}");
    refused_by_all(caller, number, file).map_err(told)
}

fn refused_by_all(caller: &mut Caller, number: u32, file: &[u8]) -> Compared<()> {
    let folding = vec![0; 3 * 260];
    for nested in [false, true] {
        same("the own rules", rules::check(file, nested).err(), Some(number))?;
        caller.check(file, nested)?;
        for folding in [&folding[..], &[]] {
            caller.measure(file, nested, folding)?;
            caller.choose(file, nested, folding, folding)?;
        }
        let limits = [0, 1, 100].into_iter();
        let aims = limits.flat_map(|limit| [Toward::Height, Toward::Width].map(|toward| Aim::Within(toward, limit)));
        for aim in aims.chain([Aim::SmallestArea]) {
            for (room, work) in [(3 * 260, WORK), (0, WORK), (3 * 260, 0)] {
                same("fold", caller.fold(&FoldCall { file, nested, aim, room, work })?, Err(number))?;
            }
        }
        for (room, work) in [(600, WORK), (0, WORK), (600, 0)] {
            same("table", caller.table(file, nested, room, work)?, Err(number))?;
        }
    }
    caller.read(file, [260; 4])?;
    caller.read(file, [0; 4])?;
    (0..6).try_for_each(|component| caller.lookup(file, component))
}

/// The marks' list counts like the others, for version 1 too.
fn short_lists(caller: &mut Caller) -> Compared<()> {
    for file in [file(&e([0; 4]), 1), file(&e([0; 4]), 2), file(&e([1, 0, 1, 0]), 2)] {
        for short in 0..4 {
            let mut lengths = [4, 5, 6, 7];
            same("the own rules", rules::read(&file, lengths).is_ok(), true)?;
            caller.read(&file, lengths)?;
            lengths[short] = 3;
            same("the own rules", rules::read(&file, lengths).err(), Some(8))?;
            caller.read(&file, lengths)?;
        }
    }
    Ok(())
}

/// Lists with one fault less each time: the writer's order of refusals.
fn writer(caller: &mut Caller) -> Compared<()> {
    let short: [&[u16]; 4] = [&[0, 1], &[1, 1], &[4001, 0], &[2]];
    let none: [&[u16]; 4] = [&[]; 4];
    let many: [&[u16]; 4] = [&[0; 257], &[1; 257], &[4001; 257], &[2; 257]];
    let component: [&[u16]; 4] = [&[1, 0], &[1, 1], &[4001, 0], &[2, 0]];
    let gap: [&[u16]; 4] = [&[1, 1], &[1, 1], &[0, 1], &[2, 0]];
    let mark: [&[u16]; 4] = [&[1, 1], &[1, 1], &[3, 0], &[2, 0]];
    let last_mark: [&[u16]; 4] = [&[1, 1], &[1, 1], &[3, 0], &[1, 1]];
    let right: [&[u16]; 4] = [&[1, 1], &[1, 1], &[3, 0], &[1, 0]];
    let faults = [(3, short), (4, none), (4, many), (5, component), (6, gap), (11, mark), (11, last_mark), (8, right)];
    for (number, lists) in faults {
        for room in [0, 22] {
            same("the own rules", rules::write(lists, room).err(), Some(number))?;
            caller.write(lists, room)?;
        }
    }
    for long in 0..4 {
        let mut lists = right;
        lists[long] = &[1, 1, 0];
        same("the own rules", rules::write(lists, 100).err(), Some(3))?;
        caller.write(lists, 100)?;
    }
    same("the own rules", rules::write(right, 23).map(|file| file.len()), Ok(23))?;
    caller.write(right, 23)
}

/// Barred neighbours parted at a group's end and at a fold, and kept together with empty rows between them.
fn foldings(caller: &mut Caller) -> Compared<()> {
    let bytes = file(&e([0, 1, 0, 0]), 2);
    let at_end = [0, 0, 1, 0, 0, 0, 1, 0, 1, 1, 0, 0];
    let at_turned_end = [0, 0, 0, 0, 1, 0, 1, 0, 0, 1, 1, 0];
    let at_fold = [0, 0, 1, 0, 0, 0, 0, 1, 0, 0, 1, 1];
    let together = [0, 0, 0, 0, 1, 0, 0, 1, 7, 1, 0, 0];
    for (folding, nested, answer) in [
        (at_end, false, Err(10)),
        (at_turned_end, true, Err(10)),
        (at_fold, true, Err(10)),
        (together, true, Ok(Outline { width: 7, height: 8 })),
    ] {
        same("the own rules", rules::measure(&bytes, nested, &folding), answer)?;
        caller.measure(&bytes, nested, &folding)?;
        caller.measure(&bytes, nested, &folding[..11])?;
        caller.choose(&bytes, nested, &folding, &together)?;
        caller.choose(&bytes, nested, &together, &folding)?;
    }
    Ok(())
}
