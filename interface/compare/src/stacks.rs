//! Valid stacks: tables and folds against an own table, or, where there is none, against each other.

use crate::calls::{same, Caller, Compared, FoldCall};
use crate::front::{best, smallest, Aim, Toward};
use crate::measure::Outline;
use crate::rules::{self, Answer, LAST_LIMIT, WORK};
use crate::stack::{file, some_file, versions, Component};

/// Lines of a table that the folds are held to, where stacks are many.
pub const LINES: usize = 3;

/// Numbers that hold every table of a stack here.
pub const ROOM: usize = 1 << 15;

/// Reading and looking up a stack's files, of both versions where there are two, and writing it: the bytes written are
/// those of the version 2 file, which reads back to the stack.
pub fn files(caller: &mut Caller, stack: &[Component]) -> Compared<()> {
    let (n, spare) = (stack.len(), caller.rng.below(4));
    for &version in versions(stack) {
        let bytes = file(stack, version);
        caller.check(&bytes, false)?;
        caller.check(&bytes, true)?;
        caller.read(&bytes, [n, n + 1, n + 2, n + spare])?;
        let mut one_short = [n; 4];
        one_short[caller.rng.below(4)] -= 1;
        caller.read(&bytes, one_short)?;
        (0..=n + 1).try_for_each(|number| caller.lookup(&bytes, number))?;
    }
    let list = |of: fn(&Component) -> u32| stack.iter().map(|c| of(c) as u16).collect::<Vec<u16>>();
    let lists = [list(|c| c.height), list(|c| c.width), list(|c| c.gap), list(|c| c.mark)];
    caller.write(lists.each_ref().map(|list| &list[..]), 7 + 8 * n + spare)
}

/// The table and the folds of one kind, against the own table, and the smallest area against the own one.
pub fn against(
    caller: &mut Caller, stack: &[Component], nested: bool, own: &[Outline], least: Outline,
) -> Compared<()> {
    let bytes = some_file(&mut caller.rng, stack);
    let spare = caller.rng.below(4);
    let listed = caller.table(&bytes, nested, 2 * own.len() + spare, WORK + spare)?;
    same("the table", listed, Ok(own.to_vec()))?;
    short(caller, stack, nested, 2 * own.len())?;
    let listed = Listed { bytes: &bytes, n: stack.len(), nested, table: own };
    listed.folds(caller, LINES)?;
    listed.smallest(caller, least)
}

/// Foldings that measuring must refuse with 10, and choosing from too.
pub fn broken(caller: &mut Caller, stack: &[Component], nested: bool, foldings: &[Vec<u32>]) -> Compared<()> {
    let bytes = file(stack, 2);
    for folding in foldings {
        same("the own rules", rules::measure(&bytes, nested, folding), Err(10))?;
        caller.measure(&bytes, nested, folding)?;
        caller.choose(&bytes, nested, folding, &foldings[0])?;
    }
    Ok(())
}

/// The same for stacks with no own table: the library's table, in a buffer of so many numbers, must agree with its own
/// folds at so many lines, and with its smallest area. Gives the number of its outlines.
pub fn with_itself(
    caller: &mut Caller, stack: &[Component], nested: bool, room: usize, lines: usize,
) -> Compared<usize> {
    let bytes = some_file(&mut caller.rng, stack);
    let table = match caller.table(&bytes, nested, room, WORK)? {
        Ok(table) => table,
        Err(number) => return Err(format!("a valid stack's table is refused with {number}")),
    };
    let listed = Listed { bytes: &bytes, n: stack.len(), nested, table: &table };
    listed.folds(caller, lines)?;
    listed.smallest(caller, smallest(&table))?;
    Ok(table.len())
}

/// A table that needs a buffer of so many numbers, in one that has room for one line less.
pub fn short(caller: &mut Caller, stack: &[Component], nested: bool, full: usize) -> Compared<()> {
    let less = 1 + caller.rng.below(2);
    let bytes = some_file(&mut caller.rng, stack);
    let short = caller.table(&bytes, nested, full - less, WORK)?;
    same("a table with room for one line less", short, Err(8))
}

/// A stack's file and all its unbeaten outlines of one kind, which say what each fold must answer.
struct Listed<'a> {
    bytes: &'a [u8],
    n: usize,
    nested: bool,
    table: &'a [Outline],
}

impl Listed<'_> {
    /// Both folds at some lines, spread evenly from a random one on; past the table's ends; and at any limits.
    fn folds(&self, caller: &mut Caller, lines: usize) -> Compared<()> {
        let (count, first) = (self.table.len(), caller.rng.below(self.table.len()));
        let tried = lines.min(count);
        (0..tried).try_for_each(|i| self.line(caller, (first + i * count / tried) % count))?;
        let (narrowest, lowest) = (self.table[0], self.table[count - 1]);
        self.ask(caller, Toward::Height, lowest.height - 1)?;
        self.ask(caller, Toward::Width, narrowest.width - 1)?;
        for toward in [Toward::Height, Toward::Width] {
            let most = narrowest.height.max(lowest.width) + 2;
            for limit in [1, caller.rng.within(1, most), LAST_LIMIT] {
                self.ask(caller, toward, limit)?;
            }
        }
        Ok(())
    }

    /// At a line's limits that line is the answer; between them and those of the line beside it, one of the two; one
    /// below them, the line beside it, or there is none.
    fn line(&self, caller: &mut Caller, at: usize) -> Compared<()> {
        let (line, next) = (self.table[at], self.table.get(at + 1));
        let lower = next.map_or(0, |next| next.height);
        let height = caller.rng.within(lower, line.height - 1);
        for limit in [line.height, line.height - 1, height] {
            self.ask(caller, Toward::Height, limit)?;
        }
        let wider = next.map_or(line.width + 1, |next| next.width);
        let width = caller.rng.within(line.width, wider - 1);
        for limit in [line.width, line.width - 1, width] {
            self.ask(caller, Toward::Width, limit)?;
        }
        Ok(())
    }

    fn ask(&self, caller: &mut Caller, toward: Toward, limit: u32) -> Compared<()> {
        let aim = Aim::Within(toward, limit);
        same(&format!("fold to {toward:?} {limit}"), self.fold(caller, aim)?, best(self.table, aim))
    }

    fn smallest(&self, caller: &mut Caller, least: Outline) -> Compared<()> {
        same("the smallest area", self.fold(caller, Aim::SmallestArea)?, Ok(least))
    }

    fn fold(&self, caller: &mut Caller, aim: Aim) -> Compared<Answer<Outline>> {
        let (room, work) = (3 * self.n + caller.rng.below(5), WORK + caller.rng.below(3));
        caller.fold(&FoldCall { file: self.bytes, nested: self.nested, aim, room, work })
    }
}
