//! Each call of the library, held to the own rules: its answer, and that buffers change only where they may.

use crate::cells::{self, Keep, Stacks};
use crate::front::{Aim, Toward};
use crate::measure::{self, Outline};
use crate::rng::Rng;
use crate::rules::{self, Answer};
use stack_folds::raw;
use std::fmt::Debug;

/// A difference between the library and the own rules, told to the reader.
pub type Compared<T> = Result<T, String>;

/// A buffer lent to a call, full of noise, so that every write shows.
struct Lent<T> {
    before: Vec<T>,
    now: Vec<T>,
}

impl<T: Copy + PartialEq> Lent<T> {
    fn unchanged_from(&self, first: usize, what: &str) -> Compared<()> {
        match (first..self.now.len()).find(|&i| self.now[i] != self.before[i]) {
            Some(i) => Err(format!("{what}: entry {i} of {} was changed", self.now.len())),
            None => Ok(()),
        }
    }
}

pub fn same<T: PartialEq + Debug>(what: &str, library: T, own: T) -> Compared<()> {
    match library == own {
        true => Ok(()),
        false => Err(format!("{what}: the library has {library:?}, expected is {own:?}")),
    }
}

#[derive(Clone, Copy, Debug)]
pub enum Call {
    Check,
    Read,
    Lookup,
    Write,
    Measure,
    Choose,
    Fold(Toward),
    SmallestArea,
    Table,
}

/// A fold call, with a limit or to the smallest area, without its buffers, of which only the lengths matter.
pub struct FoldCall<'a> {
    pub file: &'a [u8],
    pub nested: bool,
    pub aim: Aim,
    pub room: usize,
    pub work: usize,
}

pub struct Caller {
    pub rng: Rng,
    /// What lent buffers are filled from; drawing anew for each would take longer than most calls.
    noise: Vec<u64>,
    /// What the last call left in its work buffer: it means something to the library, as noise does not.
    left: Vec<u32>,
    /// Calls made, by the refusal that they gave; 0 is a result.
    pub answers: [u64; 13],
}

impl Caller {
    pub fn new(seed: u64) -> Caller {
        let mut rng = Rng(seed);
        let noise = (0..1 << 16).map(|_| rng.next()).collect();
        Caller { rng, noise, left: Vec::new(), answers: [0; 13] }
    }

    fn lend<T: Copy>(&mut self, length: usize, cut: fn(u64) -> T) -> Lent<T> {
        let from = self.rng.below(self.noise.len() - length);
        let before: Vec<T> = self.noise[from..from + length].iter().map(|noise| cut(*noise)).collect();
        Lent { now: before.clone(), before }
    }

    fn lend_numbers(&mut self, length: usize) -> Lent<u32> {
        self.lend(length, |noise| noise as u32)
    }

    /// Noise, or what the last call left there: no answer may depend on either.
    fn lend_work(&mut self, length: usize) -> Lent<u32> {
        let mut work = self.lend_numbers(length);
        if self.rng.one_in(3) {
            let both = length.min(self.left.len());
            work.before[..both].copy_from_slice(&self.left[..both]);
            work.now.clone_from(&work.before);
        }
        work
    }

    fn told(&mut self, refusal: u32) -> Compared<()> {
        match self.answers.get_mut(refusal as usize) {
            Some(count) => *count += 1,
            None => return Err(format!("there is no refusal {refusal}")),
        }
        Ok(())
    }

    pub fn check(&mut self, file: &[u8], nested: bool) -> Compared<()> {
        let answer = raw::check(file, nested);
        self.told(answer.refusal)?;
        same("check", counted(answer), rules::check(file, nested).map(|stack| stack.len()))
    }

    pub fn read(&mut self, file: &[u8], lengths: [usize; 4]) -> Compared<()> {
        let mut lists = lengths.map(|length| self.lend(length, |noise| noise as u16));
        let [heights, widths, gaps, marks] = &mut lists;
        let answer = raw::read(file, &mut heights.now, &mut widths.now, &mut gaps.now, &mut marks.now);
        self.told(answer.refusal)?;
        let own = rules::read(file, lengths);
        same("read", counted(answer), own.as_ref().map(|stack| stack.len()).map_err(|number| *number))?;
        let stack = own.unwrap_or_default();
        lists.iter().try_for_each(|list| list.unchanged_from(stack.len(), "a list of read"))?;
        for (i, c) in stack.iter().enumerate() {
            let read = lists.each_ref().map(|list| u32::from(list.now[i]));
            same("a component of read", read, [c.height, c.width, c.gap, c.mark])?;
        }
        Ok(())
    }

    pub fn lookup(&mut self, file: &[u8], number: usize) -> Compared<()> {
        let part = raw::lookup(file, number);
        self.told(0)?;
        same("lookup", (part.start, part.length), rules::lookup(file, number))
    }

    pub fn write(&mut self, lists: [&[u16]; 4], room: usize) -> Compared<()> {
        let mut file = self.lend(room, |noise| noise as u8);
        let answer = raw::write(lists[0], lists[1], lists[2], lists[3], &mut file.now);
        self.told(answer.refusal)?;
        let own = rules::write(lists, room);
        same("write", counted(answer), own.as_ref().map(|bytes| bytes.len()).map_err(|number| *number))?;
        let bytes = own.unwrap_or_default();
        same("the bytes of write", &file.now[..bytes.len()], &bytes[..])?;
        file.unchanged_from(bytes.len(), "the file of write")
    }

    pub fn measure(&mut self, file: &[u8], nested: bool, folding: &[u32]) -> Compared<()> {
        let answer = raw::measure(file, nested, folding);
        self.told(answer.refusal)?;
        same("measure", outlined(answer)?, rules::measure(file, nested, folding))
            .map_err(|what| format!("{what}\nfolding {folding:?}"))
    }

    pub fn choose(&mut self, file: &[u8], nested: bool, first: &[u32], second: &[u32]) -> Compared<()> {
        let answer = raw::choose(file, nested, first, second);
        self.told(0)?;
        same("choose", answer, rules::choose(file, nested, first, second))
            .map_err(|what| format!("{what}\nfoldings {first:?} and {second:?}"))
    }

    /// The answer is held to all that needs no search: its refusals but 9, and that a folding is legal, keeps the limit
    /// and has the outline given.
    pub fn fold(&mut self, call: &FoldCall) -> Compared<Answer<Outline>> {
        let FoldCall { aim, room, work, .. } = call;
        let told = |what| format!("{what}\nfold, {aim:?}, {room} numbers of placements and {work} of work");
        self.held_fold(call).map_err(told)
    }

    fn held_fold(&mut self, call: &FoldCall) -> Compared<Answer<Outline>> {
        let (mut placements, mut work) = (self.lend_numbers(call.room), self.lend_work(call.work));
        let answer = match call.aim {
            Aim::Within(toward, limit) => {
                let library = match toward {
                    Toward::Height => raw::to_height,
                    Toward::Width => raw::to_width,
                };
                library(call.file, call.nested, limit, &mut placements.now, &mut work.now)
            }
            Aim::SmallestArea => raw::smallest_area(call.file, call.nested, &mut placements.now, &mut work.now),
        };
        self.left.clone_from(&work.now);
        self.told(answer.refusal)?;
        let answer = outlined(answer)?;
        let stack = match rules::fold(call.file, call.nested, call.aim, call.room, call.work) {
            Ok(stack) => stack,
            Err(number) => {
                same("fold", answer, Err(number))?;
                work.unchanged_from(0, "the work buffer of a refused fold")?;
                placements.unchanged_from(0, "the placements of a refused fold")?;
                return Ok(answer);
            }
        };
        let Ok(outline) = answer else {
            same("fold", answer, Err(9))?;
            same("the refused fold has a limit", call.aim != Aim::SmallestArea, true)?;
            placements.unchanged_from(0, "the placements of an unmeetable fold")?;
            return Ok(answer);
        };
        placements.unchanged_from(3 * stack.len(), "the placements of a fold")?;
        let folding = &placements.now[..3 * stack.len()];
        same("the folding's outline", Some(outline), measure::outline(&stack, call.nested, folding))?;
        self.measure(call.file, call.nested, folding)?;
        same("the limit is kept", call.aim.keeps(outline), true)?;
        Ok(answer)
    }

    /// The answer is held to all that needs no search: its refusals but 8 for too long a table, and the order of its lines.
    pub fn table(&mut self, file: &[u8], nested: bool, room: usize, work: usize) -> Compared<Answer<Vec<Outline>>> {
        let (mut pairs, mut work) = (self.lend_numbers(room), self.lend_work(work));
        let answer = raw::table(file, nested, &mut pairs.now, &mut work.now);
        self.left.clone_from(&work.now);
        self.told(answer.refusal)?;
        let answer = counted(answer);
        if let Err(number) = rules::table(file, nested, work.now.len()) {
            same("table", answer, Err(number))?;
            work.unchanged_from(0, "the work buffer of a refused table")?;
        }
        let Ok(count) = answer else {
            pairs.unchanged_from(0, "the pairs of a refused table")?;
            return Ok(answer.map(|_| Vec::new()));
        };
        same("the table has room", 2 * count <= room, true)?;
        let widths: u32 = rules::check(file, nested).map_or(0, |stack| stack.iter().map(|c| c.width).sum());
        same("no more outlines than the widths add up to", count <= widths as usize, true)?;
        pairs.unchanged_from(2 * count, "the pairs of a table")?;
        let line = |p: &[u32]| Outline { width: p[0], height: p[1] };
        let table: Vec<Outline> = pairs.now.chunks_exact(2).take(count).map(line).collect();
        let order = table.windows(2).all(|two| two[0].width < two[1].width && two[0].height > two[1].height);
        same("the table's order", order, true)?;
        Ok(Ok(table))
    }

    /// The answer is held to all that needs no search: its refusals, but whether there is an 8, and that stacks end where the
    /// list says, are those told and keep the limit.
    pub fn cells(&mut self, row: &[u16], keep: Keep, room: usize) -> Compared<Answer<Stacks>> {
        self.held_cells(row, keep, room)
            .map_err(|what| format!("{what}\n{keep:?}, {room} places for the ends of stacks"))
    }

    fn held_cells(&mut self, row: &[u16], keep: Keep, room: usize) -> Compared<Answer<Stacks>> {
        let mut ends = self.lend(room, |noise| noise as u16);
        let answer = match keep {
            Keep::Height(limit) => raw::cells_to_height(row, limit, &mut ends.now),
            Keep::Count(most) => raw::cells_to_count(row, most, &mut ends.now),
        };
        self.told(answer.refusal)?;
        let answer = stacked(answer)?;
        let own = rules::cells(row, keep);
        let Ok(stacks) = answer else {
            // No row has more stacks than cells.
            let short = if room < row.len() { own.and(Err(8)) } else { own };
            same("cells", answer.map(|_| ()), short)?;
            ends.unchanged_from(0, "the ends of refused stacks")?;
            return Ok(answer);
        };
        same("cells", Ok(()), own)?;
        let count = stacks.count as usize;
        same("there is a place for each stack", count <= room, true)?;
        ends.unchanged_from(count, "the ends of stacks")?;
        same("the stacks that end there", Some(stacks), cells::measured(row, &ends.now[..count]))
            .map_err(|what| format!("{what}\nends {:?}", &ends.now[..count.min(300)]))?;
        same("the limit is kept", keep.keeps(stacks), true)?;
        Ok(answer)
    }
}

fn counted(answer: raw::Count) -> Answer<usize> {
    match answer.refusal {
        0 => Ok(answer.count),
        number => {
            assert_eq!(answer.count, 0, "a refusal carries no count");
            Err(number)
        }
    }
}

fn outlined(answer: raw::Outline) -> Compared<Answer<Outline>> {
    let outline = Outline { width: answer.width, height: answer.height };
    if answer.refusal == 0 {
        return Ok(Ok(outline));
    }
    same("a refusal's outline", outline, Outline { width: 0, height: 0 })?;
    Ok(Err(answer.refusal))
}

fn stacked(answer: raw::Stacks) -> Compared<Answer<Stacks>> {
    let stacks = Stacks { count: answer.count, height: answer.height };
    if answer.refusal == 0 {
        return Ok(Ok(stacks));
    }
    same("the count and height of a refusal", stacks, Stacks { count: 0, height: 0 })?;
    Ok(Err(answer.refusal))
}
