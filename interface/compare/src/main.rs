//! Compares the library with implementations that share nothing with it. Argument: a seed. Status 1 on a difference.

mod calls;
mod cells;
mod damage;
mod enumerate;
mod front;
mod known;
mod marks;
mod measure;
mod rng;
mod rows;
mod rules;
mod shapes;
mod stack;
mod stacks;
mod turned;

use calls::{same, Caller, Compared};
use damage::Sides;
use enumerate::Counts;
use front::smallest;
use rng::Rng;
use stack::{random, Component, MARKS, SHAPES};
use std::{env, process::ExitCode, time::Instant};

const ENUMERATED: usize = 4_000;
const SEARCHED: usize = 18_000;
const MARKED: usize = 400;
const SCALED: usize = 3_000;
const LONG: usize = 60;
const LONGEST: usize = 28;
/// Lines of a table that the folds are held to, where tables are long.
const LINES: usize = 12;
/// Outlines that the work buffer holds, nested behind what else it holds there.
const NESTED_WAIT: usize = (rules::WORK - 6305) / 2;
const APART_WAIT: usize = rules::WORK / 2;
/// Outlines of the longest table here.
const MOST_LINES: usize = 7_719;
const DAMAGED: usize = 300_000;
const MEASURED: usize = 4_000;

fn main() -> ExitCode {
    let seed = env::args().nth(1).map_or(Ok(1), |word| word.parse::<u64>());
    let Ok(seed) = seed else {
        eprintln!("the seed is a number");
        return ExitCode::FAILURE;
    };
    println!("seed {seed}");
    let mut caller = Caller::new(seed);
    match all(&mut caller) {
        Ok(()) => println!("no difference"),
        Err(report) => {
            println!("DIFFERENCE (seed {seed})\n{report}");
            return ExitCode::FAILURE;
        }
    }
    ExitCode::SUCCESS
}

/// Each compares one part and tells what that was.
const PARTS: [fn(&mut Caller) -> Compared<String>; 16] = [
    known,
    damaged,
    measured,
    turned::flattened,
    enumerated,
    searched,
    marked,
    scaled,
    long,
    longest,
    many_lines,
    cells::damaged,
    cells::enumerated,
    cells::tabled,
    cells::beside_apart,
    cells::long,
];

fn all(caller: &mut Caller) -> Compared<()> {
    let start = Instant::now();
    for part in PARTS {
        let what = part(caller)?;
        let calls: u64 = caller.answers.iter().sum();
        println!("{what}; so far {calls} calls, {:.1} s", start.elapsed().as_secs_f64());
    }
    for (number, count) in caller.answers.iter().enumerate() {
        println!("  {count:>9} times {}", if number == 0 { "a result".into() } else { format!("refusal {number}") });
    }
    Ok(())
}

fn known(caller: &mut Caller) -> Compared<String> {
    known::stacks(caller)?;
    known::edges(caller)?;
    marks::all(caller)?;
    turned::all(caller)?;
    Ok("known stacks and edges, fold marks, and groups without a right side".into())
}

/// Adds to a difference the stack that shows it.
fn told(stack: &[Component], nested: bool) -> impl FnOnce(String) -> String {
    let numbers = |c: &Component| format!("{}/{}/{}/{}", c.height, c.width, c.gap, c.mark);
    let stack = stack.iter().map(numbers).collect::<Vec<_>>().join(" ");
    move |what| format!("{what}\n{} stack, height/width/gap/mark: {stack}", if nested { "nested" } else { "apart" })
}

/// Groups of any length. Small numbers let components on both sides start in one row, or one end where another starts; a
/// quarter of the stacks has large ones, and a quarter of the foldings stands high.
fn measured(caller: &mut Caller) -> Compared<String> {
    for at in 0..MEASURED {
        let nested = at % 2 == 0;
        let stack = long_stack(caller, nested, at);
        let folding = long_folding(caller, &stack, Sides::of(nested));
        let other = long_folding(caller, &stack, Sides::of(nested));
        let file = stack::some_file(&mut caller.rng, &stack);
        same("the folding is legal", measure::outline(&stack, nested, &folding).is_some(), true)
            .and_then(|()| caller.measure(&file, nested, &folding))
            .and_then(|()| caller.choose(&file, nested, &folding, &other))
            .map_err(told(&stack, nested))?;
    }
    let what = "foldings of 1 to 64 components nested, 1 to 256 apart, measured row by row and chosen from";
    Ok(format!("{MEASURED} {what}"))
}

/// A stack of any length that the kind takes.
fn long_stack(caller: &mut Caller, nested: bool, at: usize) -> Vec<Component> {
    let count = caller.rng.within(1, if nested { 64 } else { 256 }) as usize;
    match caller.rng.one_in(4) {
        true => noisy(caller, count),
        false => random(&mut caller.rng, count, SHAPES[at / 2 % SHAPES.len()]),
    }
}

fn long_folding(caller: &mut Caller, stack: &[Component], sides: Sides) -> Vec<u32> {
    // A component has at most two empty rows below it.
    let most_lift = measure::HIGHEST.saturating_sub(stack::total(stack) + 2 * stack.len() as u32);
    let lift = if caller.rng.one_in(4) { most_lift } else { 0 };
    damage::random_folding(&mut caller.rng, stack, sides, stack.len(), lift)
}

fn enumerated(caller: &mut Caller) -> Compared<String> {
    let mut counts = Counts::default();
    for at in 0..ENUMERATED {
        let stack = random(&mut caller.rng, 1 + at % 5, SHAPES[at / 5 % SHAPES.len()]);
        stacks::files(caller, &stack).map_err(told(&stack, false))?;
        for nested in [false, true] {
            let spare = if stack.len() <= 3 { 2 } else { 0 };
            let own = enumerate::all(&stack, nested, spare);
            counts += own.counts;
            stacks::against(caller, &stack, nested, &own.table, own.smallest)
                .and_then(|()| stacks::broken(caller, &stack, nested, &own.some_broken))
                .map_err(told(&stack, nested))?;
        }
    }
    let Counts { legal, parted, flat, both } = counts;
    let broken = format!(
        "{parted} that part barred neighbours, {flat} nested ones with a group before the last that has no right side, \
         {both} with both faults"
    );
    Ok(format!("{ENUMERATED} stacks of 1 to 5 components, {legal} legal foldings enumerated; beside them {broken}"))
}

fn searched(caller: &mut Caller) -> Compared<String> {
    for at in 0..SEARCHED {
        let stack = random(&mut caller.rng, 1 + at % 12, SHAPES[at / 12 % SHAPES.len()]);
        for nested in [false, true] {
            let own = rows::table(&stack, nested);
            stacks::against(caller, &stack, nested, &own, smallest(&own)).map_err(told(&stack, nested))?;
        }
    }
    Ok(format!("{SEARCHED} stacks of 1 to 12 components, searched row by row"))
}

/// Long groups and many marks: the numbers are small enough to search rows, and marks keep long runs together.
fn marked(caller: &mut Caller) -> Compared<String> {
    for at in 0..MARKED {
        let nested = at % 2 == 0;
        let count = caller.rng.within(13, if nested { 64 } else { 256 }) as usize;
        let mut stack = random(&mut caller.rng, count, SHAPES[at / 2 % SHAPES.len()]);
        stack::mark(&mut caller.rng, &mut stack, MARKS[at / 2 % MARKS.len()]);
        let own = rows::table(&stack, nested);
        stacks::against(caller, &stack, nested, &own, smallest(&own)).map_err(told(&stack, nested))?;
    }
    let what = "stacks of 13 to 64 components nested, 13 to 256 apart, most with marks, searched row by row";
    Ok(format!("{MARKED} {what}"))
}

/// Multiplying all rows by one number and all slices by another multiplies the table's: which components may stand side by
/// side does not change, and the least height is a sum of heights and gaps. So large numbers need no longer search.
fn scaled(caller: &mut Caller) -> Compared<String> {
    for at in 0..SCALED {
        let small = random(&mut caller.rng, 1 + at % 8, SHAPES[at / 8 % SHAPES.len()]);
        let tallest = small.iter().map(|c| c.height.max(c.gap)).max().unwrap();
        let widest = small.iter().map(|c| c.width).max().unwrap();
        let rows = caller.rng.within(1, 4000 / tallest);
        let slices = caller.rng.within(1, 4000 / widest);
        let stack = stack::scaled(&small, rows, slices);
        for nested in [false, true] {
            let mut own = rows::table(&small, nested);
            own.iter_mut().for_each(|o| (o.width, o.height) = (o.width * slices, o.height * rows));
            stacks::against(caller, &stack, nested, &own, smallest(&own)).map_err(told(&stack, nested))?;
        }
    }
    Ok(format!("{SCALED} stacks of 1 to 8 components, scaled up to 4,000"))
}

/// Stacks that no slow implementation reaches: the table, the folds and the smallest area against each other.
fn long(caller: &mut Caller) -> Compared<String> {
    let mut lines = 0;
    for at in 0..LONG {
        let nested = at % 2 == 0;
        let most = if nested { 47 } else { 256 };
        let count = if at < 2 { most } else { caller.rng.within(13, most) } as usize;
        let small = random(&mut caller.rng, count, SHAPES[at / 2 % SHAPES.len()]);
        let stack = if at % 4 < 2 { noisy(caller, count) } else { small };
        lines +=
            stacks::with_itself(caller, &stack, nested, stacks::ROOM, stacks::LINES).map_err(told(&stack, nested))?;
    }
    Ok(format!("{LONG} stacks of 13 to 256 components, {lines} outlines against both folds"))
}

/// The longest nested stacks, of all shapes, half of them with large numbers, at more lines.
fn longest(caller: &mut Caller) -> Compared<String> {
    let mut lines = 0;
    for at in 0..LONGEST {
        let count = if at < 2 { 64 } else { caller.rng.within(48, 64) } as usize;
        let rng = &mut caller.rng;
        let stack = match at % 2 {
            0 => stack::large(rng, count, shapes::SHAPES[at / 2 % shapes::SHAPES.len()].0),
            _ => random(rng, count, SHAPES[at / 2 % SHAPES.len()]),
        };
        lines += stacks::with_itself(caller, &stack, true, stacks::ROOM, LINES).map_err(told(&stack, true))?;
    }
    Ok(format!("{LONGEST} nested stacks of 48 to 64 components, {lines} outlines against both folds"))
}

/// Tables with more outlines than wait in the work buffer before they are copied: as many as just wait, one more, and for
/// apart stacks many more. The numbers were counted outside the library. Nested ones of this length are dear, so each is
/// listed once, in a buffer that it fills or in a longer one, and refused once.
fn many_lines(caller: &mut Caller) -> Compared<String> {
    let nested = |seed: u64| stack::nested_ladder(&mut Rng(seed), 33, 27);
    let apart = |coarse: u32, fine: u32, second: u32| stack::apart_ladder(&mut Rng(1), coarse, fine, second);
    let stacks = [
        (true, nested(7), NESTED_WAIT, 0),
        (true, nested(108), NESTED_WAIT + 1, 3),
        (false, apart(35, 57, 56), APART_WAIT, 0),
        (false, apart(31, 64, 63), APART_WAIT + 1, 0),
        (false, apart(31, 64, 63), APART_WAIT + 1, 3),
        (false, apart(61, 62, 62), MOST_LINES, 2),
    ];
    for (nested, stack, count, spare) in stacks {
        full(caller, &stack, nested, count, spare).map_err(told(&stack, nested))?;
    }
    Ok(format!("tables of {NESTED_WAIT} and more outlines nested, {APART_WAIT} to {MOST_LINES} apart"))
}

/// A table of so many outlines in a buffer with so many numbers to spare, and in one that is too short.
fn full(caller: &mut Caller, stack: &[Component], nested: bool, count: usize, spare: usize) -> Compared<()> {
    let found = stacks::with_itself(caller, stack, nested, 2 * count + spare, LINES)?;
    same("the number of outlines", found, count)?;
    stacks::short(caller, stack, nested, 2 * count)
}

/// Heights, widths and gaps over their whole ranges.
fn noisy(caller: &mut Caller, count: usize) -> Vec<Component> {
    let rng = &mut caller.rng;
    let component = |at: usize| Component {
        height: rng.within(1, 4000),
        width: rng.within(1, 4000),
        gap: if at + 1 < count && rng.one_in(2) { rng.within(0, 4000) } else { 0 },
        mark: 0,
    };
    let mut stack: Vec<Component> = (0..count).map(component).collect();
    stack::mark_some(rng, &mut stack);
    stack
}

fn damaged(caller: &mut Caller) -> Compared<String> {
    for at in 0..DAMAGED {
        let call = damage::CALLS[at % damage::CALLS.len()];
        let nested = caller.rng.one_in(2);
        let file = damage::damaged_file(&mut caller.rng, call, nested);
        damage::case(caller, call, &file, nested)
            .map_err(|what| format!("{what}\n{call:?}, nested {nested}, damaged case {at}, file {file:02x?}"))?;
    }
    Ok(format!("{DAMAGED} damaged files, foldings, limits and buffers"))
}
