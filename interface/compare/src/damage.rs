//! Damaged files, foldings, limits and buffers. The own rules say which refusal each must have, if any.

use crate::calls::{same, Call, Caller, Compared, FoldCall};
use crate::front::{best, Aim, Toward};
use crate::measure::HIGHEST;
use crate::rng::Rng;
use crate::rows;
use crate::rules::{self, WORK};
use crate::stack::{self, Component, SHAPES};

/// Above this the row search would take too long; the answer is then held only to the checks that need none.
const MOST_STATES: u64 = 20_000;

pub const CALLS: [Call; 10] = [
    Call::Check,
    Call::Read,
    Call::Lookup,
    Call::Write,
    Call::Measure,
    Call::Choose,
    Call::Fold(Toward::Height),
    Call::Fold(Toward::Width),
    Call::SmallestArea,
    Call::Table,
];

/// One call on damaged input.
pub fn case(caller: &mut Caller, call: Call, file: &[u8], nested: bool) -> Compared<()> {
    let rng = &mut caller.rng;
    let n = components(file);
    match call {
        Call::Check => caller.check(file, nested),
        Call::Read => {
            let lengths = [(); 4].map(|_| length(rng, n));
            caller.read(file, lengths)
        }
        Call::Lookup => {
            let number = rng.pick(&[0, 1, n / 2, n, n + 1, usize::MAX]);
            caller.lookup(file, number)
        }
        Call::Write => write(caller, file),
        Call::Measure => {
            let folding = damaged_folding(rng, file, nested);
            caller.measure(file, nested, &folding)
        }
        Call::Choose => choose(caller, file, nested),
        Call::Fold(toward) => {
            let limit = limit(rng);
            fold(caller, file, nested, Aim::Within(toward, limit))
        }
        Call::SmallestArea => fold(caller, file, nested, Aim::SmallestArea),
        Call::Table => table(caller, file, nested),
    }
}

/// Bytes that a component of the file has by its version, if that is one.
fn bytes_each(file: &[u8]) -> usize {
    match file.get(3) {
        Some(2) => 8,
        _ => 6,
    }
}

/// How many components the file has room for.
fn components(file: &[u8]) -> usize {
    file.len().saturating_sub(7) / bytes_each(file)
}

/// A file with up to three damages, so that the order of refusals shows. Some have none: then it is the folding, the limit
/// or a buffer that may be wrong.
pub fn damaged_file(rng: &mut Rng, call: Call, nested: bool) -> Vec<u8> {
    let (count, shape) = (1 + rng.below(6), rng.pick(&SHAPES));
    let stack = stack::random(rng, count, shape);
    let mut file = stack::some_file(rng, &stack);
    for _ in 0..rng.pick(&[0, 0, 1, 1, 2, 3]) {
        damage_file(rng, &mut file, call, nested);
    }
    file
}

fn damage_file(rng: &mut Rng, file: &mut Vec<u8>, call: Call, nested: bool) {
    match rng.below(9) {
        0 => flip(rng, file, usize::MAX),
        1 => flip(rng, file, 7),
        2 => file.truncate(rng.below(file.len() + 1)),
        3 => file.extend((0..1 + rng.below(7)).map(|_| rng.next() as u8).collect::<Vec<u8>>()),
        4 => put(file, 5, rng.pick(&[0, 1, 2, 7, 64, 65, 256, 257, 65535])),
        5 => put(file, 3, rng.pick(&[0, 1, 1, 2, 2, 3, 256, 257, 258, 512, 65535])),
        6 => resize(rng, file, call, nested),
        _ => bad_number(rng, file),
    }
}

fn flip(rng: &mut Rng, file: &mut [u8], before: usize) {
    if !file.is_empty() {
        let at = rng.below(file.len().min(before));
        file[at] ^= 1 << rng.below(8);
    }
}

fn put(file: &mut [u8], at: usize, number: u16) {
    if at + 2 <= file.len() {
        file[at..at + 2].copy_from_slice(&number.to_le_bytes());
    }
}

/// Another number of components, right in count and length. Long nested stacks take too long to fold by the thousand.
fn resize(rng: &mut Rng, file: &mut Vec<u8>, call: Call, nested: bool) {
    let slow = nested && matches!(call, Call::Fold(_) | Call::SmallestArea | Call::Table);
    let count = rng.pick(if slow { &[0, 1, 65, 257] } else { &[0, 1, 64, 65, 256, 257] });
    file.truncate(7);
    put(file, 5, count);
    for i in 0..count {
        let [gap, mark] = [(); 2].map(|()| if i + 1 < count { rng.below(2) as u16 } else { 0 });
        let numbers = [rng.within(1, 3) as u16, rng.within(1, 5) as u16, gap, mark];
        for number in &numbers[..bytes_each(file) / 2] {
            file.extend(number.to_le_bytes());
        }
    }
}

/// A height, width, gap or mark at the edge of its range, or past it.
fn bad_number(rng: &mut Rng, file: &mut [u8]) {
    let (components, each) = (components(file), bytes_each(file));
    if components > 0 {
        let at = if rng.one_in(3) { components - 1 } else { rng.below(components) };
        let number = rng.pick(&[0, 1, 2, 256, 4000, 4001, 32768, 65535]);
        put(file, 7 + each * at + 2 * rng.below(each / 2), number);
    }
}

/// A buffer's length: what is needed, a little more, or less.
fn length(rng: &mut Rng, need: usize) -> usize {
    match rng.below(6) {
        0 => need.saturating_sub(1 + rng.below(3)),
        1 => rng.below(need + 1),
        2 | 3 => need + rng.below(5),
        _ => need,
    }
}

fn work_length(rng: &mut Rng) -> usize {
    rng.pick(&[WORK, WORK, WORK, WORK, WORK + 5, WORK - 1, 0])
}

fn limit(rng: &mut Rng) -> u32 {
    match rng.below(6) {
        0 => rng.pick(&[0, 2_000_001, u32::MAX]),
        1 => rng.pick(&[1, 4000, 2_000_000]),
        _ => rng.within(1, 30),
    }
}

fn fold(caller: &mut Caller, file: &[u8], nested: bool, aim: Aim) -> Compared<()> {
    let rng = &mut caller.rng;
    let room = length(rng, 3 * components(file));
    let call = FoldCall { file, nested, aim, room, work: work_length(rng) };
    let answer = caller.fold(&call)?;
    match rules::fold(file, nested, aim, room, call.work) {
        Ok(stack) if rows::cost(&stack) <= MOST_STATES => same("fold", answer, best(&rows::table(&stack, nested), aim)),
        _ => Ok(()),
    }
}

fn table(caller: &mut Caller, file: &[u8], nested: bool) -> Compared<()> {
    let rng = &mut caller.rng;
    let (room, work) = (rng.below(14), work_length(rng));
    let answer = caller.table(file, nested, room, work)?;
    match rules::table(file, nested, work) {
        Ok(stack) if rows::cost(&stack) <= MOST_STATES => {
            let own = rows::table(&stack, nested);
            same("table", answer, if own.len() > room / 2 { Err(8) } else { Ok(own) })
        }
        _ => Ok(()),
    }
}

fn write(caller: &mut Caller, file: &[u8]) -> Compared<()> {
    let number = |b: &[u8], at: usize| b.get(at..at + 2).map_or(0, |b| u16::from_le_bytes([b[0], b[1]]));
    let components = || file.get(7..).unwrap_or(&[]).chunks_exact(bytes_each(file));
    let mut lists = [0, 2, 4, 6].map(|at| components().map(|b| number(b, at)).collect::<Vec<u16>>());
    let full = 7 + 8 * lists[0].len();
    let rng = &mut caller.rng;
    if rng.one_in(5) {
        lists[rng.below(4)].pop();
    }
    let room = length(rng, full);
    caller.write(lists.each_ref().map(|list| &list[..]), room)
}

fn choose(caller: &mut Caller, file: &[u8], nested: bool) -> Compared<()> {
    let rng = &mut caller.rng;
    let first = damaged_folding(rng, file, nested);
    // Equal foldings, and foldings of equal outline, are where the first must win.
    let second = if rng.one_in(3) { first.clone() } else { damaged_folding(rng, file, nested) };
    caller.choose(file, nested, &first, &second)
}

/// A folding for the file's stack, or for some other where the file is refused, with up to two damages. Some do not ask
/// for the marks, and so part barred neighbours at a group's end or at a fold, and some have the sides of another kind.
fn damaged_folding(rng: &mut Rng, file: &[u8], nested: bool) -> Vec<u32> {
    let other = [Component { height: 1, width: 1, gap: 0, mark: 0 }; 3];
    let mut stack = rules::check(file, nested).unwrap_or(other.to_vec());
    if rng.one_in(4) {
        stack.iter_mut().for_each(|c| c.mark = 0);
    }
    let sides = if rng.one_in(4) { rng.pick(&Sides::ALL) } else { Sides::of(nested) };
    let mut folding = random_folding(rng, &stack, sides, 6, 0);
    for _ in 0..rng.below(3) {
        damage_folding(rng, &mut folding);
    }
    folding
}

fn damage_folding(rng: &mut Rng, folding: &mut Vec<u32>) {
    let noise = rng.next() as u32;
    match rng.below(5) {
        0 => folding.truncate(rng.below(folding.len() + 1)),
        1 => folding.extend([noise, noise, 0, 0].iter().take(1 + rng.below(4))),
        _ if folding.len() < 3 => {}
        2 => {
            let from = rng.below(folding.len() / 3);
            folding.iter_mut().skip(3 * from).step_by(3).for_each(|group| *group = group.wrapping_add(1));
        }
        _ => {
            let (at, which) = (rng.below(folding.len() / 3), rng.below(3));
            let number = &mut folding[3 * at + which];
            let next_to = [number.wrapping_add(1), number.wrapping_sub(1)];
            *number = match which {
                0 => rng.pick(&[next_to[0], next_to[1], 0, u32::MAX]),
                1 => rng.pick(&[1 ^ (*number & 1), 0, 1, 2, u32::MAX]),
                _ => rng.pick(&[next_to[0], next_to[1], 0, next_to[0], next_to[1], HIGHEST, HIGHEST + 1, u32::MAX]),
            };
        }
    }
}

/// Which groups of a folding have a right side.
#[derive(Clone, Copy, Debug, PartialEq, Eq)]
pub enum Sides {
    /// None: apart.
    Left,
    /// All but the last, which may have one: nested, by ticket 5.
    Turned,
    /// Some: nested, by document 01 alone.
    Any,
}

impl Sides {
    const ALL: [Sides; 3] = [Sides::Left, Sides::Turned, Sides::Any];

    /// The sides of the legal foldings of a kind.
    pub fn of(nested: bool) -> Sides {
        match nested {
            true => Sides::Turned,
            false => Sides::Left,
        }
    }

    fn without_right(self, last: bool) -> bool {
        self != Sides::Turned || last
    }
}

/// A folding with such sides that keeps all other rules, with empty rows here and there. Its groups have up to `most`
/// components, or more where marks keep those together or leave no fold, and begin up to `lift` rows above row 0.
pub fn random_folding(rng: &mut Rng, stack: &[Component], sides: Sides, most: usize, lift: u32) -> Vec<u32> {
    let mut folding = vec![0; 3 * stack.len()];
    let (mut first, mut group) = (0, 0);
    while first < stack.len() {
        let (right, end) = random_group(rng, stack, sides, first, most);
        let lowest = rng.within(0, lift);
        stand(rng, stack, &mut folding, [group, 0, lowest], (first..right).rev());
        stand(rng, stack, &mut folding, [group, 1, lowest], right..end);
        (first, group) = (end, group + 1);
    }
    folding
}

/// Where the right side of a group begins and where the group ends, which is the same in a group without a right side.
fn random_group(rng: &mut Rng, stack: &[Component], sides: Sides, first: usize, most: usize) -> (usize, usize) {
    let may_part = |at: usize| stack[at - 1].mark == 0;
    let may_be_flat = |end: usize| sides.without_right(end == stack.len());
    let may_end = |end: usize| may_part(end) && (may_be_flat(end) || (first + 1..end).any(may_part));
    let least = first + 1 + rng.below((stack.len() - first).min(most));
    let end = (least..).find(|&end| may_end(end)).unwrap();
    let may_turn = |right: usize| match right == end {
        true => may_be_flat(end),
        false => sides != Sides::Left && may_part(right),
    };
    let rights: Vec<usize> = (first + 1..=end).filter(|&right| may_turn(right)).collect();
    (rng.pick(&rights), end)
}

/// Places one side of a group, its lowest component first, from that row on.
pub fn stand(
    rng: &mut Rng, stack: &[Component], folding: &mut [u32], [group, side, lowest]: [u32; 3],
    components: impl Iterator<Item = usize>,
) {
    let mut row = lowest;
    for at in components {
        row += if rng.one_in(4) { rng.within(1, 2) } else { 0 };
        folding[3 * at..3 * at + 3].copy_from_slice(&[group, side, row]);
        row += stack[at].height;
    }
}
