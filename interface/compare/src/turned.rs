//! What ticket 5 says of groups without a right side, on single foldings, each with the answer that it must have, and on
//! random ones of which one group loses its right side. The own rules are held to these answers too.

use crate::calls::{same, Caller, Compared};
use crate::damage::{random_folding, stand, Sides};
use crate::measure::{with_faults, Faults, Outline};
use crate::rng::Rng;
use crate::rules::{self, Answer};
use crate::stack::{file, plain, random, some_file, Component, SHAPES};
use crate::told;

const FLATTENED: usize = 3_000;

fn outline(width: u32, height: u32) -> Answer<Outline> {
    Ok(Outline { width, height })
}

pub fn all(caller: &mut Caller) -> Compared<()> {
    stack_f(caller)?;
    apart_as_nested(caller)?;
    equal_components(caller)?;
    in_order_of_refusals(caller)
}

/// A folding, given as group, side and start row of each component, is measured as one kind and chosen from.
fn answered(
    caller: &mut Caller, stack: &[Component], nested: bool, folding: &[[u32; 3]], answer: Answer<Outline>,
) -> Compared<()> {
    let (flat, bytes) = (folding.concat(), file(stack, 2));
    let held = |caller: &mut Caller| {
        same("the own rules", rules::measure(&bytes, nested, &flat), answer)?;
        caller.measure(&bytes, nested, &flat)?;
        caller.choose(&bytes, nested, &flat, &flat)
    };
    held(caller).map_err(|what| format!("{what}\nfolding {folding:?}, nested {nested}, must be {answer:?}"))
}

/// Document 01's stack F: the folding that was the best for two rows, with its first component alone in front; what is best
/// now; and one whose last group has no right side.
fn stack_f(caller: &mut Caller) -> Compared<()> {
    let f = plain(&[(2, 5), (1, 4), (1, 1), (1, 4), (1, 1)]);
    let flat_in_front = [[0, 0, 0], [1, 0, 1], [1, 0, 0], [1, 1, 0], [1, 1, 1]];
    let turned = [[0, 0, 0], [0, 1, 0], [1, 0, 1], [1, 0, 0], [1, 1, 1]];
    let flat_last = [[0, 0, 0], [0, 1, 0], [1, 0, 2], [1, 0, 1], [1, 0, 0]];
    answered(caller, &f, true, &flat_in_front, Err(10))?;
    answered(caller, &f, true, &turned, outline(13, 2))?;
    answered(caller, &f, true, &flat_last, outline(13, 3))
}

/// Apart foldings, measured as such and as nested ones: only of one group they are both.
fn apart_as_nested(caller: &mut Caller) -> Compared<()> {
    let mut c = plain(&[(1, 1), (1, 1)]);
    c[0].gap = 5;
    let (two, one_group) = ([[0, 0, 0], [1, 0, 0]], [[0, 0, 1], [0, 0, 0]]);
    answered(caller, &c, false, &two, outline(2, 6))?;
    answered(caller, &c, true, &two, Err(10))?;
    answered(caller, &c, false, &one_group, outline(1, 2))?;
    answered(caller, &c, true, &one_group, outline(1, 2))?;
    answered(caller, &c[1..], true, &[[0, 0, 7]], outline(1, 8))
}

/// Six equal components in three groups, each of which may lack its right side. Only the last may.
fn equal_components(caller: &mut Caller) -> Compared<()> {
    let six = plain(&[(1, 1); 6]);
    for lacking in 0..8 {
        let flat = |group: u32| lacking >> group & 1 == 1;
        let pair = |group: u32| match flat(group) {
            true => [[group, 0, 1], [group, 0, 0]],
            false => [[group, 0, 0], [group, 1, 0]],
        };
        let folding = [0, 1, 2].map(pair).concat();
        let width = 6 - [0, 1, 2].into_iter().filter(|&group| flat(group)).count() as u32;
        let answer = if flat(0) || flat(1) { Err(10) } else { outline(width, 1 + u32::from(flat(2))) };
        answered(caller, &six, true, &folding, answer)?;
    }
    Ok(())
}

/// Such a folding breaks nothing that is checked before 10.
fn in_order_of_refusals(caller: &mut Caller) -> Compared<()> {
    let bytes = file(&plain(&[(1, 1), (1, 1)]), 1);
    let two = [0, 0, 0, 1, 0, 0];
    for (bytes, folding, number) in [(&bytes[..], &two[..], 10), (&bytes, &two[..5], 8), (&bytes[..18], &two, 3)] {
        same("the own rules", rules::measure(bytes, true, folding), Err(number))?;
        caller.measure(bytes, true, folding)?;
        caller.choose(bytes, true, folding, folding)?;
    }
    Ok(())
}

/// Of legal nested foldings the first, the last or some group loses its right side. All else stays, so that is the only
/// fault, or there is none where the group is the last.
pub fn flattened(caller: &mut Caller) -> Compared<String> {
    let mut broken = 0;
    for at in 0..FLATTENED {
        let count = caller.rng.within(2, 64) as usize;
        let stack = random(&mut caller.rng, count, SHAPES[at % SHAPES.len()]);
        let last = without_right_side(caller, &stack).map_err(told(&stack, true))?;
        drawn(caller, &stack).map_err(told(&stack, true))?;
        broken += usize::from(!last);
    }
    let what = "of which one group has lost its right side";
    Ok(format!("{FLATTENED} nested foldings of 2 to 64 components {what}, {broken} times not the last"))
}

/// Whether the group was the last.
fn without_right_side(caller: &mut Caller, stack: &[Component]) -> Compared<bool> {
    let rng = &mut caller.rng;
    let most = rng.pick(&[2, 5, 64]);
    let folding = random_folding(rng, stack, Sides::Turned, most, 0);
    let last = folding[folding.len() - 3];
    let group = match rng.below(3) {
        0 => 0,
        1 => last,
        _ => rng.within(0, last),
    };
    let flat = on_the_left(rng, stack, &folding, group);
    let faults = Faults { parted: false, flat: group != last };
    same("the own rules", with_faults(stack, true, &flat).map(|(_, faults)| faults), Some(faults))?;
    let bytes = some_file(rng, stack);
    caller.measure(&bytes, true, &flat)?;
    caller.choose(&bytes, true, &folding, &flat)?;
    Ok(group == last)
}

/// The same folding with all components of a group on the left, the last of them lowest.
fn on_the_left(rng: &mut Rng, stack: &[Component], folding: &[u32], group: u32) -> Vec<u32> {
    let members: Vec<usize> = (0..stack.len()).filter(|&at| folding[3 * at] == group).collect();
    let mut flat = folding.to_vec();
    stand(rng, stack, &mut flat, [group, 0, 0], members.into_iter().rev());
    flat
}

/// Foldings whose sides are drawn without asking for the rule: only it can break them.
fn drawn(caller: &mut Caller, stack: &[Component]) -> Compared<()> {
    let (sides, most) = (caller.rng.pick(&[Sides::Left, Sides::Any]), caller.rng.pick(&[2, 5, 64]));
    let folding = random_folding(&mut caller.rng, stack, sides, most, 0);
    let faults = with_faults(stack, true, &folding).map(|(_, faults)| faults);
    same("the own rules", faults.is_some_and(|faults| !faults.parted), true)?;
    let bytes = some_file(&mut caller.rng, stack);
    caller.measure(&bytes, true, &folding)?;
    caller.measure(&bytes, false, &folding)
}
