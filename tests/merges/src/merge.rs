//! A random merge of lists, each in its own order.

use crate::command::Command;
use crate::random::Random;

/// Some merges change from list to list at every command, some stay for a while, some to the end.
pub fn merge<'a>(random: &mut Random, lists: &'a [Vec<Command>]) -> Vec<&'a Command> {
    let stay = random.pick(&[0, 0, 50, 90, 100]);
    let mut rest: Vec<&[Command]> =
        lists.iter().map(|list| &list[..]).filter(|list| !list.is_empty()).collect();
    let mut merged = Vec::new();
    let mut chosen = 0;
    while !rest.is_empty() {
        if chosen >= rest.len() || !random.chance(stay) {
            chosen = by_length(random, &rest);
        }
        merged.push(&rest[chosen][0]);
        rest[chosen] = &rest[chosen][1..];
        if rest[chosen].is_empty() {
            rest.swap_remove(chosen);
            chosen = rest.len();
        }
    }
    merged
}

/// A list with more left is chosen more often, so that all last until near the end.
fn by_length(random: &mut Random, rest: &[&[Command]]) -> usize {
    let mut number = random.below(rest.iter().map(|list| list.len()).sum());
    for (chosen, list) in rest.iter().enumerate() {
        if number < list.len() {
            return chosen;
        }
        number -= list.len();
    }
    0
}
