//! The (tag, reply) pairs: which the page allows, which a stream can reach, which were met.

use crate::notary::Reply;
use crate::rules::{rule_of, Rule, RULES};
use std::collections::BTreeMap;

/// For each known tag the replies that a stream can reach, and those that none can.
///
/// Why none can:
/// - 2 (RAS, CPW, IPW, RPW): NOTARY's table has 768 bytes, always.
/// - 13 (modes): NOTARY's output has 32768 bytes; longer data is 12, and 12 is lower.
/// - 6 of CPW: an issuer that is active has passed RAS, so current key 1 is there,
///   and no command removes a key; an issuer that is not active is 3, and 3 is lower.
const KNOWN: [(u8, &[u8], &[u8]); 20] = [
    (0x01, &[0, 1, 4, 6, 7, 8, 9, 16, 17], &[2]),
    (0x02, &[0, 1, 3, 16, 17], &[]),
    (0x03, &[0, 1, 3, 7, 9, 16, 17], &[2, 6]),
    (0x04, &[0, 1, 3, 6, 16, 17], &[]),
    (0x05, &[0, 1, 3, 5, 6, 16, 17], &[]),
    (0x06, &[0, 1, 3, 10, 16, 17], &[]),
    (0x07, &[0, 1, 3, 5, 10, 16, 17], &[]),
    (0x08, &[0, 1, 3, 10, 16, 17], &[]),
    (0x09, &[0, 1, 3, 5, 6, 16, 17], &[]),
    (0x0A, &[0, 1, 3, 10, 12, 16, 17], &[13]),
    (0x0B, &[0, 1, 3, 10, 12, 16, 17], &[13]),
    (0x0C, &[0, 1, 3, 10, 11, 12, 16, 17], &[13]),
    (0x0D, &[0, 1, 3, 10, 11, 12, 16, 17], &[13]),
    (0x0E, &[0, 1, 3, 10, 11, 12, 16, 17], &[13]),
    (0x0F, &[0, 1, 3, 10, 11, 12, 16, 17], &[13]),
    (0x10, &[0, 1, 3, 5, 10, 11, 12, 16, 17], &[]),
    (0x20, &[0, 6, 7, 14, 16, 17], &[]),
    (0x21, &[0, 1, 6, 7, 15, 16, 17], &[2]),
    (0x22, &[0, 7, 16, 17], &[2]),
    (0x23, &[0, 1, 3, 16, 17], &[]),
];

/// Every other tag is 16 where the command is whole and 17 where it is cut.
const UNKNOWN: &[u8] = &[16, 17];

/// A refusal and a higher one of the same list that no stream makes apply at once with the
/// first as the lowest, so that only it may be given; beside these 2, which never applies.
///
/// - 1 and 4: an identifier above 268435455 is never active.
/// - 6 with 4, 7, 8 or 15: an active user, DUE, full places and a full table all need
///   that current key 1 has been there, and no command removes a key.
/// - 6 and 7 of EIK: the one asks for a name that is not 1 to 15, the other for name 1.
/// - 6 and 9 of CPW: without current key 1 nobody is active, and 3 is lower.
const NEVER_TOGETHER: [(u8, u8, u8); 9] = [
    (0x01, 1, 4),
    (0x01, 4, 6),
    (0x01, 6, 7),
    (0x01, 6, 8),
    (0x03, 6, 7),
    (0x03, 6, 9),
    (0x20, 6, 7),
    (0x21, 6, 7),
    (0x21, 6, 15),
];

pub fn unknown_tags() -> impl Iterator<Item = u8> {
    (0..=255).filter(|&tag| rule_of(tag).is_none())
}

fn reachable_replies(tag: u8) -> &'static [u8] {
    KNOWN.iter().find(|row| row.0 == tag).map_or(UNKNOWN, |row| row.1)
}

fn reachable_pairs() -> Vec<(u8, u8)> {
    let of_tag = |tag: u8| reachable_replies(tag).iter().map(move |&reply| (tag, reply));
    (0..=255).flat_map(of_tag).collect()
}

/// The first of some refusals with each of the others.
fn lowest_with_others(tag: u8, refusals: &[u8]) -> Vec<(u8, u8, u8)> {
    let Some((&lowest, others)) = refusals.split_first() else {
        return Vec::new();
    };
    others.iter().map(|&higher| (tag, lowest, higher)).collect()
}

/// Every two refusals that some stream makes apply at once, the lower of them to be given.
fn reachable_twos() -> Vec<(u8, u8, u8)> {
    let of_rule = |rule: &'static Rule| {
        let tails = (0..rule.refusals.len()).map(|n| &rule.refusals[n..]);
        tails.flat_map(|tail| lowest_with_others(rule.tag, tail))
    };
    let all = RULES.iter().flat_map(of_rule);
    all.filter(|two| two.1 != 2 && two.2 != 2 && !NEVER_TOGETHER.contains(two)).collect()
}

/// How many rows above hold 0, the command's own list, 16 and 17, each once, and of how many.
pub fn as_on_the_page() -> (usize, usize) {
    let agrees = |rule: &&Rule| {
        let row = KNOWN.iter().find(|row| row.0 == rule.tag);
        let mut listed = row.map_or(Vec::new(), |row| [row.1, row.2].concat());
        listed.sort();
        listed == [&[0], rule.refusals, UNKNOWN].concat()
    };
    (RULES.iter().filter(agrees).count(), KNOWN.len())
}

/// How often each pair was met, and each refusal given while a higher one applied too.
#[derive(Default)]
pub struct Pairs {
    pairs: BTreeMap<(u8, u8), usize>,
    together: BTreeMap<(u8, u8, u8), usize>,
}

impl Pairs {
    pub fn meet(&mut self, tag: u8, reply: &Reply) {
        *self.pairs.entry((tag, reply.number())).or_default() += 1;
        for two in lowest_with_others(tag, &reply.refusals) {
            *self.together.entry(two).or_default() += 1;
        }
    }

    /// Pairs met of those that a stream can reach, and how many those are.
    pub fn counts(&self) -> (usize, usize) {
        let reachable = reachable_pairs();
        (reachable.iter().filter(|pair| self.pairs.contains_key(pair)).count(), reachable.len())
    }

    fn times(&self, tag: u8, reply: u8) -> usize {
        self.pairs.get(&(tag, reply)).copied().unwrap_or(0)
    }

    /// Prints each known tag with its replies and how often each came; then the other tags.
    pub fn print(&self) {
        println!("tag command      reply:times met, for every reply that a stream can reach");
        for (tag, replies, unreachable) in &KNOWN {
            let cells: Vec<String> =
                replies.iter().map(|&reply| format!("{reply}:{}", self.times(*tag, reply))).collect();
            let name = rule_of(*tag).map_or("", |rule| rule.name);
            let none = if unreachable.is_empty() {
                String::new()
            } else {
                format!("  (no stream: {unreachable:?})")
            };
            println!("{tag:02X}  {name:11}  {}{none}", cells.join(" "));
        }
        for &reply in UNKNOWN {
            let met = unknown_tags().filter(|&tag| self.times(tag, reply) > 0).count();
            println!("other tags, reply {reply}: {met} of {} tags met", unknown_tags().count());
        }
        self.print_together();
    }

    fn print_together(&self) {
        let reachable = reachable_twos();
        let missed: Vec<_> = reachable.iter().filter(|two| !self.together.contains_key(two)).collect();
        let met = reachable.len() - missed.len();
        println!(
            "refusals given while a certain higher one applied too: {met} of {} that can be",
            reachable.len()
        );
        for (tag, lower, higher) in missed {
            println!("  not met: {tag:02X} with {lower} and {higher}");
        }
    }
}
