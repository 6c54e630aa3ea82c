//! Which stream a number stands for: those made for one edge, and walks between them.

use crate::edges::Issuer;
use crate::random::Random;
use crate::rules::*;
use crate::stage::stage;
use crate::{cuts, edges, pairs, selftest, walk, write};

#[derive(Clone, Copy, Debug)]
pub enum Kind {
    Example,
    FullFacility,
    FullTable,
    Due,
    Sides,
    Refused { rule: usize },
    ShortData { tag: u8 },
    LongData { tag: u8, length: usize, by: Issuer },
    Misfits { tag: u8, would_be_done: bool },
    EvenKeys,
    UnknownTags { quarter: u8 },
    OneLongCommand { tag: u8, length: usize },
    AtEdge { tag: u8, before_edge: usize },
    Cut { tag: u8, at: usize },
    UnknownCut { tag: u8 },
    Walk,
}

/// The streams made for one edge each, those that show most first.
pub fn edge_kinds() -> Vec<Kind> {
    let mut kinds = vec![Kind::Example, Kind::EvenKeys];
    kinds.extend([0, 1, 2, 3].map(|quarter| Kind::UnknownTags { quarter }));
    kinds.extend([Kind::FullFacility; 3]);
    kinds.extend([Kind::FullTable; 3]);
    kinds.extend([Kind::Due; 8]);
    kinds.extend([Kind::Sides; 2]);
    kinds.extend((0..RULES.len()).map(|rule| Kind::Refused { rule }));
    for tag in ECBE..=DAUT {
        kinds.push(Kind::ShortData { tag });
        let lengths = [32760, 32761, 32767, 32768, 32769, 32776, 60000];
        kinds.extend(lengths.map(|length| Kind::LongData { tag, length, by: Issuer::WithAll }));
        let others = [Issuer::WithKey, Issuer::WithNothing, Issuer::Inactive, Issuer::Above];
        kinds.extend(others.map(|by| Kind::LongData { tag, length: 32776, by }));
    }
    for would_be_done in [true, false] {
        kinds.extend(RULES.iter().map(|rule| Kind::Misfits { tag: rule.tag, would_be_done }));
    }
    for tag in [0x7F, ECBE, DAUT] {
        let lengths = [65532, 65533, 65534, 65535];
        kinds.extend(lengths.map(|length| Kind::OneLongCommand { tag, length }));
    }
    for tag in [ECBE, RPW] {
        kinds.extend((0..=whole_length(tag) + 4).map(|before_edge| Kind::AtEdge { tag, before_edge }));
    }
    for rule in &RULES {
        kinds.extend((1..whole_length(rule.tag)).map(|at| Kind::Cut { tag: rule.tag, at }));
    }
    kinds.extend(pairs::unknown_tags().map(|tag| Kind::UnknownCut { tag }));
    kinds
}

/// How long the command is on its stage.
fn whole_length(tag: u8) -> usize {
    let (_, given) = stage(Random::new(0, 0), tag);
    write::command(tag, &given).len()
}

/// Every second stream is made for an edge, as long as there are any.
pub fn kind_of(kinds: &[Kind], number: usize) -> Kind {
    let for_edge = if number.is_multiple_of(2) { kinds.get(number / 2) } else { None };
    for_edge.copied().unwrap_or(Kind::Walk)
}

pub fn make(kind: Kind, random: Random) -> Vec<u8> {
    match kind {
        Kind::Example => selftest::example(),
        Kind::FullFacility => edges::full_facility(random),
        Kind::FullTable => edges::full_table(random),
        Kind::Due => edges::due(random),
        Kind::Sides => edges::sides(random),
        Kind::Refused { rule } => edges::refused(random, &RULES[rule]),
        Kind::ShortData { tag } => edges::short_data(random, tag),
        Kind::LongData { tag, length, by } => edges::long_data(random, tag, length, by),
        Kind::Misfits { tag, would_be_done } => cuts::all_misfits(random, tag, would_be_done),
        Kind::EvenKeys => edges::even_keys(random),
        Kind::UnknownTags { quarter } => cuts::unknown_tags(random, quarter),
        Kind::OneLongCommand { tag, length } => cuts::one_long_command(random, tag, length),
        Kind::AtEdge { tag, before_edge } => cuts::at_edge(random, tag, before_edge),
        Kind::Cut { tag, at } => cuts::cut(random, tag, at),
        Kind::UnknownCut { tag } => cuts::unknown_cut(random, tag),
        Kind::Walk => walk::walk(random),
    }
}
