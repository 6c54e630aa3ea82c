//! The self-check: with seventeen users the property does not hold, and the comparison must see it.

use crate::examine::{examine, Difference};
use crate::group::all_come;

/// He who comes last finds every place taken; alone he is admitted.
fn shut_out(difference: &Difference) -> bool {
    difference.wanted == "01 0 -" && difference.got == "01 8 -"
}

/// Sixteen users who only come do not differ; with one more, one of them does in every merge.
pub fn check(path: &str, merges: usize) -> Result<bool, String> {
    let sixteen = examine(path, &all_come(16), merges)?.differences.len();
    let differences = examine(path, &all_come(17), merges)?.differences;
    let shut = differences.iter().filter(|difference| shut_out(difference)).count();
    println!(
        "merges: self-check, {merges} merges each: of 16 users {sixteen} differ, \
         of 17 users {} (0 alone, 8 merged: {shut})",
        differences.len()
    );
    Ok(sixteen == 0 && shut == merges && differences.len() == merges && merges > 0)
}
