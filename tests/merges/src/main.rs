//! Users' lists of commands, merged at random, beside each list run alone, on the program NOTARY.

mod closing;
mod command;
mod examine;
mod group;
mod list;
mod merge;
mod preamble;
mod program;
mod random;
mod replies;
mod seventeen;
mod user;

use examine::examine;
use replies::Replies;
use std::process::ExitCode;

const USAGE: &str = "merges PATH [--groups N] [--merges M] [--seed S]";

/// So many differences are shown; the others are counted.
const SHOWN: usize = 5;

/// So many groups have every kind among them, and so must reach every reply.
const ALL_KINDS: u64 = 10;

struct Request {
    path: String,
    groups: u64,
    merges: usize,
    seed: u64,
}

impl Request {
    fn from(mut words: impl Iterator<Item = String>) -> Option<Request> {
        let mut request = Request { path: words.next()?, groups: 10, merges: 20, seed: 1 };
        while let Some(word) = words.next() {
            let number = words.next()?;
            match word.as_str() {
                "--groups" => request.groups = number.parse().ok()?,
                "--merges" => request.merges = number.parse().ok()?,
                "--seed" => request.seed = number.parse().ok()?,
                _ => return None,
            }
        }
        Some(request)
    }
}

/// All groups; true where nothing differs and nothing is missing.
fn compare(request: &Request) -> Result<bool, String> {
    let Request { path, groups, merges, seed } = request;
    let (mut compared, mut differences, mut replies) = (0, 0, Replies::default());
    for number in 0..*groups {
        let group = group::group(seed.wrapping_add(number));
        let findings = examine(path, &group, *merges)?;
        for difference in findings.differences.iter().take(SHOWN.saturating_sub(differences)) {
            let examine::Difference { place, wanted, got } = difference;
            println!("difference: {place}\n    wanted {wanted}\n    got    {got}");
        }
        findings.alone.iter().for_each(|line| replies.meet(line));
        compared += findings.compared;
        differences += findings.differences.len();
    }
    let (missed, reachable) = replies.missed();
    let met = reachable - missed.len();
    let runs = groups * *merges as u64;
    println!(
        "merges: {groups} groups, {runs} merges, {compared} commands compared, {differences} differences; \
         {met} of {reachable} pairs of tag and reply; replies met: {}",
        replies.met()
    );
    let all_met = *groups < ALL_KINDS || missed.is_empty();
    if !all_met {
        println!("merges: not met: {}", missed.join(", "));
    }
    Ok(differences == 0 && all_met)
}

fn main() -> ExitCode {
    let Some(request) = Request::from(std::env::args().skip(1)) else {
        eprintln!("{USAGE}");
        return ExitCode::from(2);
    };
    let both =
        compare(&request).and_then(|same| Ok(seventeen::check(&request.path, request.merges)? && same));
    match both {
        Ok(true) => ExitCode::SUCCESS,
        Ok(false) => ExitCode::FAILURE,
        Err(fault) => {
            println!("merges: {fault}");
            ExitCode::FAILURE
        }
    }
}
